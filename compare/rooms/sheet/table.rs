//! The command sheet, a row for each group of sheets: ours against the model.

use comparing::table::Table;

use super::chosen::chosen_sheets;
use super::groups::{sheet_kinds, GROUPS};
use super::ours::Ours;
use super::row::{sheet_row, Given};

pub fn table() -> Table {
    let given = Given::default();
    let chosen = sheet_row("sheets, chosen", chosen_sheets(), Ours, &given);
    let random = GROUPS.iter();
    let random = random.map(|group| sheet_row(group.name, group.inputs(), Ours, &given));
    Table {
        before: Some(sheet_kinds()),
        rows: [chosen].into_iter().chain(random).collect(),
        after: Some(Box::new(move || {
            format!("sheets by number: {}", given.listed())
        })),
    }
}
