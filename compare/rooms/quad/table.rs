//! The quad's functions, a row each.

use relay_mix_quad::{motors_to_torque_signs, QuadMixer};

use comparing::inputs::once;
use comparing::row::row;
use comparing::special::special_fours;
use comparing::table::Table;

use super::call::MIXES;
use super::chains::chains;
use super::inputs::{calls, motors, states};
use super::special::{chosen_calls, special_calls};
use super::{ours, rust};

pub fn table() -> Table {
    let mut rows = vec![
        row(
            "quad new",
            once(),
            |_| ours::new(),
            |_| rust::state(&QuadMixer::new()),
        ),
        row("quad readers", states(), ours::readers, rust::read),
        row(
            "five mixes, chosen",
            chosen_calls(),
            ours::called,
            rust::called,
        ),
    ];
    for mix in MIXES {
        let name = mix.name();
        let special = format!("{name}, special values");
        rows.push(row(special, special_calls(mix), ours::called, rust::called));
        rows.push(row(name, calls(mix), ours::called, rust::called));
    }
    rows.push(row(
        "five mixes, chains",
        chains(),
        ours::chained,
        rust::chained,
    ));
    rows.push(row(
        "motors_to_torque_signs, special values",
        special_fours("motors"),
        ours::torque_signs,
        |m| motors_to_torque_signs(*m),
    ));
    rows.push(row(
        "motors_to_torque_signs",
        motors(),
        ours::torque_signs,
        |m| motors_to_torque_signs(*m),
    ));
    rows.into()
}
