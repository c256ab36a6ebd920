//! The records of the fit scale.

use comparing::list::{record, List, Record};

use super::inputs::{fits, fits_of_any_length, Fit};
use super::rust;

pub fn add(list: &mut List) {
    list.add("scale", 6, 768, fits(), scale);
    list.add("scale, lengths", 6, 320, fits_of_any_length(), scale);
}

/// The floor, then the bases, then as many deltas.
fn scale(f: &Fit) -> Record {
    let motors = f.base().len().min(f.delta().len());
    let inputs = [&[f.floor], &f.base()[..motors], &f.delta()[..motors]].concat();
    record(&inputs, &[rust::scale(f)])
}
