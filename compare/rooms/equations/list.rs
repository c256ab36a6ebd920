//! The records of the determinant and of the solution.

use comparing::answer::bits;
use comparing::list::{record, words, List, Record};

use super::inputs::{rotor_out_systems, systems, System};
use super::rust;

pub fn add(list: &mut List) {
    list.add("det3", 7, 256, systems(), |s| {
        record(&s.a, &[rust::det3(s)])
    });
    list.add("solve3", 8, 512, systems(), solve3);
    list.add("solve3, rotor-out", 8, 256, rotor_out_systems(), solve3);
}

/// The matrix, row by row, then the right side. Answers: whether there is a solution, and it.
fn solve3(s: &System) -> Record {
    let (solved, x) = rust::solve3(s);
    let inputs = [words(&s.a), words(&s.rhs)].concat();
    let [a, b, c] = x.map(|x| bits(&x));
    (inputs, vec![u32::from(solved), a, b, c])
}
