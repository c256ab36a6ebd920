//! What runs a sheet: the model, ours, or a runner that is wrong on purpose.

use super::model::{self, Ran, Told};
use crate::quad::call::State;

/// Where the body of an entry begins, and its length.
pub type Place = (usize, usize);

/// What runs a sheet.
pub trait Side: Copy + Sync + 'static {
    fn check(self, sheet: &[u8]) -> Told;
    fn run(self, sheet: &[u8], state: &State, out: &mut [u8]) -> Ran;
    fn body(self, sheet: &[u8], i: usize) -> Place;
    fn text(self, sheet: &[u8]) -> Vec<u8>;
}

#[derive(Clone, Copy)]
pub struct Model;

impl Side for Model {
    fn check(self, sheet: &[u8]) -> Told {
        model::judge_alone(sheet)
    }

    fn run(self, sheet: &[u8], state: &State, out: &mut [u8]) -> Ran {
        model::run(sheet, state, out)
    }

    fn body(self, sheet: &[u8], i: usize) -> Place {
        model::body(sheet, i)
    }

    fn text(self, sheet: &[u8]) -> Vec<u8> {
        model::text(sheet)
    }
}
