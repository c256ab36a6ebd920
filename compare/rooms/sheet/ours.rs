//! Ours, as the crate `exported` gives it to C, and its text, which `probes` does.

use super::model::{Ran, Told};
use super::side::{Place, Side};
use crate::quad::call::State;

/// Room for a text.
const TEXT: usize = 13515;

/// What stands in a lent number before a call: no entry has it, and no part begins there.
const LENT_ENTRY: u32 = u32::MAX;
const LENT_PLACE: usize = usize::MAX;

extern "C" {
    pub fn footspandle_sheet_check(
        sheet: *const u8,
        sheet_length: usize,
        entry_number: *mut u32,
    ) -> u32;
    fn footspandle_sheet_body(
        sheet: *const u8,
        sheet_length: usize,
        i: usize,
        at: *mut usize,
    ) -> usize;
    pub fn footspandle_sheet_run_quad32(
        sheet: *const u8,
        sheet_length: usize,
        state: *mut State,
        out: *mut u8,
        out_length: usize,
        entry_number: *mut u32,
    ) -> u32;

    fn probe_sheet_text(sheet: *const u8, sheet_length: usize, text: *mut [u8; TEXT]) -> usize;
}

#[derive(Clone, Copy)]
pub struct Ours;

impl Side for Ours {
    #[inline]
    fn check(self, sheet: &[u8]) -> Told {
        let mut entry = LENT_ENTRY;
        let number = unsafe { footspandle_sheet_check(sheet.as_ptr(), sheet.len(), &mut entry) };
        (number, entry)
    }

    #[inline]
    fn run(self, sheet: &[u8], state: &State, out: &mut [u8]) -> Ran {
        let (mut state, mut entry) = (*state, LENT_ENTRY);
        let number = unsafe {
            footspandle_sheet_run_quad32(
                sheet.as_ptr(),
                sheet.len(),
                &mut state,
                out.as_mut_ptr(),
                out.len(),
                &mut entry,
            )
        };
        Ran {
            number,
            entry,
            state,
        }
    }

    #[inline]
    fn body(self, sheet: &[u8], i: usize) -> Place {
        let mut at = LENT_PLACE;
        let length = unsafe { footspandle_sheet_body(sheet.as_ptr(), sheet.len(), i, &mut at) };
        (at, length)
    }

    /// A length past the room gives all of the room, which is the text of no sheet.
    #[inline]
    fn text(self, sheet: &[u8]) -> Vec<u8> {
        let mut text = [0; TEXT];
        let length = unsafe { probe_sheet_text(sheet.as_ptr(), sheet.len(), &mut text) };
        text[..length.min(TEXT)].to_vec()
    }
}
