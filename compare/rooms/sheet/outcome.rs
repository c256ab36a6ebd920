//! What is compared of a sheet: what it is told alone, number and entry, and what it is told when
//! it is run; every byte of the output and some past it; the state afterwards; where the body of an
//! entry stands; and of some the text that `mixrun` prints.

use comparing::answer::Answer;
use comparing::hex::Hex;

use super::case::{lent_bytes, Case};
use super::model::Told;
use super::side::{Place, Side};
use crate::quad::call::State;

/// How many bytes past the output are looked at: they are not lent.
const PAST: usize = 24;

pub struct Outcome {
    checked: Told,
    pub told: Told,
    state: State,
    out: Vec<u8>,
    body: Place,
    text: Vec<u8>,
}

/// All that a side makes of a case. Reading is the program's: what is handed on for a text is only
/// what `mixrun` would have read.
pub fn outcome(side: impl Side, case: &Case) -> Outcome {
    let mut out = lent_bytes(case.room + PAST);
    let ran = side.run(&case.sheet, &case.state, &mut out[..case.room]);
    Outcome {
        checked: side.check(&case.sheet),
        told: (ran.number, ran.entry),
        state: ran.state,
        out,
        body: side.body(&case.sheet, case.index),
        text: match case.with_text {
            true => side.text(case.read()),
            false => Vec::new(),
        },
    }
}

/// From where two runs of bytes differ, the next few of each, and the place.
fn apart<'a>(a: &'a [u8], b: &'a [u8]) -> (usize, &'a [u8], &'a [u8]) {
    let at = a.iter().zip(b).take_while(|(x, y)| x == y).count();
    let few = |s: &'a [u8]| &s[at..s.len().min(at + 64)];
    (at, few(a), few(b))
}

impl Hex for Outcome {
    /// The check, the body and the text left out: what is shown of a difference, `both` says.
    fn hex(&self) -> String {
        let (number, entry) = self.told;
        format!(
            "{number} at {entry} {} {}",
            self.state.hex(),
            self.out.hex()
        )
    }
}

impl Answer for Outcome {
    #[inline]
    fn same(&self, other: &Outcome) -> bool {
        self.checked == other.checked
            && self.told == other.told
            && self.state.same(&other.state)
            && self.out == other.out
            && self.body == other.body
            && self.text == other.text
    }

    /// The parts that differ, since an output and a text are long.
    fn both(&self, other: &Outcome) -> String {
        let mut said = Vec::new();
        if self.checked != other.checked {
            let ((n, i), (m, j)) = (self.checked, other.checked);
            said.push(format!("check ours {n} at {i}, the model's {m} at {j}"));
        }
        if self.told != other.told {
            let ((n, i), (m, j)) = (self.told, other.told);
            said.push(format!("ours {n} at {i}, the model's {m} at {j}"));
        }
        if !self.state.same(&other.state) {
            let (a, b) = (self.state.hex(), other.state.hex());
            said.push(format!("state ours {a}, the model's {b}"));
        }
        if self.out != other.out {
            let (at, a, b) = apart(&self.out, &other.out);
            let (a, b) = (a.hex(), b.hex());
            said.push(format!("output from {at} ours {a}, the model's {b}"));
        }
        if self.body != other.body {
            let ((a, n), (b, m)) = (self.body, other.body);
            said.push(format!("body ours {n} from {a}, the model's {m} from {b}"));
        }
        if self.text != other.text {
            let (at, a, b) = apart(&self.text, &other.text);
            let (a, b) = (a.escape_ascii(), b.escape_ascii());
            said.push(format!("text from {at} ours '{a}', the model's '{b}'"));
        }
        said.join("; ")
    }
}
