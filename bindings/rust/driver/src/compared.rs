//! A row of the table, and how its answers are made wrong.

use comparing::answer::Answer;
use comparing::hex::Hex;
use comparing::inputs::Inputs;
use comparing::row::{row, Row};

/// What can be made wrong by the least that can be: the lowest bit of its last number turned.
pub trait Turned {
    fn turn(&mut self);
}

impl Turned for f32 {
    fn turn(&mut self) {
        *self = f32::from_bits(self.to_bits() ^ 1);
    }
}

impl Turned for usize {
    fn turn(&mut self) {
        *self ^= 1;
    }
}

impl Turned for String {
    fn turn(&mut self) {
        self.push(' ');
    }
}

impl<A: Turned, const N: usize> Turned for [A; N] {
    fn turn(&mut self) {
        if let Some(last) = self.last_mut() {
            last.turn();
        }
    }
}

impl<A, B: Turned> Turned for (A, B) {
    fn turn(&mut self) {
        self.1.turn();
    }
}

/// An input, and whether our answer to it is to be made wrong.
struct Case<I> {
    input: I,
    wrong: bool,
}

impl<I: Hex> Hex for Case<I> {
    fn hex(&self) -> String {
        self.input.hex()
    }
}

/// How many cases most rows have, and those whose cases are many calls or long texts.
pub const MANY: u64 = 1 << 20;
pub const FEWER: u64 = 1 << 18;
pub const TEXTS: u64 = 1 << 14;

/// What a row says whose answers are not to be made wrong: where ours is wrong otherwise.
pub const WHOLE: bool = false;

/// How seldom an answer is made wrong: one case of so many, the last of each.
const SELDOM: u64 = 512;

/// A row of the table. Where it is to be wrong, our answer to one case of 512 is turned.
pub fn compared<I: Hex, A: Answer + Turned>(
    wrong: bool,
    name: impl Into<String>,
    inputs: Inputs<impl Fn(u64) -> I + Sync + 'static>,
    ours: impl Fn(&I) -> A + Sync + 'static,
    rust: impl Fn(&I) -> A + Sync + 'static,
) -> Row {
    let Inputs { kinds, cases, make } = inputs;
    let every = cases.min(SELDOM);
    let make = move |n: u64| Case {
        input: make(n),
        wrong: wrong && n % every == every - 1,
    };
    row(
        name,
        Inputs { kinds, cases, make },
        move |case: &Case<I>| {
            let mut answer = ours(&case.input);
            if case.wrong {
                answer.turn();
            }
            answer
        },
        move |case| rust(&case.input),
    )
}
