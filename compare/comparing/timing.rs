//! A function of ours and another, timed on the same inputs in turns.
//!
//! The other has to be as fast as its compiler makes it. Where it is generic, or a model, it is
//! marked `#[inline]`, and so is the function that makes its `Timing`: then it is compiled in the
//! program that times it, where it has one caller, and not in the rooms, where it has many.

use std::hint::black_box;
use std::rc::Rc;
use std::time::{Duration, Instant};

/// A line of what is timed: a function of ours, and what it is timed against.
pub struct Timing {
    pub name: &'static str,
    pub against: Against,
    pub pair: Box<dyn Timed>,
}

impl Timing {
    /// Our time by the other's.
    pub fn figure(&self) -> f64 {
        let [ours, others] = self.pair.best();
        ours / others
    }
}

/// What ours is timed against, as a line names it and our time by the other's, and what that may
/// be, if it is held to anything.
#[derive(Clone, Copy)]
pub struct Against {
    pub other: &'static str,
    pub by: &'static str,
    pub limit: Option<f64>,
}

pub const RUST: Against = Against {
    other: "rust",
    by: "ratio",
    limit: Some(1.2),
};

/// Not the Rust's own, but a model that stands in its place.
pub const MODEL: Against = Against {
    limit: None,
    ..RUST
};

// ---- a pair

pub trait Timed {
    /// Whether our answers are the right ones by bits, input by input.
    fn agree(&self) -> bool;
    /// Times every part of the inputs on both sides, on the other first if told so.
    fn round(&mut self, other_first: bool);
    /// Nanoseconds for each call, ours and the other's: the best time of each part, added up.
    fn best(&self) -> [f64; 2];
}

/// What answers fold to.
pub type Fold = u64;

/// Makes a call for each input, one after another.
pub type Side<T> = Rc<dyn Fn(&[T]) -> Fold>;

/// Memory that begins a line of the cache, so that what is timed is not where it happens to stand.
#[repr(align(64))]
pub struct Line<T>(pub T);

/// A side whose calls leave their answer in N floats, which stay from one call to the next.
pub fn side<T, const N: usize>(
    first: [f32; N],
    call: impl Fn(&mut [f32; N], &T) + 'static,
) -> Side<T> {
    side_of(first, call, |memory| memory)
}

/// A side whose calls leave their answer in K floats of N.
pub fn side_of<T, const N: usize, const K: usize>(
    first: [f32; N],
    call: impl Fn(&mut [f32; N], &T) + 'static,
    answer: impl Fn(&[f32; N]) -> &[f32; K] + 'static,
) -> Side<T> {
    Rc::new(move |part| {
        let mut memory = Line(first);
        let mut fold = 0;
        for input in part {
            call(&mut memory.0, input);
            fold = folded(fold, answer(&memory.0));
        }
        fold
    })
}

/// An answer taken into the fold. Each float is read by itself, since a wide read would have to
/// wait for narrow writes, and the two sides need not write alike; and they go in one after
/// another, so that this is no work for the units that the functions compute in.
#[inline(always)]
pub fn folded<const N: usize>(fold: Fold, memory: &[f32; N]) -> Fold {
    memory.iter().fold(fold, |fold, x| {
        let x = unsafe { std::ptr::read_volatile(x) };
        fold_bits(fold, x.to_bits())
    })
}

#[inline(always)]
pub fn fold_bits(fold: Fold, bits: u32) -> Fold {
    fold.rotate_left(5) ^ u64::from(bits)
}

struct Pair<T> {
    inputs: Rc<Vec<T>>,
    part: usize,
    /// Ours, and the one that it is timed against.
    sides: [Side<T>; 2],
    /// The one whose answers ours have to be, and what those to each part fold to.
    right: Side<T>,
    folds: Vec<Fold>,
    best: Vec<[Duration; 2]>,
}

/// Ours and the Rust's on these inputs, so many of them at a time.
pub fn pair<T: 'static>(
    inputs: &Rc<Vec<T>>,
    part: usize,
    [ours, rust]: [Side<T>; 2],
) -> Box<dyn Timed> {
    let right = Rc::clone(&rust);
    unlike(inputs, part, [ours, rust], right)
}

/// Ours and another that answers something else: what ours has to answer, a third says.
pub fn unlike<T: 'static>(
    inputs: &Rc<Vec<T>>,
    part: usize,
    sides: [Side<T>; 2],
    right: Side<T>,
) -> Box<dyn Timed> {
    let folds: Vec<Fold> = inputs.chunks(part).map(|part| right(part)).collect();
    Box::new(Pair {
        inputs: Rc::clone(inputs),
        part,
        sides,
        right,
        best: vec![[Duration::MAX; 2]; folds.len()],
        folds,
    })
}

impl<T> Timed for Pair<T> {
    fn agree(&self) -> bool {
        let (ours, right) = (&self.sides[0], &self.right);
        self.inputs.chunks(1).all(|one| ours(one) == right(one))
    }

    fn round(&mut self, other_first: bool) {
        let turns = if other_first { [1, 0] } else { [0, 1] };
        let parts = self.inputs.chunks(self.part).zip(&self.folds);
        for ((part, right), best) in parts.zip(&mut self.best) {
            let mut folds = [0; 2];
            for side in turns {
                let start = Instant::now();
                folds[side] = (self.sides[side])(black_box(part));
                best[side] = best[side].min(start.elapsed());
            }
            assert_eq!(folds[0], *right, "the answers differ");
        }
    }

    fn best(&self) -> [f64; 2] {
        [0, 1].map(|side| {
            let time: Duration = self.best.iter().map(|best| best[side]).sum();
            time.as_secs_f64() * 1e9 / self.inputs.len() as f64
        })
    }
}
