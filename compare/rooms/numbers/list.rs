//! The records of the functions of one number. The special ones come first, so that a short list
//! has them all.

use relay_mix_quad::passed_on as quad;

use comparing::inputs::{seeded, Inputs};
use comparing::list::{record, List};
use comparing::random::{stepped, Random, SPECIAL};

use super::inputs::FLOORS;
use super::rust;

pub fn add(list: &mut List) {
    list.add_all("sanitise", 1, numbers(), |&x| {
        record(&[x], &[quad::sanitise(x)])
    });
    list.add_all("limit", 2, numbers(), |x| record(&[*x], &[rust::limit(x)]));
    list.add_all("clamp01 of 001", 3, numbers(), |&x| {
        record(&[x], &[relay_mix_multi::clamp01(x)])
    });
    list.add_all("float and bits", 4, numbers(), |&x| record(&[x], &[x]));
    list.add_all("clamp_floor", 5, numbers_and_floors(), |x| {
        record(&[x.0, x.1], &[rust::clamp_floor(x)])
    });
}

/// Of some floats and their neighbours, number n: nine for each, from four places under it to four
/// over it.
fn around(all: &[f32], n: usize) -> Option<f32> {
    let x = all.get(n / 9)?;
    Some(stepped(*x, (n % 9) as i32 - 4))
}

/// Every special value and its neighbours, then others.
fn numbers() -> Inputs<impl Fn(u64) -> f32> {
    const SEED: u64 = 6;
    let kinds = "special values and their neighbours, any bits, flight, any mixture";
    seeded(kinds, SEED, 640, |n| {
        let mut random = Random::new(SEED, n);
        around(&SPECIAL, n as usize).unwrap_or_else(|| match n % 3 {
            0 => random.bits(),
            1 => random.flight(),
            _ => random.any(),
        })
    })
}

/// Every special value at each of the sixteen floors, every floor and its neighbours at that
/// floor, then others.
fn numbers_and_floors() -> Inputs<impl Fn(u64) -> (f32, f32)> {
    const SEED: u64 = 7;
    const PAIRS: usize = SPECIAL.len() * FLOORS.len();
    let kinds = "special values and neighbours of the floor at 16 floors, any bits, any mixture";
    seeded(kinds, SEED, 1024, |n| {
        let mut random = Random::new(SEED, n);
        let n = n as usize;
        if n < PAIRS {
            return (SPECIAL[n / FLOORS.len()], FLOORS[n % FLOORS.len()]);
        }
        match around(&FLOORS, n - PAIRS) {
            Some(x) => (x, FLOORS[(n - PAIRS) / 9]),
            None if n % 2 == 0 => (random.bits(), random.bits()),
            None => (random.any(), random.any()),
        }
    })
}
