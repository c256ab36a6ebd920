//! Systems of three equations, of all kinds and as rotor-out solves them.

use comparing::hex::Hex;
use comparing::inputs::{seeded, Inputs};
use comparing::random::{Random, ABOVE_ONE, BELOW_ONE, SPECIAL};

/// A matrix of three rows, row by row, and a right side.
pub struct System {
    pub a: [f32; 9],
    pub rhs: [f32; 3],
}

impl System {
    /// The matrix as the Rust takes it.
    pub fn rows(&self) -> [[f32; 3]; 3] {
        let [a, b, c, d, e, f, g, h, i] = self.a;
        [[a, b, c], [d, e, f], [g, h, i]]
    }
}

impl Hex for System {
    fn hex(&self) -> String {
        format!("{} {}", self.a.hex(), self.rhs.hex())
    }
}

/// A matrix whose determinant is near 1.0e-6 or -1.0e-6: a triangle with rows in any order.
fn almost_singular(random: &mut Random) -> [f32; 9] {
    let small = random.one_of(&[1.0e-6, -1.0e-6, 1.0e-6, 2.0e-6, 0.5e-6]);
    let corner = random.near(small);
    let rows = [
        [corner, random.flight(), random.flight()],
        [0.0, 1.0, random.flight()],
        [0.0, 0.0, random.one_of(&[1.0, -1.0, BELOW_ONE, ABOVE_ONE])],
    ];
    let first = random.below(3) as usize;
    let step = 1 + random.below(2) as usize;
    let mut a = [0.0; 9];
    for i in 0..3 {
        a[3 * i..3 * i + 3].copy_from_slice(&rows[(first + step * i) % 3]);
    }
    a
}

/// Systems of all kinds.
pub fn systems() -> Inputs<impl Fn(u64) -> System> {
    const SEED: u64 = 3;
    let kinds = "any mixture, special values, any bits, signs, determinant near small, flight";
    seeded(kinds, SEED, 1 << 28, |n| {
        let mut random = Random::new(SEED, n);
        let kind = random.below(6);
        let mut one = || match kind {
            0 => random.any(),
            1 => random.one_of(&SPECIAL),
            2 => random.bits(),
            3 => random.one_of(&[-1.0, 0.0, 1.0, 1.0]),
            _ => random.flight(),
        };
        let mut system = System {
            a: [(); 9].map(|_| one()),
            rhs: [(); 3].map(|_| one()),
        };
        if kind == 4 {
            system.a = almost_singular(&mut random);
        }
        if random.below(4) == 0 {
            system.rhs = [(); 3].map(|_| random.any());
        }
        system
    })
}

/// The signs of roll and pitch of the four rotors.
pub const ROLL: [f32; 4] = [-1.0, -1.0, 1.0, 1.0];
pub const PITCH: [f32; 4] = [1.0, -1.0, -1.0, 1.0];

/// The systems that rotor-out solves: ones, the signs of roll and of pitch of the three healthy
/// rotors, and (3t, 0, 0) or (0, roll, pitch) on the right.
pub fn rotor_out_systems() -> Inputs<impl Fn(u64) -> System> {
    const SEED: u64 = 4;
    let kinds = "the 4 matrices of rotor-out; (3t,0,0) and (0,roll,pitch)";
    seeded(kinds, SEED, 1 << 27, |n| {
        let mut random = Random::new(SEED, n);
        let lost = random.below(4) as usize;
        let h = [1, 2, 3].map(|k| (lost + k) % 4);
        let [r0, r1, r2] = h.map(|i| ROLL[i]);
        let [p0, p1, p2] = h.map(|i| PITCH[i]);
        let mut limited = |lo: f32, hi: f32| {
            let x = random.any();
            if x.is_finite() {
                x.clamp(lo, hi)
            } else {
                0.0
            }
        };
        let rhs = match n % 2 {
            0 => [3.0 * limited(0.0, 1.0), 0.0, 0.0],
            _ => [0.0, limited(-8.0, 8.0), limited(-8.0, 8.0)],
        };
        System {
            a: [1.0, 1.0, 1.0, r0, r1, r2, p0, p1, p2],
            rhs,
        }
    })
}
