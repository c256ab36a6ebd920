//! 001: `Mixer` over any number of rows, its two frames, `Wrench` and `clamp01`.

use comparing::inputs::{every_float, once, seeded, Inputs};
use comparing::random::Random;
use comparing::row::Row;
use rooms::frames::inputs::{fill_any, fill_rotors, wrench, wrenches};
use rooms::quad::inputs::COMMAND_KINDS;
use rooms::rows::inputs::lent_kinds;

use crate::compared::{compared, FEWER, MANY, TEXTS, WHOLE};
use crate::sides::{both_sides, equated, shown};

pub fn rows(wrong: bool) -> Vec<Row> {
    let mut rows = vec![
        compared(
            wrong,
            "clamp01",
            some_floats(),
            ours::clamped,
            rust::clamped,
        ),
        compared(
            wrong,
            "Wrench, Debug and ==",
            wrench_pairs(),
            ours::wrench_text,
            rust::wrench_text,
        ),
        mixer_row::<1>(wrong, MANY),
        mixer_row::<4>(wrong, MANY),
        mixer_row::<6>(wrong, MANY),
        mixer_row::<8>(wrong, MANY),
        mixer_row::<64>(wrong, FEWER),
        compared(
            wrong,
            "Mixer::<0>, Debug and mix",
            mixers::<0>(1),
            ours::mixer_text,
            rust::mixer_text,
        ),
        compared(
            wrong,
            "hex_x, its rows",
            once(),
            |_| ours::hex_x_text(),
            |_| rust::hex_x_text(),
        ),
        compared(
            wrong,
            "hex_x, mix",
            wrenches().first(MANY),
            ours::hex_x_mix,
            rust::hex_x_mix,
        ),
        compared(
            wrong,
            "octo_coax, its rows",
            once(),
            |_| ours::octo_coax_text(),
            |_| rust::octo_coax_text(),
        ),
        compared(
            wrong,
            "octo_coax, mix",
            wrenches().first(MANY),
            ours::octo_coax_mix,
            rust::octo_coax_mix,
        ),
    ];
    if wrong {
        rows.extend(slips());
    }
    rows
}

fn mixer_row<const M: usize>(wrong: bool, cases: u64) -> Row {
    compared(
        wrong,
        format!("Mixer::<{M}>::new, mix"),
        mixers::<M>(cases),
        ours::mixer_mix,
        rust::mixer_mix,
    )
}

// ---- inputs

/// M rows, of any numbers or as rotors have them, and a wrench.
fn mixers<const M: usize>(cases: u64) -> Inputs<impl Fn(u64) -> ([[f32; 4]; M], [f32; 4])> {
    const SEED: u64 = 31;
    seeded(&lent_kinds(), SEED, cases, |n| {
        let mut random = Random::new(SEED, n);
        let mut rows = [[0.0; 4]; M];
        match random.below(3) {
            0 => fill_rotors(&mut random, rows.as_flattened_mut()),
            _ => fill_any(&mut random, rows.as_flattened_mut()),
        }
        (rows, wrench(&mut random))
    })
}

/// One of every 4096 patterns: every sign and exponent, and the eleven upper bits of the fraction.
fn some_floats() -> Inputs<impl Fn(u64) -> f32> {
    let all = every_float();
    Inputs {
        kinds: "one of every 4096 of the 2^32 patterns".into(),
        cases: all.cases / 4096,
        ..all
    }
}

/// Two wrenches, half of them the same one twice, which is unequal where it has a NaN.
fn wrench_pairs() -> Inputs<impl Fn(u64) -> ([f32; 4], [f32; 4])> {
    const SEED: u64 = 32;
    seeded(COMMAND_KINDS, SEED, TEXTS, |n| {
        let mut random = Random::new(SEED, n);
        let one = wrench(&mut random);
        match n % 2 {
            0 => (one, one),
            _ => (one, wrench(&mut random)),
        }
    })
}

// ---- both sides

both_sides! {
    side = ours_multi | relay_mix_multi;

    use side::{clamp01, hex_x, octo_coax, Mixer, Wrench};

    // ---- names, signatures and traits

    const _: () = {
        shown::<Mixer<6>>();
        equated::<Wrench>();
    };
    const _: fn(f32) -> f32 = clamp01;
    const _: fn([[f32; 4]; 64]) -> Mixer<64> = Mixer::new;
    const _: fn(&Mixer<64>, Wrench) -> [f32; 64] = Mixer::mix;
    const _: fn() -> Mixer<6> = hex_x;
    const _: fn() -> Mixer<8> = octo_coax;

    // ---- calls

    fn wrench(&[thrust, roll, pitch, yaw]: &[f32; 4]) -> Wrench {
        Wrench {
            thrust,
            roll,
            pitch,
            yaw,
        }
    }

    pub fn clamped(&x: &f32) -> f32 {
        clamp01(x)
    }

    pub fn mixer_mix<const M: usize>((rows, w): &([[f32; 4]; M], [f32; 4])) -> [f32; M] {
        Mixer::new(*rows).mix(wrench(w))
    }

    pub fn hex_x_mix(w: &[f32; 4]) -> [f32; 6] {
        hex_x().mix(wrench(w))
    }

    pub fn octo_coax_mix(w: &[f32; 4]) -> [f32; 8] {
        octo_coax().mix(wrench(w))
    }

    // ---- texts: fields are private, and this is how their names and values show

    pub fn hex_x_text() -> String {
        format!("{:?}", hex_x())
    }

    pub fn octo_coax_text() -> String {
        format!("{:?}", octo_coax())
    }

    /// The text of a mixer, and of what it answers.
    pub fn mixer_text<const M: usize>((rows, w): &([[f32; 4]; M], [f32; 4])) -> String {
        let mixer = Mixer::new(*rows);
        format!("{mixer:?} {:?}", mixer.mix(wrench(w)))
    }

    /// The text of a wrench, and whether it is equal to itself and to another.
    pub fn wrench_text((a, b): &([f32; 4], [f32; 4])) -> String {
        let (a, b) = (wrench(a), wrench(b));
        let itself = a == { a };
        format!("{a:?} {itself} {}", a == b)
    }
}

// ---- wrong on purpose

/// Slips that a binding can make, each of which the inputs have to show.
fn slips() -> Vec<Row> {
    vec![compared(
        WHOLE,
        "rows taken column by column",
        mixers::<4>(MANY),
        |(rows, w)| {
            let turned = std::array::from_fn(|i| std::array::from_fn(|j| rows[j][i]));
            ours::mixer_mix(&(turned, *w))
        },
        rust::mixer_mix::<4>,
    )]
}
