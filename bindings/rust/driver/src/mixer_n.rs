//! `MixerN`.

use comparing::inputs::once;
use comparing::row::Row;
use rooms::frames::frame::Frame;
use rooms::frames::inputs::{
    frame_calls, frame_motors, frames, wrenches, RowMaker, ANY_ROWS, ROTOR_ROWS,
};

use crate::compared::{compared, MANY, WHOLE};
use crate::sides::{both_sides, plain};

pub fn rows(wrong: bool) -> Vec<Row> {
    let mut rows = vec![
        compared(
            wrong,
            "MixerN::new, n",
            frames().first(MANY),
            |f| ours::read(&ours::frame(f)),
            |f| rust::read(&rust::frame(f)),
        ),
        compared(
            wrong,
            "MixerN::new, by the compiler",
            once(),
            |_| ours::none(),
            |_| rust::none(),
        ),
        compared(
            wrong,
            "MixerN::quad_x",
            once(),
            |_| ours::quad_x(),
            |_| rust::quad_x(),
        ),
        compared(
            wrong,
            "MixerN::quad_x, mix",
            wrenches().first(MANY),
            ours::quad_x_mix,
            rust::quad_x_mix,
        ),
    ];
    let kinds: [fn() -> RowMaker; 2] = [|| ANY_ROWS, || ROTOR_ROWS];
    for kind in kinds {
        rows.extend([
            compared(
                wrong,
                "MixerN::mix",
                frame_calls(kind()).first(MANY),
                ours::frame_mix,
                rust::frame_mix,
            ),
            compared(
                wrong,
                "MixerN::achieved_wrench",
                frame_motors(kind()).first(MANY),
                ours::frame_wrench,
                rust::frame_wrench,
            ),
        ]);
    }
    if wrong {
        rows.extend(slips());
    }
    rows
}

// ---- both sides

both_sides! {
    side = ours_quad | relay_mix_quad;

    use side::{MixerN, MAX_ROTORS};

    // ---- names, signatures and traits

    const _: () = {
        plain::<MixerN>();
        assert!(MAX_ROTORS == 8);
    };
    const _: fn([[f32; 4]; 8], usize) -> MixerN = MixerN::new;
    const _: fn(&MixerN) -> usize = MixerN::n;
    const _: fn() -> MixerN = MixerN::quad_x;
    const _: fn(&MixerN, [f32; 3], f32) -> [f32; 8] = MixerN::mix;
    const _: fn(&MixerN, &[f32; 8]) -> [f32; 4] = MixerN::achieved_wrench;

    /// Made by the compiler.
    const NONE: MixerN = MixerN::new([[0.0; 4]; MAX_ROTORS], usize::MAX);

    // ---- calls

    pub fn frame(f: &Frame) -> MixerN {
        let mut rows = [[0.0; 4]; MAX_ROTORS];
        for (row, four) in rows.iter_mut().zip(f.run.chunks_exact(4)) {
            row.copy_from_slice(four);
        }
        MixerN::new(rows, f.count)
    }

    /// The count, and what each motor gives by itself, which is its row where the others
    /// are finite.
    pub fn read(frame: &MixerN) -> (usize, [[f32; 4]; 8]) {
        let rows = std::array::from_fn(|i| {
            let mut motors = [0.0; MAX_ROTORS];
            motors[i] = 1.0;
            frame.achieved_wrench(&motors)
        });
        (frame.n(), rows)
    }

    pub fn quad_x() -> (usize, [[f32; 4]; 8]) {
        read(&MixerN::quad_x())
    }

    /// A frame that the compiler made.
    pub fn none() -> (usize, [[f32; 4]; 8]) {
        read(&NONE)
    }

    pub fn frame_mix((f, [thrust, torque @ ..]): &(Frame, [f32; 4])) -> [f32; 8] {
        frame(f).mix(*torque, *thrust)
    }

    pub fn quad_x_mix([thrust, torque @ ..]: &[f32; 4]) -> [f32; 8] {
        MixerN::quad_x().mix(*torque, *thrust)
    }

    pub fn frame_wrench((f, motors): &(Frame, [f32; 8])) -> [f32; 4] {
        frame(f).achieved_wrench(motors)
    }
}

// ---- wrong on purpose

/// Slips that a binding can make, each of which the inputs have to show.
fn slips() -> Vec<Row> {
    vec![
        compared(
            WHOLE,
            "roll and pitch exchanged",
            frame_calls(ANY_ROWS),
            |&(f, [thrust, roll, pitch, yaw])| ours::frame_mix(&(f, [thrust, pitch, roll, yaw])),
            rust::frame_mix,
        ),
        compared(
            WHOLE,
            "rows past the count taken as zero",
            frame_calls(ROTOR_ROWS),
            |&(mut f, w)| {
                f.run[4 * f.count.min(8)..].fill(0.0);
                ours::frame_mix(&(f, w))
            },
            rust::frame_mix,
        ),
    ]
}
