//! A frame, and what is asked of it.

use comparing::answer::Answer;
use comparing::hex::Hex;

/// Thrust, roll, pitch and yaw.
pub type Wrench = [f32; 4];

/// The products of a row with a wrench, summed in order.
pub fn sum(row: &[f32], w: &Wrench) -> f32 {
    row[0] * w[0] + row[1] * w[1] + row[2] * w[2] + row[3] * w[3]
}

/// Eight rows of thrust, roll, pitch and yaw as one run, and a count.
#[derive(Clone, Copy)]
pub struct Frame {
    pub run: [f32; 32],
    pub count: usize,
}

impl Hex for Frame {
    fn hex(&self) -> String {
        format!("{} count {:x}", self.run.hex(), self.count)
    }
}

impl Answer for Frame {
    #[inline]
    fn same(&self, other: &Frame) -> bool {
        self.run.same(&other.run) && self.count == other.count
    }
}
