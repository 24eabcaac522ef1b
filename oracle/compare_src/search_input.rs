//! Random inputs of the motion search, and what the original answers.

use crate::make::clamp;
use crate::random::Random;
use crate::svq1_enc_inter::{MvVisibleWindow, search_motion_vector};
use crate::svq1_mc::{Svq1ReferencePlane, motion_compensate_block};
use crate::svq1_motion_predictor::Svq1Mv;

fn any_vector(random: &mut Random) -> Svq1Mv {
    let reach = random.pick(&[3, 12, 31]);
    let component = |random: &mut Random| match random.below(6) {
        0 => random.pick(&[-32, 31, 0]),
        _ => random.between(-reach, reach) as i32,
    };
    Svq1Mv::new(component(random), component(random))
}

pub struct Canvas {
    pub stride: usize,
    pub rows: usize,
    pub samples: Vec<u8>,
}

fn any_canvas(random: &mut Random) -> Canvas {
    let (stride, rows) = (16 + 16 * random.below(4), 16 + 16 * random.below(3));
    let (base, slope) = (random.between(0, 255), random.between(-9, 9));
    let noise = random.pick(&[0, 2, 30, 255]);
    let samples = (0..stride * rows)
        .map(|place| {
            let slant = slope * (place % stride + place / stride) as i64;
            clamp(base + slant + random.between(-noise, noise))
        })
        .collect();
    Canvas {
        stride,
        rows,
        samples,
    }
}

impl Canvas {
    pub fn plane(&self) -> Svq1ReferencePlane<'_> {
        Svq1ReferencePlane::new(&self.samples, self.stride, self.rows).expect("whole canvas")
    }

    /// The block moved by `vector`, put together from 8×8 ones.
    fn moved(&self, side: usize, left: usize, top: usize, vector: Svq1Mv) -> Vec<u8> {
        let mut samples = vec![0; side * side];
        for y in (0..side).step_by(8) {
            for x in (0..side).step_by(8) {
                let (column, row) = ((left + x) as i32, (top + y) as i32);
                let part = motion_compensate_block(&self.plane(), column, row, vector);
                for place in 0..64 {
                    samples[(y + place / 8) * side + x + place % 8] = part[place];
                }
            }
        }
        samples
    }
}

/// What one motion search is asked.
pub struct SearchInput {
    pub canvas: Canvas,
    pub width: usize,
    pub height: usize,
    pub side: usize,
    pub left: usize,
    pub top: usize,
    pub predictor: Svq1Mv,
    pub radius: u8,
    pub target: Vec<u8>,
}

pub fn search_input(random: &mut Random) -> SearchInput {
    let canvas = any_canvas(random);
    let width = visible(random, canvas.stride);
    let height = visible(random, canvas.rows);
    let side = random.pick(&[8, 16]);
    let left = side * random.below(canvas.stride / side);
    let top = side * random.below(canvas.rows / side);
    let predictor = any_vector(random);
    let radius = random.pick(&[0, 1, 2, 4, 8, 16, 33, 255]);
    let noise = random.pick(&[0, 0, 3, 255]);
    let target: Vec<u8> = canvas
        .moved(side, left, top, any_vector(random))
        .iter()
        .map(|&sample| clamp(i64::from(sample) + random.between(-noise, noise)))
        .collect();
    SearchInput {
        canvas,
        width,
        height,
        side,
        left,
        top,
        predictor,
        radius,
        target,
    }
}

impl SearchInput {
    /// What the original answers.
    pub fn ask(&self) -> Svq1Mv {
        search_motion_vector(
            &self.canvas.plane(),
            &self.target,
            self.side,
            self.left,
            self.top,
            self.predictor,
            self.radius,
            self.window(),
        )
    }

    /// The original's window for the block.
    pub fn window(&self) -> MvVisibleWindow {
        MvVisibleWindow::for_block(self.left, self.top, self.side, self.width, self.height)
    }
}

/// A size that rounds up to `padded`.
fn visible(random: &mut Random, padded: usize) -> usize {
    if random.one_in(3) {
        padded - random.below(16)
    } else {
        padded
    }
}
