//! Motion searches, vector by vector.

use crate::ours::{Vector, VectorCall};
use crate::random::Random;
use crate::search_input::{SearchInput, search_input};
use crate::svq1_motion_predictor::Svq1Mv;
use crate::tally::Tally;

pub fn compare(seed: u64, count: u64) -> Result<Tally, String> {
    let mut tally = Tally::default();
    for index in 0..count {
        let input = any_input(seed, index);
        let want = expected(&input);
        let got = call(&input).ask();
        if got != want {
            return Err(difference(seed, index, &input, &want, &got));
        }
        note(&mut tally, &input, &want);
    }
    Ok(tally)
}

/// The oracle's case; every other one with any radius.
fn any_input(seed: u64, index: u64) -> SearchInput {
    let mut random = Random::of(seed, index);
    let mut input = search_input(&mut random);
    if index % 2 == 1 {
        input.radius = random.byte();
    }
    input
}

pub fn call(input: &SearchInput) -> VectorCall {
    VectorCall {
        reference: input.canvas.samples.clone(),
        width: input.width,
        height: input.height,
        stride: input.canvas.stride,
        rows: input.canvas.rows,
        target: input.target.clone(),
        side: input.side,
        x: input.left,
        y: input.top,
        px: input.predictor.x,
        py: input.predictor.y,
        radius: input.radius,
    }
}

/// The original's answer in the form of ours. It answers zero where it has
/// found nothing; zero is not codable under a component of -32, so there,
/// and only there, that stands for 23.
pub fn expected(input: &SearchInput) -> Vector {
    let found = input.ask();
    if found == Svq1Mv::ZERO && lowest(input.predictor) {
        return Vector::refused(23);
    }
    Vector {
        refused: 0,
        x: found.x,
        y: found.y,
    }
}

/// Whether a component is -32.
pub fn lowest(predictor: Svq1Mv) -> bool {
    predictor.x == -32 || predictor.y == -32
}

fn note(tally: &mut Tally, input: &SearchInput, vector: &Vector) {
    tally.one("search");
    tally.one(format!("search, side {}", input.side));
    tally.one(match input.radius {
        0 => "search, radius 0",
        1..=32 => "search, radius 1 to 32",
        33..=254 => "search, radius 33 to 254",
        255 => "search, radius 255",
    });
    if lowest(input.predictor) {
        tally.one("search, predictor with -32");
    }
    if input.width < input.canvas.stride || input.height < input.canvas.rows {
        tally.one("search, plane not in whole macroblocks");
    }
    tally.one(match (vector.refused, vector.x, vector.y) {
        (23, ..) => "search, answer none",
        (_, 0, 0) => "search, answer zero",
        (_, x, y) if x % 2 == 0 && y % 2 == 0 => "search, answer in full samples",
        _ => "search, answer in half samples",
    });
}

fn difference(seed: u64, index: u64, input: &SearchInput, want: &Vector, got: &Vector) -> String {
    format!(
        "motion search {index} of seed {seed} differs
original: {want:?}
ours:     {got:?}
width {}, height {}, stride {}, rows {}
side {} at {},{}, predictor ({},{}), radius {}
target {:?}
canvas {:?}",
        input.width,
        input.height,
        input.canvas.stride,
        input.canvas.rows,
        input.side,
        input.left,
        input.top,
        input.predictor.x,
        input.predictor.y,
        input.radius,
        input.target,
        input.canvas.samples
    )
}
