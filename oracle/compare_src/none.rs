//! Where the original's motion search has no answer: which inputs, and the
//! smallest of them. Samples do not matter there, so all are 0.

use crate::compare_search::{call, expected};
use crate::job::padded;
use crate::search_input::{Canvas, SearchInput};
use crate::svq1_motion_predictor::Svq1Mv;
use crate::tally::Tally;

/// The largest visible side that is tried.
const LARGEST: usize = 32;
const RADII: [u8; 3] = [0, 1, 9];

pub fn none() -> Result<Tally, String> {
    let mut tally = Tally::default();
    println!("smallest input without an answer: {}", smallest()?);
    for width in 1..=LARGEST {
        for height in 1..=LARGEST {
            check_plane(&mut tally, width, height)?;
        }
    }
    Ok(tally)
}

fn check_plane(tally: &mut Tally, width: usize, height: usize) -> Result<(), String> {
    for_blocks(width, height, &mut |side, left, top| {
        for predictor in predictors() {
            for radius in RADII {
                let input = flat(width, height, side, left, top, predictor, radius);
                check(tally, &input)?;
            }
        }
        Ok(())
    })
}

/// No vector exactly where a component of the predictor is -32 and the
/// block stands at 0 on that axis; and both give the same answer.
fn check(tally: &mut Tally, input: &SearchInput) -> Result<(), String> {
    let want = expected(input);
    let got = call(input).ask();
    let (x, y) = (input.predictor.x, input.predictor.y);
    let edge = (x == -32 && input.left == 0) || (y == -32 && input.top == 0);
    if got != want {
        return Err(format!("{} differs: {want:?}, ours {got:?}", name(input)));
    }
    if edge != (want.refused == 23) {
        return Err(format!("{} is not in the class: {want:?}", name(input)));
    }
    tally.one("none, inputs tried");
    if want.refused == 23 {
        tally.one("none, inputs without an answer");
    }
    Ok(())
}

/// Predictors with a component of -32, and some without.
fn predictors() -> Vec<Svq1Mv> {
    let mut all = vec![Svq1Mv::ZERO, Svq1Mv::new(-31, -31), Svq1Mv::new(31, 31)];
    all.push(Svq1Mv::new(-32, -32));
    for other in [-31, -16, -1, 0, 1, 15, 31] {
        all.push(Svq1Mv::new(-32, other));
        all.push(Svq1Mv::new(other, -32));
    }
    all
}

/// By the plane's area, its width, the side, the radius, and how far the
/// predictor lies from zero.
fn smallest() -> Result<String, String> {
    let mut near = Vec::new();
    for x in -32..=31i32 {
        for y in -32..=31i32 {
            near.push((x.abs() + y.abs(), Svq1Mv::new(x, y)));
        }
    }
    near.sort_by_key(|&(far, vector)| (far, vector.x, vector.y));
    for area in 1..=256 {
        for width in (1..=area).filter(|width| area % width == 0) {
            let found = first_of(width, area / width, &near)?;
            if let Some(name) = found {
                return Ok(name);
            }
        }
    }
    Err("every input has an answer".into())
}

fn first_of(width: usize, height: usize, near: &[(i32, Svq1Mv)]) -> Result<Option<String>, String> {
    let mut found = None;
    for_blocks(width, height, &mut |side, left, top| {
        for &(_, predictor) in near {
            let input = flat(width, height, side, left, top, predictor, 0);
            if found.is_none() && expected(&input).refused == 23 {
                found = Some(name(&input));
            }
        }
        Ok(())
    })?;
    Ok(found)
}

/// Every block of both sides on the canvas of a plane.
fn for_blocks(
    width: usize,
    height: usize,
    each: &mut dyn FnMut(usize, usize, usize) -> Result<(), String>,
) -> Result<(), String> {
    for side in [8, 16] {
        for top in (0..padded(height)).step_by(side) {
            for left in (0..padded(width)).step_by(side) {
                each(side, left, top)?;
            }
        }
    }
    Ok(())
}

fn flat(
    width: usize,
    height: usize,
    side: usize,
    left: usize,
    top: usize,
    predictor: Svq1Mv,
    radius: u8,
) -> SearchInput {
    let (stride, rows) = (padded(width), padded(height));
    SearchInput {
        canvas: Canvas {
            stride,
            rows,
            samples: vec![0; stride * rows],
        },
        width,
        height,
        side,
        left,
        top,
        predictor,
        radius,
        target: vec![0; side * side],
    }
}

fn name(input: &SearchInput) -> String {
    format!(
        "plane {}x{}, side {} at {},{}, predictor ({},{}), radius {}",
        input.width,
        input.height,
        input.side,
        input.left,
        input.top,
        input.predictor.x,
        input.predictor.y,
        input.radius
    )
}
