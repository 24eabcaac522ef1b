//! Sums of single vectors against a best found so far (document 02, §6).

use crate::compare_search;
use crate::ours::{Sum, SumCall};
use crate::random::Random;
use crate::sum_input::{NONE, SumInput, allowed, at_edge, row_ends, sum_input, whole};
use crate::svq1_enc_inter::call_mv_is_codable;
use crate::svq1_motion_predictor::Svq1Mv;
use crate::tally::Tally;

/// 16 × 16 samples, each as far off as can be.
const LARGEST: u64 = 256 * 255;

pub fn compare(seed: u64, count: u64) -> Result<Tally, String> {
    let mut tally = Tally::default();
    for index in 0..count {
        let input = sum_input(&mut Random::of(seed, index));
        let want = expected(&input);
        let got = call(&input).ask();
        if got != want {
            return Err(difference("differs", seed, index, &input, &want, &got));
        }
        if got.refused == 0 && !agrees(&input, &got) {
            let what = "is not as the original's own sum says";
            return Err(difference(what, seed, index, &input, &want, &got));
        }
        note(&mut tally, &input, &want);
    }
    Ok(tally)
}

fn call(input: &SumInput) -> SumCall {
    SumCall {
        block: compare_search::call(&input.block),
        vx: input.vector.x,
        vy: input.vector.y,
        best: input.best,
    }
}

/// The original's rows, added one by one: behind the first that reaches the
/// best it ends, else behind the last. What the original does not take is 23.
fn expected(input: &SumInput) -> Sum {
    if !allowed(&input.block, input.vector) {
        return Sum::refused(23);
    }
    let (mut sum, mut rows) = (0, 0);
    for error in &input.errors {
        sum += error;
        rows += 1;
        if sum >= input.best {
            break;
        }
    }
    Sum {
        sum,
        rows,
        refused: 0,
    }
}

/// The original's whole sum is the answer where every row was taken, is never
/// below it, and reaches the best exactly where the answer does. With none
/// found every row is taken.
fn agrees(input: &SumInput, got: &Sum) -> bool {
    let whole = whole(&input.block, input.vector);
    let all = got.rows == input.block.side;
    (!all || got.sum == whole)
        && got.sum <= whole
        && (got.sum >= input.best) == (whole >= input.best)
        && (all || input.best < NONE)
}

fn note(tally: &mut Tally, input: &SumInput, sum: &Sum) {
    let block = &input.block;
    tally.one("sum");
    if sum.refused != 0 {
        tally.one("sum, refused by 23");
        tally.one(format!("sum, refused by 23, {}", why(input)));
        return;
    }
    let side = format!("sum, side {:02}", block.side);
    tally.one(&side);
    tally.one(match (input.vector.x & 1, input.vector.y & 1) {
        (0, 0) => "sum, vector in full samples",
        (1, 0) => "sum, vector with half a sample in x",
        (0, _) => "sum, vector with half a sample in y",
        _ => "sum, vector with half a sample in both",
    });
    if input.vector == Svq1Mv::ZERO {
        tally.one("sum, vector zero");
    }
    if at_edge(block, input.vector) {
        tally.one("sum, vector beside one that is refused");
    }
    if block.width < block.canvas.stride || block.height < block.canvas.rows {
        tally.one("sum, plane not in whole macroblocks");
    }
    tally.one(if input.best >= NONE {
        format!("{side}, none found yet, all rows taken")
    } else if sum.sum >= input.best {
        format!("{side}, best reached in row {:02}", sum.rows)
    } else {
        format!("{side}, best not reached, all rows taken")
    });
    note_edges(tally, input, sum);
}

/// How near to the best the rows came, and the ends of what there is.
fn note_edges(tally: &mut Tally, input: &SumInput, sum: &Sum) {
    let ends = row_ends(&input.errors);
    match input.best {
        0 => tally.one("sum, best 0"),
        1 => tally.one("sum, best 1"),
        best if sum.sum == best => tally.one("sum, best reached exactly"),
        best if sum.sum.checked_sub(1) == Some(best) => tally.one("sum, best passed by one"),
        _ => {}
    }
    if ends[..sum.rows].iter().any(|end| end + 1 == input.best) {
        tally.one("sum, a row ends one short of the best");
    }
    if sum.rows == input.block.side && sum.sum == LARGEST {
        tally.one("sum, the largest sum");
    }
}

/// The first test that the vector fails.
fn why(input: &SumInput) -> &'static str {
    let (vector, predictor) = (input.vector, input.block.predictor);
    if !call_mv_is_codable(vector, Svq1Mv::ZERO) {
        "a component outside -32 to 31"
    } else if !call_mv_is_codable(vector, predictor) {
        "too far from the predictor"
    } else {
        "not in the window"
    }
}

fn difference(
    what: &str,
    seed: u64,
    index: u64,
    input: &SumInput,
    want: &Sum,
    got: &Sum,
) -> String {
    let block = &input.block;
    format!(
        "vector sum {index} of seed {seed} {what}
original: {want:?}
ours:     {got:?}
vector ({},{}), best {}, the original's errors by rows {:?}
width {}, height {}, stride {}, rows {}
side {} at {},{}, predictor ({},{})
target {:?}
canvas {:?}",
        input.vector.x,
        input.vector.y,
        input.best,
        input.errors,
        block.width,
        block.height,
        block.canvas.stride,
        block.canvas.rows,
        block.side,
        block.left,
        block.top,
        block.predictor.x,
        block.predictor.y,
        block.target,
        block.canvas.samples
    )
}
