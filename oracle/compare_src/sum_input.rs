//! Random vectors of blocks, each with a best found so far, and what the
//! original's own functions give for them (document 02, §6).

use crate::random::Random;
use crate::search_input::{SearchInput, search_input};
use crate::svq1_enc_inter::{call_mc_macroblock, call_mc_subblock, call_mv_is_codable, call_sad};
use crate::svq1_motion_predictor::Svq1Mv;

/// Above the sum of every block: none found yet.
pub const NONE: u64 = 1 << 16;

/// What the sum of one vector is asked.
pub struct SumInput {
    pub block: SearchInput,
    pub vector: Svq1Mv,
    pub best: u64,
    /// The absolute error of each row; none where the vector may not be
    /// taken.
    pub errors: Vec<u64>,
}

pub fn sum_input(random: &mut Random) -> SumInput {
    let block = any_block(random);
    let vector = any_vector(random, &block);
    let errors = if allowed(&block, vector) {
        row_errors(&block, vector)
    } else {
        Vec::new()
    };
    SumInput {
        best: any_best(random, &errors),
        block,
        vector,
        errors,
    }
}

// ---- the original's part ----

/// Whether the original takes the vector: codable, and in the window. It
/// asks in this order; what is not codable may be too large for its window.
pub fn allowed(block: &SearchInput, vector: Svq1Mv) -> bool {
    call_mv_is_codable(vector, block.predictor) && block.window().permits(vector)
}

/// The block moved by the vector.
fn moved(block: &SearchInput, vector: Svq1Mv) -> Vec<u8> {
    let plane = block.canvas.plane();
    if block.side == 16 {
        call_mc_macroblock(&plane, block.top / 8, block.left / 8, vector).to_vec()
    } else {
        call_mc_subblock(&plane, block.left, block.top, vector)
    }
}

/// The whole sum, by the original.
pub fn whole(block: &SearchInput, vector: Svq1Mv) -> u64 {
    call_sad(&block.target, &moved(block, vector))
}

/// The absolute error of each row of the moved block, added here.
fn row_errors(block: &SearchInput, vector: Svq1Mv) -> Vec<u64> {
    let shown = moved(block, vector);
    let mut errors = vec![0; block.side];
    for (place, (&wanted, &sample)) in block.target.iter().zip(&shown).enumerate() {
        let difference = i64::from(wanted) - i64::from(sample);
        errors[place / block.side] += difference.unsigned_abs();
    }
    errors
}

// ---- what is drawn ----

/// A block of the motion search; of some the target is any samples, or as far
/// from the canvas as can be.
fn any_block(random: &mut Random) -> SearchInput {
    let mut block = search_input(random);
    match random.below(12) {
        0 => block.target.fill_with(|| random.byte()),
        1 => {
            let end = random.pick(&[0, 255]);
            block.canvas.samples.fill(end);
            block.target.fill(255 - end);
        }
        _ => {}
    }
    block
}

fn any_vector(random: &mut Random, block: &SearchInput) -> Svq1Mv {
    let pair = |random: &mut Random, far: i64| {
        let component = |random: &mut Random| random.between(-far, far) as i32;
        Svq1Mv::new(component(random), component(random))
    };
    match random.below(20) {
        0 => Svq1Mv::ZERO,
        1 => block.ask(),
        2..=11 => any_allowed(random, block),
        12..=14 => last_allowed(random, block).0,
        15 => last_allowed(random, block).1,
        16 => past_predictor(random, block),
        17 => pair(random, 33),
        18 => pair(random, 1100),
        _ => {
            let ends = [i32::MIN, i32::MIN + 1, i32::MAX - 1, i32::MAX];
            match random.below(3) {
                0 => Svq1Mv::new(random.pick(&ends), 0),
                1 => Svq1Mv::new(0, random.pick(&ends)),
                _ => Svq1Mv::new(random.next() as i32, random.next() as i32),
            }
        }
    }
}

/// One of the vectors that the original takes; zero if it takes none.
fn any_allowed(random: &mut Random, block: &SearchInput) -> Svq1Mv {
    let all: Vec<Svq1Mv> = (-32..=31)
        .flat_map(|y| (-32..=31).map(move |x| Svq1Mv::new(x, y)))
        .filter(|&vector| allowed(block, vector))
        .collect();
    if all.is_empty() {
        Svq1Mv::ZERO
    } else {
        random.pick(&all)
    }
}

/// The last vector on a way that the original takes, and the first behind it
/// that it does not.
fn last_allowed(random: &mut Random, block: &SearchInput) -> (Svq1Mv, Svq1Mv) {
    let (x, y) = random.pick(&WAYS);
    let mut last = any_allowed(random, block);
    loop {
        let next = Svq1Mv::new(last.x + x, last.y + y);
        if !allowed(block, next) {
            return (last, next);
        }
        last = next;
    }
}

const WAYS: [(i32, i32); 8] = [
    (1, 0),
    (-1, 0),
    (0, 1),
    (0, -1),
    (1, 1),
    (1, -1),
    (-1, 1),
    (-1, -1),
];

/// About as far from the predictor, on one axis or both, as can be coded.
fn past_predictor(random: &mut Random, block: &SearchInput) -> Svq1Mv {
    let mut vector = any_allowed(random, block);
    let axes = random.pick(&[1, 2, 3]);
    if axes & 1 != 0 {
        vector.x = block.predictor.x + random.pick(&[-33, -32, 31, 32]);
    }
    if axes & 2 != 0 {
        vector.y = block.predictor.y + random.pick(&[-33, -32, 31, 32]);
    }
    vector
}

/// Whether a neighbour of the vector is not allowed.
pub fn at_edge(block: &SearchInput, vector: Svq1Mv) -> bool {
    WAYS.iter()
        .any(|&(x, y)| !allowed(block, Svq1Mv::new(vector.x + x, vector.y + y)))
}

/// A best for rows of these errors, none of them for a vector that may not be
/// taken.
fn any_best(random: &mut Random, errors: &[u64]) -> u64 {
    if errors.is_empty() {
        return random.next() >> random.below(64);
    }
    let ends = row_ends(errors);
    let row = random.below(ends.len());
    let (end, whole) = (ends[row], ends[ends.len() - 1]);
    match random.below(20) {
        0 => NONE,
        1 => random.pick(&[NONE + 1, 1 << 31, 1 << 32, 1 << 63, u64::MAX]),
        2 => beside(random, end) + (1 << random.pick(&[16, 31, 32, 48, 63])),
        3 => 0,
        4 => 1,
        5..=11 => beside(random, end),
        12..=13 => beside(random, whole),
        14..=16 => end - random.below(errors[row].max(1) as usize) as u64,
        17..=18 => random.between(0, whole as i64) as u64,
        _ => random.between(0, NONE as i64) as u64,
    }
}

/// The sum behind each row.
pub fn row_ends(errors: &[u64]) -> Vec<u64> {
    let mut sum = 0;
    errors
        .iter()
        .map(|error| {
            sum += error;
            sum
        })
        .collect()
}

/// The sum itself, one less or one more.
fn beside(random: &mut Random, sum: u64) -> u64 {
    (sum + random.pick(&[0, 1, 2])).saturating_sub(1)
}
