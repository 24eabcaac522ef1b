//! Random inputs of the leaf search, and what the original answers.

use crate::book::house_codebook;
use crate::make::clamp;
use crate::random::Random;
use crate::svq1_blocktree::Svq1Level;
use crate::svq1_enc_leaf::{LeafChoice, search_leaf};
use crate::svq1_vlc::Svq1Half;

pub const LEVELS: [Svq1Level; 6] = [
    Svq1Level::L0,
    Svq1Level::L1,
    Svq1Level::L2,
    Svq1Level::L3,
    Svq1Level::L4,
    Svq1Level::L5,
];
pub const HALVES: [Svq1Half; 2] = [Svq1Half::Intra, Svq1Half::Inter];

/// A target and a predictor of `count` samples: near, far, or a codebook
/// vector apart.
pub fn block_pair(random: &mut Random, half: Svq1Half, count: usize) -> (Vec<u8>, Vec<u8>) {
    let base = random.between(0, 255);
    let spread = random.pick(&[0, 1, 4, 30, 255]);
    let shift = random.pick(&[0, 0, 3, -3, 60, -60, 255, -255]);
    let noise = random.pick(&[0, 1, 6, 40, 255]);
    let pattern = house_codebook();
    let start = random.below(pattern.len() - count);
    let weight = random.pick(&[0, 0, 1, 2]);
    let (mut target, mut predictor) = (Vec::new(), Vec::new());
    for place in 0..count {
        let shown = match half {
            Svq1Half::Intra => 0,
            Svq1Half::Inter => i64::from(clamp(base + random.between(-spread, spread))),
        };
        let wanted = match half {
            Svq1Half::Intra => base + random.between(-spread, spread),
            Svq1Half::Inter => shown + shift,
        };
        let vector = weight * i64::from(pattern[start + place]);
        predictor.push(shown as u8);
        target.push(clamp(wanted + vector + random.between(-noise, noise)));
    }
    (target, predictor)
}

/// A half and whether skip is allowed, which intra never is.
pub fn half_and_skip(random: &mut Random) -> (usize, bool) {
    random.pick(&[(0, false), (1, true), (1, false)])
}

/// What one leaf search is asked.
pub struct LeafInput {
    pub level: usize,
    pub half: usize,
    pub cap: usize,
    pub skip: bool,
    pub target: Vec<u8>,
    pub predictor: Vec<u8>,
}

pub fn leaf_input(random: &mut Random) -> LeafInput {
    let level = random.below(6);
    let (half, skip) = half_and_skip(random);
    let cap = random.pick(&[6, 6, 6, 0, 1, 2, 3, 4, 5]);
    let count = usize::from(LEVELS[level].vector_length());
    let (target, predictor) = block_pair(random, HALVES[half], count);
    LeafInput {
        level,
        half,
        cap,
        skip,
        target,
        predictor,
    }
}

impl LeafInput {
    /// What the original answers.
    pub fn ask(&self) -> LeafChoice {
        search_leaf(
            LEVELS[self.level],
            HALVES[self.half],
            &self.target,
            &self.predictor,
            self.cap,
            self.skip,
        )
    }
}
