//! Random inputs of the tree's plan, and what the original answers.

use crate::leaf_input::{HALVES, LEVELS, block_pair, half_and_skip};
use crate::random::Random;
use crate::svq1_enc_tree::{MbPlan, call_search_block, plan_macroblock};

/// What the plan of a macroblock is asked.
pub struct PlanInput {
    pub half: usize,
    pub skip: bool,
    pub lambda: u64,
    target: [u8; 256],
    predictor: [u8; 256],
}

fn plan_input(random: &mut Random) -> PlanInput {
    let (half, skip) = half_and_skip(random);
    let lambda = random.pick(&[0, 1, 5, 20, 32, 100, 1000, 1 << 48, u64::MAX]);
    let mut input = PlanInput {
        half,
        skip,
        lambda,
        target: [0; 256],
        predictor: [0; 256],
    };
    let side = random.pick(&[4, 8, 16]);
    for top in (0..16).step_by(side) {
        for left in (0..16).step_by(side) {
            let (target, predictor) = block_pair(random, HALVES[half], side * side);
            for place in 0..side * side {
                let at = (top + place / side) * 16 + left + place % side;
                input.target[at] = target[place];
                input.predictor[at] = predictor[place];
            }
        }
    }
    input
}

impl PlanInput {
    fn plan(&self) -> MbPlan {
        plan_macroblock(
            &self.target,
            &self.predictor,
            HALVES[self.half],
            self.skip,
            self.lambda,
        )
    }
}

/// What the plan of a block is asked: one of any level in a macroblock.
pub struct BlockInput {
    pub around: PlanInput,
    pub level: usize,
    left: usize,
    top: usize,
}

pub fn block_input(random: &mut Random) -> BlockInput {
    let around = plan_input(random);
    let level = random.below(6);
    let (width, height) = dims(level);
    BlockInput {
        around,
        level,
        left: random.below(16 / width) * width,
        top: random.below(16 / height) * height,
    }
}

/// A level's width and height.
pub fn dims(level: usize) -> (usize, usize) {
    let (width, height) = LEVELS[level].block_dims();
    (usize::from(width), usize::from(height))
}

impl BlockInput {
    /// What the original answers. L5 is its `plan_macroblock`; below it the
    /// same search is entered at a block of the macroblock.
    pub fn ask(&self) -> MbPlan {
        if self.level == 5 {
            return self.around.plan();
        }
        let (root, bits, sse) = call_search_block(
            &self.around.target,
            &self.around.predictor,
            self.left,
            self.top,
            LEVELS[self.level],
            HALVES[self.around.half],
            self.around.skip,
            self.around.lambda,
        );
        MbPlan { root, bits, sse }
    }

    pub fn target(&self) -> Vec<u8> {
        self.cut(&self.around.target)
    }

    pub fn predictor(&self) -> Vec<u8> {
        self.cut(&self.around.predictor)
    }

    fn cut(&self, samples: &[u8; 256]) -> Vec<u8> {
        let (width, height) = dims(self.level);
        cut(samples, self.left, self.top, width, height)
    }
}

/// A block of a macroblock.
pub fn cut(samples: &[u8; 256], left: usize, top: usize, width: usize, height: usize) -> Vec<u8> {
    (0..width * height)
        .map(|place| samples[(top + place / width) * 16 + left + place % width])
        .collect()
}
