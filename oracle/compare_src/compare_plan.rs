//! Plans of blocks of every level, field by field.

use crate::book::house_codebook;
use crate::compare_leaf::leaf_node;
use crate::leaf_input::{HALVES, LEVELS};
use crate::ours::{LeafCall, NO_MARGIN, Node, Plan, PlanCall};
use crate::plan_input::{BlockInput, block_input, cut, dims};
use crate::random::Random;
use crate::seed_tables::{SeedTables, load_tables};
use crate::stream::unsigned;
use crate::svq1_enc::BitWriter;
use crate::svq1_enc_leaf::search_leaf;
use crate::svq1_enc_tree::{MbPlan, TreeNode, emit_macroblock, plan_reconstruction};
use crate::tables;
use crate::tally::Tally;

pub fn compare(seed: u64, count: u64) -> Result<Tally, String> {
    let lent = load_tables(seed);
    let mut tally = Tally::default();
    for index in 0..count {
        let input = any_input(seed, index);
        let want =
            expected(&input).map_err(|told| format!("plan {index} of seed {seed}: {told}"))?;
        let got = call(&input, &lent).ask();
        if got != want {
            return Err(difference(seed, index, &input, &lent, &want, &got));
        }
        note(&mut tally, &input, &want, &lent);
    }
    Ok(tally)
}

/// The oracle's case; every other one with any lambda, small ones as often
/// as large ones.
fn any_input(seed: u64, index: u64) -> BlockInput {
    let mut random = Random::of(seed, index);
    let mut input = block_input(&mut random);
    if index % 2 == 1 {
        let lambda = random.next();
        input.around.lambda = lambda >> random.below(64);
    }
    input
}

fn call(input: &BlockInput, lent: &SeedTables) -> PlanCall {
    PlanCall {
        block: LeafCall {
            book: lent.book.clone(),
            codebook: lent.codebook.clone(),
            level: input.level as u8,
            half: input.around.half as u8,
            target: input.target(),
            predictor: input.predictor(),
            cap: 6,
            skip: u8::from(input.around.skip),
            margin: NO_MARGIN,
        },
        lambda: input.around.lambda,
    }
}

// ---- the original's answer in the form of ours ----

/// An error if the original emits another number of bits than it plans.
fn expected(input: &BlockInput) -> Result<Plan, String> {
    let made = input.ask();
    let mut plan = Plan::refused(0);
    plan.bits = made.bits;
    plan.error = made.sse.try_into().expect("an error of 32 bits");
    put(&mut plan.nodes, first(input.level), &made.root);
    let (whole, more) = in_macroblock(made, input);
    let mut writer = BitWriter::new();
    emit_macroblock(&mut writer, &whole, HALVES[input.around.half]);
    let emitted = writer.bits_written() as u32 - more;
    if emitted != plan.bits {
        return Err(format!(
            "the original emits {emitted} bits, {} planned",
            plan.bits
        ));
    }
    let (width, height) = dims(input.level);
    let shown = cut(&plan_reconstruction(&whole), 0, 0, width, height);
    plan.samples[..shown.len()].copy_from_slice(&shown);
    Ok(plan)
}

/// The number of the first block of a level, the tree of a macroblock
/// numbered level by level.
fn first(level: usize) -> usize {
    (1 << (5 - level)) - 1
}

/// Block `number` and the blocks under it; its parts have the numbers
/// 2 × `number` + 1 and + 2.
fn put(nodes: &mut [Node; 63], number: usize, node: &TreeNode) {
    match node {
        TreeNode::Split(one, two) => {
            nodes[number].kind = 1;
            put(nodes, 2 * number + 1, one);
            put(nodes, 2 * number + 2, two);
        }
        TreeNode::Leaf(choice) => nodes[number] = leaf_node(&choice.code),
    }
}

/// The plan at the first block of its level in a macroblock, which is what
/// the original emits and shows; and how many bits the blocks around it
/// take. Each block above it is split, and its second part is a flat leaf.
fn in_macroblock(plan: MbPlan, input: &BlockInput) -> (MbPlan, u32) {
    let mut whole = plan;
    let mut more = 0;
    for level in input.level..5 {
        let (width, height) = dims(level);
        let zeros = vec![0; width * height];
        let half = HALVES[input.around.half];
        let beside = search_leaf(LEVELS[level], half, &zeros, &zeros, 0, false);
        let flag_beside = u32::from(level > 0);
        more += 1 + flag_beside + beside.bits;
        whole.root = TreeNode::Split(Box::new(whole.root), Box::new(TreeNode::Leaf(beside)));
    }
    (whole, more)
}

// ---- what is told ----

fn note(tally: &mut Tally, input: &BlockInput, plan: &Plan, lent: &SeedTables) {
    let half = ["intra", "inter"][input.around.half];
    tally.one("plan");
    tally.one(format!("plan, L{} {half}", input.level));
    tally.one(format!("plan, codes of at most {} bits", tables::longest()));
    tally.one(if lent.codebook == unsigned(&house_codebook()) {
        "plan, house codebook"
    } else {
        "plan, random codebook"
    });
    if input.around.skip {
        tally.one("plan, skip allowed");
    }
    tally.one(match input.around.lambda {
        0 => "plan, lambda 0",
        1..=0xffff => "plan, lambda from 1",
        0x1_0000..=0xffff_ffff => "plan, lambda from 2^16",
        0x1_0000_0000..=0xffff_ffff_ffff => "plan, lambda from 2^32",
        u64::MAX => "plan, lambda 2^64-1",
        _ => "plan, lambda from 2^48",
    });
    tally.one(match plan.nodes[first(input.level)].kind {
        1 => "plan, answer split",
        _ => "plan, answer leaf",
    });
    for node in &plan.nodes {
        tally.one(match node.kind {
            0 => "plan, blocks not reached".to_string(),
            1 => "plan, blocks split".to_string(),
            2 => "plan, blocks skip".to_string(),
            _ => format!("plan, blocks coded, stages {}", node.count),
        });
    }
}

fn difference(
    seed: u64,
    index: u64,
    input: &BlockInput,
    lent: &SeedTables,
    want: &Plan,
    got: &Plan,
) -> String {
    format!(
        "plan {index} of seed {seed} differs
original: {want:?}
ours:     {got:?}
level {}, half {}, skip {}, lambda {}
target {:?}
predictor {:?}
book {:?}
codebook {:?}",
        input.level,
        input.around.half,
        input.around.skip,
        input.around.lambda,
        input.target(),
        input.predictor(),
        lent.book,
        lent.codebook
    )
}
