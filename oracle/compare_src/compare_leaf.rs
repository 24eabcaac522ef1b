//! Leaf searches, field by field.

use crate::book::house_codebook;
use crate::leaf_input::{LeafInput, leaf_input};
use crate::ours::{Leaf, LeafCall, NO_MARGIN, Node};
use crate::random::Random;
use crate::seed_tables::{SeedTables, load_tables};
use crate::stream::unsigned;
use crate::svq1_enc_leaf::{LeafChoice, LeafCode};
use crate::tables;
use crate::tally::Tally;

pub fn compare(seed: u64, count: u64) -> Result<Tally, String> {
    let lent = load_tables(seed);
    let mut tally = Tally::default();
    for index in 0..count {
        let input = leaf_input(&mut Random::of(seed, index));
        let want = expected(&input.ask());
        let got = call(&input, &lent).ask();
        if got != want {
            return Err(difference(seed, index, &input, &lent, &want, &got));
        }
        note(&mut tally, &input, &want, &lent);
    }
    Ok(tally)
}

fn call(input: &LeafInput, lent: &SeedTables) -> LeafCall {
    LeafCall {
        book: lent.book.clone(),
        codebook: lent.codebook.clone(),
        level: input.level as u8,
        half: input.half as u8,
        target: input.target.clone(),
        predictor: input.predictor.clone(),
        cap: input.cap as u8,
        skip: u8::from(input.skip),
        margin: NO_MARGIN,
    }
}

/// The original's answer in the form of ours.
fn expected(choice: &LeafChoice) -> Leaf {
    let node = leaf_node(&choice.code);
    let mut leaf = Leaf::refused(0);
    leaf.kind = node.kind;
    leaf.mean = node.mean;
    leaf.count = node.count;
    leaf.stages = node.stages;
    leaf.bits = choice.bits;
    leaf.error = choice.sse.try_into().expect("an error of 32 bits");
    leaf.samples[..choice.recon.len()].copy_from_slice(&choice.recon);
    leaf
}

/// A leaf as a block of a tree.
pub fn leaf_node(code: &LeafCode) -> Node {
    let mut node = Node::none();
    node.kind = 2;
    if let LeafCode::Coded { mean, stages } = code {
        node.kind = 3;
        node.mean = *mean;
        node.count = stages.len() as u8;
        node.stages[..stages.len()].copy_from_slice(stages);
    }
    node
}

fn note(tally: &mut Tally, input: &LeafInput, leaf: &Leaf, lent: &SeedTables) {
    let half = ["intra", "inter"][input.half];
    tally.one("leaf");
    tally.one(format!("leaf, L{} {half}", input.level));
    tally.one(format!("leaf, cap {}", input.cap));
    tally.one(format!("leaf, codes of at most {} bits", tables::longest()));
    tally.one(if lent.codebook == unsigned(&house_codebook()) {
        "leaf, house codebook"
    } else {
        "leaf, random codebook"
    });
    if input.skip {
        tally.one("leaf, skip allowed");
    }
    tally.one(match leaf.kind {
        2 => "leaf, answer skip".to_string(),
        _ => format!("leaf, answer coded, stages {}", leaf.count),
    });
}

fn difference(
    seed: u64,
    index: u64,
    input: &LeafInput,
    lent: &SeedTables,
    want: &Leaf,
    got: &Leaf,
) -> String {
    format!(
        "leaf call {index} of seed {seed} differs
original: {want:?}
ours:     {got:?}
level {}, half {}, cap {}, skip {}
target {:?}
predictor {:?}
book {:?}
codebook {:?}",
        input.level,
        input.half,
        input.cap,
        input.skip,
        input.target,
        input.predictor,
        lent.book,
        lent.codebook
    )
}
