//! Document 01's bench cards, as far as the original can answer them.

use crate::answer::answer;
use crate::book::{Book, house_codebook};
use crate::job::Job;
use crate::svq1_blocktree::Svq1Level;
use crate::svq1_codebook::vector_byte_to_raster;
use crate::svq1_enc_inter::{MvVisibleWindow, search_motion_vector};
use crate::svq1_enc_leaf::{LeafCode, search_leaf};
use crate::svq1_mc::{Svq1ReferencePlane, sample_halfpel};
use crate::svq1_motion_predictor::{Neighbours, Svq1Mv, predict};
use crate::svq1_vlc::Svq1Half;
use crate::tables;

/// Prints every card's answer; fails if one is not document 01's.
pub fn cards() -> Result<(), String> {
    tables::load(&Book::house(), &house_codebook());
    let cards = [
        (
            "first card",
            plane(32),
            "21 01 94; 22 bits; 0,0,INTRA,22,0 total,22,0",
        ),
        (
            "same at lambda 2^64-1",
            plane(u64::MAX),
            "80; 1 bits; 0,0,SKIP,1,2560000 total,1,2560000",
        ),
        ("means of sums 4, 3, -3, -4", means(), "1 0 0 -1"),
        (
            "left (4,4), top (6,-1)",
            predictor(Some((4, 4)), (6, -1)),
            "(4,0)",
        ),
        ("top (7,-2)", predictor(None, (7, -2)), "(7,-2)"),
        ("L3 byte 37", raster(Svq1Level::L3, 37), "41"),
        ("L2 byte 20", raster(Svq1Level::L2, 20), "12"),
        ("samples 10, 11", half_sample(&[10, 11], 2, (1, 0)), "11"),
        (
            "samples 1, 2, 3, 4",
            half_sample(&[1, 2, 3, 4], 2, (1, 1)),
            "3",
        ),
        (
            "flat 32×32, predictor (-32,0) at 16,0",
            search_at(16),
            "(-32,0)",
        ),
    ];
    let mut failed = 0;
    for (name, got, wanted) in cards {
        println!("{name}: {got}");
        if got != wanted {
            println!("  document 01: {wanted}");
            failed += 1;
        }
    }
    match failed {
        0 => Ok(()),
        _ => Err(format!("{failed} cards differ")),
    }
}

pub fn hex(bytes: &[u8]) -> String {
    let words: Vec<String> = bytes.iter().map(|byte| format!("{byte:02X}")).collect();
    words.join(" ")
}

pub fn show(vector: Svq1Mv) -> String {
    format!("({},{})", vector.x, vector.y)
}

fn plane(lambda: u64) -> String {
    let job = Job {
        width: 16,
        height: 16,
        lambda,
        radius: 8,
        four: true,
        source: vec![100; 256],
        reference: vec![0; 256],
    };
    let answer = answer(&job);
    let listing = answer.listing(&job).trim_end().replace('\n', " ");
    format!(
        "{}; {} bits; {listing}",
        hex(&answer.bits),
        answer.bit_count
    )
}

/// Means of inter leaves of eight samples with the card's residual sums.
fn means() -> String {
    let mean = |sum: i16| {
        let mut target = [100; 8];
        target[0] = (100 + sum) as u8;
        let leaf = search_leaf(Svq1Level::L0, Svq1Half::Inter, &target, &[100; 8], 0, false);
        match leaf.code {
            LeafCode::Coded { mean, .. } => mean.to_string(),
            LeafCode::Skip => "skip".into(),
        }
    };
    [4, 3, -3, -4].map(mean).join(" ")
}

fn predictor(left: Option<(i32, i32)>, top: (i32, i32)) -> String {
    let vector = |(x, y)| Svq1Mv::new(x, y);
    let neighbours = Neighbours::new(left.map(vector), Some(vector(top)), None);
    show(predict(neighbours))
}

fn raster(level: Svq1Level, byte: usize) -> String {
    vector_byte_to_raster(level, byte).to_string()
}

fn half_sample(samples: &[u8], width: usize, (x, y): (i32, i32)) -> String {
    let plane = Svq1ReferencePlane::new(samples, width, samples.len() / width);
    sample_halfpel(&plane.expect("whole rows"), x, y).to_string()
}

/// The search card's answer for the macroblock at column `left`.
pub fn search_at(left: usize) -> String {
    let samples = [50; 32 * 32];
    let plane = Svq1ReferencePlane::new(&samples, 32, 32).expect("whole rows");
    let window = MvVisibleWindow::for_block(left, 0, 16, 32, 32);
    let predictor = Svq1Mv::new(-32, 0);
    show(search_motion_vector(
        &plane, &[50; 256], 16, left, 0, predictor, 8, window,
    ))
}
