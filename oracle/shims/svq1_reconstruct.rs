//! Shim: a leaf's samples by document 01: predictor plus mean plus vectors,
//! clamped once. Used by the original's decoder only.

use crate::svq1_blocktree::Svq1Level;
use crate::svq1_codebook::{codebook_vector_in_half, vector_byte_to_raster};

#[derive(Debug, Clone, Copy, PartialEq, Eq)]
pub struct LeafStage {
    /// Counted from 1.
    pub stage: usize,
    pub vec_idx: usize,
}

#[derive(Debug, Clone, Copy, PartialEq, Eq)]
pub enum ReconstructError {
    NoVector,
}

pub fn reconstruct_leaf(
    level: Svq1Level,
    page: &[i8],
    predictor: &[u8],
    mean: i16,
    stages: &[LeafStage],
) -> Result<Vec<u8>, ReconstructError> {
    let mut sums: Vec<i32> = predictor
        .iter()
        .map(|&sample| i32::from(sample) + i32::from(mean))
        .collect();
    for stage in stages {
        let vector = codebook_vector_in_half(page, level, stage.stage, stage.vec_idx)
            .ok_or(ReconstructError::NoVector)?;
        for (place, &value) in vector.iter().enumerate() {
            sums[vector_byte_to_raster(level, place)] += i32::from(value);
        }
    }
    Ok(sums.iter().map(|&sum| sum.clamp(0, 255) as u8).collect())
}
