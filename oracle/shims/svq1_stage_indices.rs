//! Shim: the stage indices of a leaf, four bits each, by document 01. Used
//! by the original's decoder only.

use crate::bitreader::BitReader;
use crate::error::Result;

pub struct StageIndices(Vec<u8>);

impl StageIndices {
    pub fn indices(&self) -> &[u8] {
        &self.0
    }

    pub fn len(&self) -> usize {
        self.0.len()
    }
}

pub fn read_stage_indices(br: &mut BitReader<'_>, count: usize) -> Result<StageIndices> {
    let mut indices = Vec::with_capacity(count);
    for _ in 0..count {
        let mut index = 0;
        for _ in 0..4 {
            index = index * 2 + br.read_bit()?;
        }
        indices.push(index);
    }
    Ok(StageIndices(indices))
}
