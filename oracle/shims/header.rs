//! Shim: picture headers. They are outside document 01, so parsing one is
//! always an error and no size has a short code.

use crate::error::{Error, Result};

pub const FRAME_SIZE_TABLE: [(u16, u16); 0] = [];

#[derive(Debug, Clone, Copy, PartialEq, Eq)]
pub enum Svq1PictureType {
    Intra,
    Predicted,
}

#[derive(Debug, Clone)]
pub struct Svq1FrameHeader {
    pub picture_type: Svq1PictureType,
    pub width: Option<u16>,
    pub height: Option<u16>,
    pub header_end_bit: usize,
}

pub fn parse_frame_header(_bytes: &[u8]) -> Result<Svq1FrameHeader> {
    Err(Error::NotImplemented)
}
