//! Shim: the error type. Only the cases that the present files name.

use crate::svq1_blocktree::Svq1Level;

#[derive(Debug, Clone, Copy, PartialEq, Eq)]
pub enum Error {
    MissingReference,
    BadBitWidth(u32),
    InvalidLevelQuantise(Svq1Level),
    UnexpectedIntraSkip,
    ReconstructFailed,
    NotImplemented,
    Truncated,
    InvalidVlcCode,
}

pub type Result<T> = std::result::Result<T, Error>;
