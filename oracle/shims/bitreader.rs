//! Shim: the bit reader, highest bit first. Reading past the last bit
//! answers `Error::Truncated`; what the missing original does there is not
//! known.

use crate::error::{Error, Result};

#[derive(Debug)]
pub struct BitReader<'a> {
    bytes: &'a [u8],
    next: usize,
    end: usize,
}

impl<'a> BitReader<'a> {
    /// Reads all bits of `bytes`.
    pub fn new(bytes: &'a [u8]) -> Self {
        Self::with_end(bytes, bytes.len() * 8)
    }

    /// Reads the first `end` bits of `bytes`.
    pub fn with_end(bytes: &'a [u8], end: usize) -> Self {
        assert!(end <= bytes.len() * 8);
        Self {
            bytes,
            next: 0,
            end,
        }
    }

    pub fn read_bit(&mut self) -> Result<u8> {
        if self.next == self.end {
            return Err(Error::Truncated);
        }
        let bit = (self.bytes[self.next / 8] >> (7 - self.next % 8)) & 1;
        self.next += 1;
        Ok(bit)
    }

    /// Bits taken so far.
    pub fn position(&self) -> usize {
        self.next
    }
}
