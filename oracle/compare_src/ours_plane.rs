//! The proved plane writer and plane reader, linked from the static library
//! of the crate `cabunlis`, as a C program meets them.

use crate::entries::{Answer, cabunlis_decode_inter_plane, cabunlis_encode_inter_plane_stated};

#[derive(Clone, Copy, Debug, PartialEq, Eq)]
pub struct Written {
    pub refused: u8,
    pub done: usize,
    pub next: usize,
    pub bits: u64,
    pub error: u64,
}

#[derive(Clone, Copy, Debug, PartialEq, Eq)]
pub struct Read {
    pub refused: u8,
    pub done: usize,
    pub next: usize,
}

impl Answer {
    /// The index says nothing of its own: the macroblocks done where a
    /// refusal came in the middle of a plane, else 0.
    fn refused(&self) -> u8 {
        let index = match self.refusal {
            10 | 11 | 22 | 24 => self.done,
            _ => 0,
        };
        assert_eq!(self.macroblock, index, "the macroblock's index");
        u8::try_from(self.refusal).expect("a refusal's number")
    }
}

impl Written {
    pub fn of(answer: &Answer) -> Self {
        Self {
            refused: answer.refused(),
            done: answer.done,
            next: answer.next,
            bits: answer.bits,
            error: answer.error,
        }
    }
}

/// What a plane call is asked, right or wrong.
#[derive(Clone)]
pub struct PlaneCall {
    pub width: usize,
    pub height: usize,
    pub stride: usize,
    pub rows: usize,
    pub source: Vec<u8>,
    pub reference: Vec<u8>,
    pub book: Vec<u8>,
    pub codebook: Vec<u8>,
    pub lambda: u64,
    pub radius: u8,
    pub four: u8,
    /// The reader takes none.
    pub margin: u32,
}

/// What a plane call is lent to write to; the reader only reads `out`.
#[derive(Clone, Debug, PartialEq, Eq)]
pub struct Lent {
    pub out: Vec<u8>,
    pub recon: Vec<u8>,
    pub vx: Vec<u8>,
    pub vy: Vec<u8>,
    pub stated: Vec<u32>,
}

impl PlaneCall {
    pub fn write(&self, lent: &mut Lent, start: usize) -> Written {
        // Safety: each pointer is a slice's, with that slice's length, no
        // two of those written overlap, and the function takes any numbers.
        let answer = unsafe {
            cabunlis_encode_inter_plane_stated(
                self.width,
                self.height,
                self.stride,
                self.rows,
                self.source.as_ptr(),
                self.source.len(),
                self.reference.as_ptr(),
                self.reference.len(),
                self.book.as_ptr(),
                self.book.len(),
                self.codebook.as_ptr(),
                self.codebook.len(),
                self.lambda,
                self.radius,
                self.four,
                self.margin,
                lent.out.as_mut_ptr(),
                lent.out.len(),
                start,
                lent.recon.as_mut_ptr(),
                lent.recon.len(),
                lent.vx.as_mut_ptr(),
                lent.vx.len(),
                lent.vy.as_mut_ptr(),
                lent.vy.len(),
                lent.stated.as_mut_ptr(),
                lent.stated.len(),
            )
        };
        Written::of(&answer)
    }

    pub fn read(&self, lent: &mut Lent, start: usize) -> Read {
        // Safety: as above.
        let answer = unsafe {
            cabunlis_decode_inter_plane(
                self.width,
                self.height,
                self.stride,
                self.rows,
                self.reference.as_ptr(),
                self.reference.len(),
                self.book.as_ptr(),
                self.book.len(),
                self.codebook.as_ptr(),
                self.codebook.len(),
                lent.out.as_ptr(),
                lent.out.len(),
                start,
                lent.recon.as_mut_ptr(),
                lent.recon.len(),
                lent.vx.as_mut_ptr(),
                lent.vx.len(),
                lent.vy.as_mut_ptr(),
                lent.vy.len(),
            )
        };
        assert_eq!((answer.bits, answer.error), (0, 0), "the reader's totals");
        Read {
            refused: answer.refused(),
            done: answer.done,
            next: answer.next,
        }
    }
}
