//! The proved writer of pictures, linked from the static library of the crate
//! `cabunlis`, as a C program meets it.

use crate::entries::{PictureAnswer, cabunlis_encode_picture};
use crate::ours_plane::{Lent, PlaneCall, Written};

#[derive(Clone, Copy, Debug, PartialEq, Eq)]
pub struct PictureWritten {
    pub refused: u8,
    pub done: usize,
    pub planes: [Written; 3],
}

impl PictureAnswer {
    /// As of a plane, the index says nothing of its own.
    fn refused(&self) -> u8 {
        let index = if self.refusal == 22 { self.done } else { 0 };
        assert_eq!(self.macroblock, index, "the picture's macroblock");
        u8::try_from(self.refusal).expect("a refusal's number")
    }
}

/// What a picture call is asked; what the planes share is the first one's.
pub struct PictureCall {
    pub planes: [PlaneCall; 3],
}

/// What a picture call is lent to write to; the planes have no output of
/// their own.
#[derive(Clone, Debug, PartialEq, Eq)]
pub struct PictureLent {
    pub out: Vec<u8>,
    pub planes: [Lent; 3],
}

impl PictureCall {
    pub fn write(&self, lent: &mut PictureLent, allowance: u64, start: usize) -> PictureWritten {
        let shared = &self.planes[0];
        // Safety: each pointer is a slice's, with that slice's length, no
        // two of those written overlap, and the function takes any numbers.
        let answer = unsafe {
            cabunlis_encode_picture(
                self.planes[0].width,
                self.planes[0].height,
                self.planes[0].stride,
                self.planes[0].rows,
                self.planes[0].source.as_ptr(),
                self.planes[0].source.len(),
                self.planes[0].reference.as_ptr(),
                self.planes[0].reference.len(),
                lent.planes[0].recon.as_mut_ptr(),
                lent.planes[0].recon.len(),
                lent.planes[0].vx.as_mut_ptr(),
                lent.planes[0].vx.len(),
                lent.planes[0].vy.as_mut_ptr(),
                lent.planes[0].vy.len(),
                lent.planes[0].stated.as_mut_ptr(),
                lent.planes[0].stated.len(),
                self.planes[1].width,
                self.planes[1].height,
                self.planes[1].stride,
                self.planes[1].rows,
                self.planes[1].source.as_ptr(),
                self.planes[1].source.len(),
                self.planes[1].reference.as_ptr(),
                self.planes[1].reference.len(),
                lent.planes[1].recon.as_mut_ptr(),
                lent.planes[1].recon.len(),
                lent.planes[1].vx.as_mut_ptr(),
                lent.planes[1].vx.len(),
                lent.planes[1].vy.as_mut_ptr(),
                lent.planes[1].vy.len(),
                lent.planes[1].stated.as_mut_ptr(),
                lent.planes[1].stated.len(),
                self.planes[2].width,
                self.planes[2].height,
                self.planes[2].stride,
                self.planes[2].rows,
                self.planes[2].source.as_ptr(),
                self.planes[2].source.len(),
                self.planes[2].reference.as_ptr(),
                self.planes[2].reference.len(),
                lent.planes[2].recon.as_mut_ptr(),
                lent.planes[2].recon.len(),
                lent.planes[2].vx.as_mut_ptr(),
                lent.planes[2].vx.len(),
                lent.planes[2].vy.as_mut_ptr(),
                lent.planes[2].vy.len(),
                lent.planes[2].stated.as_mut_ptr(),
                lent.planes[2].stated.len(),
                shared.book.as_ptr(),
                shared.book.len(),
                shared.codebook.as_ptr(),
                shared.codebook.len(),
                shared.lambda,
                shared.radius,
                shared.four,
                shared.margin,
                allowance,
                lent.out.as_mut_ptr(),
                lent.out.len(),
                start,
            )
        };
        PictureWritten {
            refused: answer.refused(),
            done: answer.done,
            planes: answer.planes.each_ref().map(Written::of),
        }
    }
}
