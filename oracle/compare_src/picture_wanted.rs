//! What a picture call has to answer and to leave, from what the original
//! writes of each plane inside the allowance.

use crate::ours_picture::{PictureLent, PictureWritten};
use crate::ours_plane::Written;
use crate::plane_wanted::Wanted;
use crate::random::Random;

/// What a plane answers in which nothing is done.
pub const NOTHING: Written = Written {
    refused: 0,
    done: 0,
    next: 0,
    bits: 0,
    error: 0,
};

/// What a picture whose allowance is below the least answers.
pub const TOO_LITTLE: PictureWritten = PictureWritten {
    refused: 31,
    done: 0,
    planes: [NOTHING; 3],
};

pub struct PictureWanted<'a> {
    pub planes: [Wanted<'a>; 3],
}

impl PictureWanted<'_> {
    pub fn count(&self) -> usize {
        self.planes.iter().map(|plane| plane.count()).sum()
    }

    /// Bits of the first `done` macroblocks, counted through the planes.
    pub fn bits(&self, done: usize) -> usize {
        let mut left = done;
        let mut bits = 0;
        for plane in &self.planes {
            let here = left.min(plane.count());
            bits += plane.bits(here);
            left -= here;
        }
        bits
    }

    /// What the writer answers if `room` bits are left behind `start`: a
    /// plane behind one that ends early is not reached.
    pub fn written(&self, start: usize, room: usize) -> PictureWritten {
        let (mut next, mut refused) = (start, 0);
        let planes = self.planes.each_ref().map(|plane| {
            if refused != 0 {
                return Written { next, ..NOTHING };
            }
            let written = plane.written(next, start + room - next);
            (next, refused) = (written.next, written.refused);
            written
        });
        PictureWritten {
            refused,
            done: planes.iter().map(|plane| plane.done).sum(),
            planes,
        }
    }

    /// Slices full of a pattern.
    pub fn lent(&self, random: &mut Random, out: Vec<u8>) -> PictureLent {
        let slices = |plane: &Wanted| plane.lent(random, Vec::new());
        PictureLent {
            planes: self.planes.each_ref().map(slices),
            out,
        }
    }

    /// What is left where `answer` is what the writer answers: each plane's
    /// bits from where the one before ended, and its own slices.
    pub fn left(&self, before: &PictureLent, start: usize, answer: &PictureWritten) -> PictureLent {
        let mut left = before.clone();
        let mut first = start;
        for (index, plane) in self.planes.iter().enumerate() {
            let done = answer.planes[index].done;
            left.out = plane.left_out(&left.out, first, done);
            left.planes[index] = plane.left(&before.planes[index], Vec::new(), done);
            plane.put_stated(&mut left.planes[index].stated, done);
            first += plane.bits(done);
        }
        left
    }
}
