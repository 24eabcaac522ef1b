//! What a plane call has to answer and to leave, from the original's answer.

use crate::answer::Answer;
use crate::job::Job;
use crate::ours_plane::{Lent, Read, Written};
use crate::random::Random;

/// Bytes of a pattern; `kind` tells patterns apart.
pub fn pattern(kind: u8, length: usize) -> Vec<u8> {
    (0..length)
        .map(|place| (place as u8).wrapping_mul(29).wrapping_add(kind))
        .collect()
}

/// Bit `place` of a string, highest first.
fn bit(bytes: &[u8], place: usize) -> u8 {
    bytes[place / 8] >> (7 - place % 8) & 1
}

/// The first `count` bits of `bits`, put at bit `start` of `bytes`.
pub fn put_bits(bytes: &mut [u8], start: usize, bits: &[u8], count: usize) {
    for place in 0..count {
        let (at, shift) = ((start + place) / 8, 7 - (start + place) % 8);
        bytes[at] = bytes[at] & !(1 << shift) | bit(bits, place) << shift;
    }
}

/// The number that `count` bits from `start` on make.
pub fn number_at(bytes: &[u8], start: usize, count: usize) -> u64 {
    (start..start + count).fold(0, |number, place| number * 2 + u64::from(bit(bytes, place)))
}

/// A job's answer by the original, seen macroblock by macroblock.
pub struct Wanted<'a> {
    pub job: &'a Job,
    pub answer: &'a Answer,
}

impl Wanted<'_> {
    pub fn count(&self) -> usize {
        self.answer.blocks.len()
    }

    /// Bits of the first `done` macroblocks.
    pub fn bits(&self, done: usize) -> usize {
        let blocks = &self.answer.blocks[..done];
        blocks.iter().map(|block| block.bits as usize).sum()
    }

    /// Error of the first `done` macroblocks.
    fn error(&self, done: usize) -> u64 {
        let blocks = &self.answer.blocks[..done];
        blocks.iter().map(|block| u64::from(block.error)).sum()
    }

    /// The macroblocks that fit into so many bits.
    pub fn within(&self, room: usize) -> usize {
        let fits = |&done: &usize| self.bits(done) <= room;
        (0..=self.count()).take_while(fits).last().unwrap_or(0)
    }

    /// What the writer answers if `room` bits are left behind `start`.
    pub fn written(&self, start: usize, room: usize) -> Written {
        let done = self.within(room);
        Written {
            refused: if done < self.count() { 22 } else { 0 },
            done,
            next: start + self.bits(done),
            bits: self.bits(done) as u64,
            error: self.error(done),
        }
    }

    /// What the reader answers if the bits end `room` bits behind `start`.
    pub fn read(&self, start: usize, room: usize) -> Read {
        let done = self.within(room);
        Read {
            refused: if done < self.count() { 24 } else { 0 },
            done,
            next: start + self.bits(done),
        }
    }

    /// Result slices full of a pattern, and vector slices with room behind.
    pub fn lent(&self, random: &mut Random, out: Vec<u8>) -> Lent {
        let vectors = 4 * self.count();
        let (more_x, more_y) = (random.below(4), random.below(4));
        let kind = random.byte();
        let told = random.below(3 * self.count() + 4);
        Lent {
            out,
            recon: pattern(kind, self.job.reference.len()),
            vx: pattern(kind ^ 85, vectors + more_x),
            vy: pattern(kind ^ 170, vectors + more_y),
            stated: vec![u32::from(kind) * 0x0101_0101; told],
        }
    }

    /// The bits of the first `done` macroblocks, put into `before`; behind
    /// the last one its byte's low bits are 0, and everything else stays.
    pub fn left_out(&self, before: &[u8], start: usize, done: usize) -> Vec<u8> {
        let mut out = before.to_vec();
        put_bits(&mut out, start, &self.answer.bits, self.bits(done));
        let end = start + self.bits(done);
        if done > 0 && end % 8 != 0 {
            out[end / 8] &= !(255 >> (end % 8));
        }
        out
    }

    /// What is left in the result slices by the first `done` macroblocks;
    /// everything else stays.
    pub fn left(&self, before: &Lent, out: Vec<u8>, done: usize) -> Lent {
        let mut left = before.clone();
        left.out = out;
        for index in 0..done {
            self.put_samples(&mut left.recon, index);
            self.put_vectors(&mut left.vx, &self.answer.x, index);
            self.put_vectors(&mut left.vy, &self.answer.y, index);
        }
        left
    }

    /// What the writer tells of each macroblock done: its mode, bits and
    /// error, as far as there is room for all three.
    pub fn put_stated(&self, stated: &mut [u32], done: usize) {
        let blocks = &self.answer.blocks[..done];
        for (three, block) in stated.chunks_exact_mut(3).zip(blocks) {
            three.copy_from_slice(&[u32::from(block.mode), block.bits, block.error]);
        }
    }

    fn put_samples(&self, recon: &mut [u8], index: usize) {
        let columns = self.job.columns();
        let first = index / columns * 16 * self.job.stride() + index % columns * 16;
        for row in 0..16 {
            let line = first + row * self.job.stride()..first + row * self.job.stride() + 16;
            recon[line.clone()].copy_from_slice(&self.answer.reconstruction[line]);
        }
    }

    fn put_vectors(&self, into: &mut [u8], from: &[u8], index: usize) {
        let columns = self.job.columns();
        let first = index / columns * 4 * columns + index % columns * 2;
        for place in [
            first,
            first + 1,
            first + 2 * columns,
            first + 2 * columns + 1,
        ] {
            into[place] = from[place];
        }
    }
}
