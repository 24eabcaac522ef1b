//! The proved library, as a C program meets it (`include/cabunlis.h`).

use crate::book::{Book, house_codebook};
pub use crate::entries::Answer;
use crate::entries::{cabunlis_encode_inter_plane, cabunlis_plane_room};
use crate::job::Job;

/// The built-in tables and all that a call of one size is lent to write.
pub struct Lent {
    book: Vec<u8>,
    codebook: Vec<u8>,
    pub out: Vec<u8>,
    pub recon: Vec<u8>,
    pub vx: Vec<u8>,
    pub vy: Vec<u8>,
}

impl Lent {
    pub fn of(job: &Job) -> Self {
        // Safety: two numbers go in, a struct comes out.
        let room = unsafe { cabunlis_plane_room(job.width, job.height) };
        assert_eq!(room.refusal, 0, "a size that passes");
        let samples = job.stride() * job.rows();
        Self {
            book: Book::house().to_bytes(),
            codebook: house_codebook().iter().map(|&b| b as u8).collect(),
            out: vec![0; room.bytes],
            recon: vec![0; samples],
            vx: vec![0; samples / 64],
            vy: vec![0; samples / 64],
        }
    }

    pub fn write(&mut self, job: &Job) -> Answer {
        // Safety: each pointer is a slice's, with that slice's length, and
        // no two of those written overlap.
        unsafe {
            cabunlis_encode_inter_plane(
                job.width,
                job.height,
                job.stride(),
                job.rows(),
                job.source.as_ptr(),
                job.source.len(),
                job.reference.as_ptr(),
                job.reference.len(),
                self.book.as_ptr(),
                self.book.len(),
                self.codebook.as_ptr(),
                self.codebook.len(),
                job.lambda,
                job.radius,
                u8::from(job.four),
                // the original has no margin
                0,
                self.out.as_mut_ptr(),
                self.out.len(),
                0,
                self.recon.as_mut_ptr(),
                self.recon.len(),
                self.vx.as_mut_ptr(),
                self.vx.len(),
                self.vy.as_mut_ptr(),
                self.vy.len(),
            )
        }
    }
}
