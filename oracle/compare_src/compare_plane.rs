//! Whole planes, bit by bit: written, read back, and ended early.

use crate::answer::{Answer, MODES, answer};
use crate::book::{Book, Table, house_codebook};
use crate::job::Job;
use crate::make::{any_job, job_of_size};
use crate::ours::NO_MARGIN;
use crate::ours_plane::PlaneCall;
use crate::plane_wanted::{Wanted, number_at, pattern, put_bits};
use crate::random::Random;
use crate::seed_tables::{SeedTables, load_tables};
use crate::stream::unsigned;
use crate::tables;
use crate::tally::Tally;

/// Planes of more macroblocks are not ended early at each of them.
const MOST_ENDED: usize = 16;

/// The oracle's jobs; or, with a largest side, jobs of at most that size.
pub fn compare(seed: u64, count: u64, largest: Option<u64>) -> Result<Tally, String> {
    let lent = load_tables(seed);
    let mut tally = Tally::default();
    for index in 0..count {
        let mut random = Random::of(seed, index);
        let job = match largest {
            None => any_job(&mut random),
            Some(side) => small_job(&mut random, side as i64),
        };
        let answer = answer(&job);
        let mut trial = Trial {
            call: call(&job, &lent, &mut random),
            wanted: Wanted {
                job: &job,
                answer: &answer,
            },
            random,
            tally: &mut tally,
        };
        trial
            .check()
            .map_err(|told| difference(seed, index, &job, &lent, &told))?;
        note(&mut tally, &job, &answer, &lent);
    }
    Ok(tally)
}

fn small_job(random: &mut Random, side: i64) -> Job {
    let (width, height) = (random.between(1, side), random.between(1, side));
    job_of_size(random, width as usize, height as usize)
}

/// Every number but 0 asks for four vectors.
pub fn call(job: &Job, lent: &SeedTables, random: &mut Random) -> PlaneCall {
    let on = 1 + random.below(255) as u8;
    PlaneCall {
        width: job.width,
        height: job.height,
        stride: job.stride(),
        rows: job.rows(),
        source: job.source.clone(),
        reference: job.reference.clone(),
        book: lent.book.clone(),
        codebook: lent.codebook.clone(),
        lambda: job.lambda,
        radius: job.radius,
        four: if job.four { on } else { 0 },
        margin: NO_MARGIN,
    }
}

// ---- one plane ----

struct Trial<'a> {
    call: PlaneCall,
    wanted: Wanted<'a>,
    random: Random,
    tally: &'a mut Tally,
}

pub fn equal<T: PartialEq + std::fmt::Debug>(what: &str, want: &T, got: &T) -> Result<(), String> {
    if got == want {
        return Ok(());
    }
    Err(format!("{what}\noriginal: {want:?}\nours:     {got:?}"))
}

impl Trial<'_> {
    fn check(&mut self) -> Result<(), String> {
        let all = self.wanted.answer.bit_count;
        let behind = self.random.below(5);
        self.check_room(0, all.div_ceil(8) + behind, "from bit 0")?;
        let (start, behind) = (1 + self.random.below(200), self.random.below(5));
        let bytes = (start + all).div_ceil(8) + behind;
        self.check_room(start, bytes, "from a later bit")?;
        let room = self.random.below(all);
        self.check_cut(room, "cut anywhere")?;
        if self.wanted.count() <= MOST_ENDED {
            self.check_ends()?;
        }
        Ok(())
    }

    /// Room for exactly the first macroblocks, and one bit less, for each
    /// number of them.
    fn check_ends(&mut self) -> Result<(), String> {
        for done in 1..=self.wanted.count() {
            let room = self.wanted.bits(done);
            self.check_exact(room, &format!("room for {done} macroblocks"))?;
            self.check_exact(room - 1, &format!("a bit less than {done} macroblocks"))?;
            self.check_cut(room, &format!("{done} macroblocks read"))?;
            self.check_cut(room - 1, &format!("{done} macroblocks but for a bit read"))?;
        }
        Ok(())
    }

    /// A string that ends `room` bits behind its start bit.
    fn exact(&mut self, room: usize) -> (usize, usize) {
        let bytes = room.div_ceil(8) + self.random.below(3);
        (8 * bytes - room, bytes)
    }

    fn check_exact(&mut self, room: usize, what: &str) -> Result<(), String> {
        let (start, bytes) = self.exact(room);
        self.check_room(start, bytes, what)
    }

    /// Writes into so many bytes; a plane that is written whole is read back.
    fn check_room(&mut self, start: usize, bytes: usize, what: &str) -> Result<(), String> {
        let out = pattern(self.random.byte(), bytes);
        let before = self.wanted.lent(&mut self.random, out);
        let want = self.wanted.written(start, 8 * bytes - start);
        let mut left = before.clone();
        let got = self.call.write(&mut left, start);
        equal(&format!("{what}: answer"), &want, &got)?;
        let out = self.wanted.left_out(&before.out, start, want.done);
        let mut wanted = self.wanted.left(&before, out, want.done);
        self.wanted.put_stated(&mut wanted.stated, want.done);
        equal(&format!("{what}: bits left"), &wanted.out, &left.out)?;
        equal(&format!("{what}: samples left"), &wanted.recon, &left.recon)?;
        equal(&format!("{what}: x left"), &wanted.vx, &left.vx)?;
        equal(&format!("{what}: y left"), &wanted.vy, &left.vy)?;
        equal(&format!("{what}: stated"), &wanted.stated, &left.stated)?;
        self.check_modes(&left.out, start, want.done, what)?;
        self.tally.one(match want.refused {
            0 => "plane calls, written whole",
            _ => "plane calls, written to an early end",
        });
        if want.refused != 0 {
            return Ok(());
        }
        self.check_read(left.out, start, want.next - start, what)
    }

    /// The mode's code stands at each macroblock's first bit.
    fn check_modes(&self, out: &[u8], start: usize, done: usize, what: &str) -> Result<(), String> {
        let book = Book::from_bytes(&self.call.book);
        for (index, block) in self.wanted.answer.blocks[..done].iter().enumerate() {
            let (value, length) = book.table(Table::Mode)[usize::from(block.mode)];
            let first = start + self.wanted.bits(index);
            let got = number_at(out, first, usize::from(length));
            equal(
                &format!("{what}: mode of macroblock {index}"),
                &u64::from(value),
                &got,
            )?;
        }
        Ok(())
    }

    /// The original's bits up to `room`, read.
    fn check_cut(&mut self, room: usize, what: &str) -> Result<(), String> {
        let (start, bytes) = self.exact(room);
        let mut out = pattern(self.random.byte(), bytes);
        put_bits(&mut out, start, &self.wanted.answer.bits, room);
        self.check_read(out, start, room, what)
    }

    fn check_read(
        &mut self,
        out: Vec<u8>,
        start: usize,
        room: usize,
        what: &str,
    ) -> Result<(), String> {
        let before = self.wanted.lent(&mut self.random, out);
        let want = self.wanted.read(start, room);
        let mut left = before.clone();
        let got = self.call.read(&mut left, start);
        equal(&format!("{what}: answer of the reader"), &want, &got)?;
        let wanted = self.wanted.left(&before, before.out.clone(), want.done);
        equal(&format!("{what}: left by the reader"), &wanted, &left)?;
        self.tally.one(match want.refused {
            0 => "plane calls, read whole",
            _ => "plane calls, read to an early end",
        });
        Ok(())
    }
}

// ---- what is told ----

fn note(tally: &mut Tally, job: &Job, answer: &Answer, lent: &SeedTables) {
    tally.one("plane");
    tally.one(format!(
        "plane, codes of at most {} bits",
        tables::longest()
    ));
    tally.one(if lent.codebook == unsigned(&house_codebook()) {
        "plane, house codebook"
    } else {
        "plane, random codebook"
    });
    tally.one(match job.width.max(job.height) {
        1..=16 => "plane, longer side 1 to 16",
        17..=32 => "plane, longer side 17 to 32",
        33..=48 => "plane, longer side 33 to 48",
        49..=64 => "plane, longer side 49 to 64",
        _ => "plane, longer side from 65",
    });
    if job.width < job.stride() || job.height < job.rows() {
        tally.one("plane, not in whole macroblocks");
    }
    tally.one(match job.lambda {
        0 => "plane, lambda 0",
        1..=200 => "plane, lambda 1 to 200",
        201..=0xffff_ffff_ffff => "plane, lambda from 201",
        0x1_0000_0000_0000 => "plane, lambda 2^48",
        u64::MAX => "plane, lambda 2^64-1",
        _ => "plane, lambda above 2^48",
    });
    tally.one(match job.radius {
        0 => "plane, radius 0",
        1..=12 => "plane, radius 1 to 12",
        13..=40 => "plane, radius 13 to 40",
        _ => "plane, radius 255",
    });
    if job.four {
        tally.one("plane, four vectors allowed");
    }
    for block in &answer.blocks {
        tally.one("plane, macroblocks");
        tally.one(format!(
            "plane, macroblocks {}",
            MODES[usize::from(block.mode)]
        ));
    }
    let components = answer.x.iter().chain(&answer.y);
    let largest = components.map(|&byte| (byte as i8).unsigned_abs()).max();
    tally.one(match largest.unwrap_or(0) {
        0 => "plane, largest component 0",
        1..=8 => "plane, largest component 1 to 8",
        9..=16 => "plane, largest component 9 to 16",
        17..=30 => "plane, largest component 17 to 30",
        _ => "plane, largest component 31 or -32",
    });
}

fn difference(seed: u64, index: u64, job: &Job, lent: &SeedTables, told: &str) -> String {
    format!(
        "plane {index} of seed {seed} differs, {told}
width {}, height {}, lambda {}, radius {}, four {}
source {:?}
reference {:?}
book {:?}
codebook {:?}",
        job.width,
        job.height,
        job.lambda,
        job.radius,
        job.four,
        job.source,
        job.reference,
        lent.book,
        lent.codebook
    )
}
