//! Pictures inside an allowance of bits: the answers, and every bit and byte
//! left.

use crate::answer::{Answer, MODES};
use crate::book::house_codebook;
use crate::compare_plane::{call, equal};
use crate::ours_picture::{PictureCall, PictureLent, PictureWritten};
use crate::picture::{Picture, any_picture};
use crate::picture_wanted::{PictureWanted, TOO_LITTLE};
use crate::plane_wanted::{Wanted, pattern};
use crate::random::Random;
use crate::seed_tables::{SeedTables, load_picture_tables};
use crate::stream::unsigned;
use crate::svq1_enc_inter::call_skip_bits;
use crate::tables;
use crate::tally::Tally;

/// No picture begins at a later bit.
const LATEST: usize = 300;

pub fn compare(seed: u64, count: u64, largest: u64) -> Result<Tally, String> {
    let lent = load_picture_tables(seed);
    let mut tally = Tally::default();
    for index in 0..count {
        let mut random = Random::of(seed, index);
        let picture = any_picture(&mut random, largest);
        let planes = picture.planes.each_ref();
        let mut trial = Trial {
            call: PictureCall {
                planes: planes.map(|plane| call(plane, &lent, &mut random)),
            },
            picture: &picture,
            random,
            tally: &mut tally,
        };
        trial
            .check()
            .map_err(|told| difference(seed, index, &picture, &lent, &told))?;
        note(&mut tally, &picture, &lent);
    }
    Ok(tally)
}

fn wanted<'a>(picture: &'a Picture, answers: &'a [Answer; 3]) -> PictureWanted<'a> {
    PictureWanted {
        planes: std::array::from_fn(|index| Wanted {
            job: &picture.planes[index],
            answer: &answers[index],
        }),
    }
}

// ---- one picture ----

struct Trial<'a> {
    call: PictureCall,
    picture: &'a Picture,
    random: Random,
    tally: &'a mut Tally,
}

/// One call: the allowance, the start bit and the bytes of the output.
struct Asked {
    allowance: u64,
    start: usize,
    bytes: usize,
}

impl Trial<'_> {
    fn check(&mut self) -> Result<(), String> {
        let free = self.picture.free();
        for (name, allowance) in self.picture.allowances(&free, &mut self.random) {
            self.tally.one(format!("picture, allowance {name}"));
            if allowance < self.picture.least() {
                self.check_too_little(&wanted(self.picture, &free), allowance)?;
                continue;
            }
            let answers = self.picture.within(allowance, &free);
            let wanted = wanted(self.picture, &answers);
            self.check_whole(&wanted, allowance)?;
            if self.random.one_in(2) {
                self.check_early(&wanted, allowance)?;
            }
            self.note_choices(&answers, &free);
        }
        Ok(())
    }

    /// Room to spare or none, from any bit.
    fn check_whole(&mut self, wanted: &PictureWanted, allowance: u64) -> Result<(), String> {
        let (start, behind) = (self.random.below(LATEST + 1), self.random.below(5));
        let bytes = (start + wanted.bits(wanted.count())).div_ceil(8) + behind;
        let asked = Asked {
            allowance,
            start,
            bytes,
        };
        self.check_call(wanted, &asked)
    }

    /// Room for exactly some macroblocks, for a bit less than these, or for
    /// any number of bits, but not for the picture.
    fn check_early(&mut self, wanted: &PictureWanted, allowance: u64) -> Result<(), String> {
        let all = wanted.count();
        let room = match self.random.below(4) {
            0 => self.random.below(wanted.bits(all)),
            1 => wanted.bits(self.random.below(all)),
            _ => wanted.bits(1 + self.random.below(all)) - 1,
        };
        let bytes = room.div_ceil(8) + self.random.below(30);
        let asked = Asked {
            allowance,
            start: 8 * bytes - room,
            bytes,
        };
        self.check_call(wanted, &asked)
    }

    /// Refused whatever the room, but for a start bit beyond it.
    fn check_too_little(&mut self, wanted: &PictureWanted, allowance: u64) -> Result<(), String> {
        let bytes = self.random.below(wanted.bits(wanted.count()) / 4 + 1);
        let asked = Asked {
            allowance,
            start: self.random.below(8 * bytes + 1),
            bytes,
        };
        self.check_answer(wanted, &asked, |_, before| (TOO_LITTLE, before.clone()))
    }

    fn check_call(&mut self, wanted: &PictureWanted, asked: &Asked) -> Result<(), String> {
        let room = 8 * asked.bytes - asked.start;
        self.check_answer(wanted, asked, |wanted, before| {
            let answer = wanted.written(asked.start, room);
            (answer, wanted.left(before, asked.start, &answer))
        })
    }

    /// Asks ours, and holds it to the answer and the slices that `outcome`
    /// makes of the slices before.
    fn check_answer(
        &mut self,
        wanted: &PictureWanted,
        asked: &Asked,
        outcome: impl Fn(&PictureWanted, &PictureLent) -> (PictureWritten, PictureLent),
    ) -> Result<(), String> {
        let out = pattern(self.random.byte(), asked.bytes);
        let before = wanted.lent(&mut self.random, out);
        let (want, want_left) = outcome(wanted, &before);
        let mut left = before.clone();
        let got = self.call.write(&mut left, asked.allowance, asked.start);
        let compared = equal("answer", &want, &got).and(same_left(&want_left, &left));
        compared.map_err(|told| {
            format!(
                "allowance {}, start {}, {} bytes: {told}",
                asked.allowance, asked.start, asked.bytes
            )
        })?;
        self.note_call(&want);
        Ok(())
    }
}

fn same_left(want: &PictureLent, got: &PictureLent) -> Result<(), String> {
    equal("bits left", &want.out, &got.out)?;
    for (plane, (want, got)) in want.planes.iter().zip(&got.planes).enumerate() {
        equal(
            &format!("samples left of plane {plane}"),
            &want.recon,
            &got.recon,
        )?;
        equal(&format!("x left of plane {plane}"), &want.vx, &got.vx)?;
        equal(&format!("y left of plane {plane}"), &want.vy, &got.vy)?;
        equal(
            &format!("stated of plane {plane}"),
            &want.stated,
            &got.stated,
        )?;
    }
    Ok(())
}

// ---- what is told ----

impl Trial<'_> {
    fn note_call(&mut self, want: &PictureWritten) {
        self.tally.one("picture calls");
        let early = want.planes.iter().position(|plane| plane.refused != 0);
        self.tally.one(match (want.refused, early) {
            (0, _) => "picture calls, written whole".to_string(),
            (22, Some(plane)) => format!("picture calls, ended early in plane {plane}"),
            (refused, _) => format!("picture calls, refused {refused}"),
        });
    }

    /// What the allowance did; the rest is as in the picture without one.
    fn note_choices(&mut self, answers: &[Answer; 3], free: &[Answer; 3]) {
        let mut changed = false;
        for block in answers.iter().flat_map(|answer| &answer.blocks) {
            self.tally.one("picture, macroblocks");
            let mode = MODES[usize::from(block.mode)];
            self.tally.one(format!("picture, macroblocks {mode}"));
            if block.forced {
                changed = true;
                self.tally
                    .one("picture, choices that the allowance changed");
                self.tally.one(format!(
                    "picture, choices that the allowance changed to {mode}"
                ));
            }
        }
        let same = answers
            .iter()
            .zip(free)
            .all(|(one, other)| one.bits == other.bits);
        assert!(changed || same, "a picture changed by no choice");
        self.tally.one(if changed {
            "picture, written otherwise than without an allowance"
        } else {
            "picture, written as without an allowance"
        });
    }
}

fn note(tally: &mut Tally, picture: &Picture, lent: &SeedTables) {
    tally.one("picture");
    tally.one(format!(
        "picture, codes of at most {} bits",
        tables::longest()
    ));
    tally.one(match call_skip_bits() {
        1..=3 => "picture, SKIP code of 1 to 3 bits",
        4..=9 => "picture, SKIP code of 4 to 9 bits",
        _ => "picture, SKIP code of 10 to 32 bits",
    });
    tally.one(if lent.codebook == unsigned(&house_codebook()) {
        "picture, house codebook"
    } else {
        "picture, random codebook"
    });
    tally.one(match picture.planes[0].lambda {
        0 => "picture, lambda 0",
        1..=200 => "picture, lambda 1 to 200",
        201..=0xffff_ffff_ffff => "picture, lambda from 201",
        _ => "picture, lambda from 2^48",
    });
    if picture.planes[0].four {
        tally.one("picture, four vectors allowed");
    }
}

fn difference(seed: u64, index: u64, picture: &Picture, lent: &SeedTables, told: &str) -> String {
    let [first, ..] = &picture.planes;
    let mut planes = String::new();
    for (index, plane) in picture.planes.iter().enumerate() {
        planes += &format!(
            "plane {index}: width {}, height {}\nsource {:?}\nreference {:?}\n",
            plane.width, plane.height, plane.source, plane.reference
        );
    }
    format!(
        "picture {index} of seed {seed} differs, {told}
lambda {}, radius {}, four {}
{planes}book {:?}
codebook {:?}",
        first.lambda, first.radius, first.four, lent.book, lent.codebook
    )
}
