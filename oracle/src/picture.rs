//! Pictures: three planes one after the other inside one allowance of bits
//! (document 02, §5). The original has no allowance; the twin of its plane
//! writer chooses among the modes that fit.

use crate::answer::{Answer, Block, answer, answer_within};
use crate::book::{Book, Table};
use crate::job::Job;
use crate::make::{any_book, any_codebook, job_of_size};
use crate::random::Random;
use crate::svq1_enc_inter::{Allowance, call_skip_bits};
use crate::tables;

/// The longest side of a picture's planes where no other is given.
pub const LARGEST: u64 = 40;

/// The longest code that SKIP is given; the original's decoder reads it.
const LONGEST_SKIP: u8 = 22;

/// Planes of sizes of their own, under the same lambda, radius and flag.
pub struct Picture {
    pub planes: [Job; 3],
}

/// The tables of other jobs; in half of the books SKIP gets a longer
/// code, so that other modes may be shorter than it.
pub fn any_tables(random: &mut Random) -> (Book, Vec<i8>) {
    let mut book = any_book(random);
    let codebook = any_codebook(random);
    if random.one_in(2) {
        lengthen_skip(random, &mut book);
    }
    (book, codebook)
}

/// Puts zeros behind SKIP's code, so that no code begins another still.
fn lengthen_skip(random: &mut Random, book: &mut Book) {
    let (value, length) = book.table(Table::Mode)[3];
    let most = value.leading_zeros() as u8;
    let zeros = most.min(LONGEST_SKIP.saturating_sub(length));
    let zeros = random.below(usize::from(zeros) + 1) as u8;
    let value = u32::from(value) << zeros;
    book.set(Table::Mode, 3, value as u16, length + zeros);
}

/// A picture whose sides are at most `largest`.
pub fn any_picture(random: &mut Random, largest: u64) -> Picture {
    let mut planes = [(); 3].map(|()| {
        let (width, height) = (side(random, largest), side(random, largest));
        job_of_size(random, width, height)
    });
    let [first, others @ ..] = &mut planes;
    for other in others {
        other.lambda = first.lambda;
        other.radius = first.radius;
        other.four = first.four;
    }
    Picture { planes }
}

fn side(random: &mut Random, largest: u64) -> usize {
    random.between(1, largest as i64) as usize
}

impl Picture {
    pub fn macroblocks(&self) -> u64 {
        let planes = self.planes.iter();
        planes
            .map(|plane| (plane.stride() * plane.rows() / 256) as u64)
            .sum()
    }

    /// The smallest allowance: a SKIP code for each macroblock.
    pub fn least(&self) -> u64 {
        u64::from(call_skip_bits()) * self.macroblocks()
    }

    /// Each plane alone, which is the picture where every first choice fits.
    pub fn free(&self) -> [Answer; 3] {
        self.planes.each_ref().map(answer)
    }

    /// The planes inside an allowance that is not below the least; `free`
    /// is the picture without one.
    pub fn within(&self, allowance: u64, free: &[Answer; 3]) -> [Answer; 3] {
        let mut rest = Allowance {
            left: allowance,
            to_come: self.macroblocks(),
        };
        let answers = self.planes.each_ref().map(|plane| {
            let (answer, left) = answer_within(plane, rest);
            rest = left;
            answer
        });
        assert_eq!(rest.to_come, 0, "macroblocks without an answer");
        assert_eq!(rest.left, allowance - bits_of(&answers), "allowance left");
        self.check(allowance, free, &answers);
        answers
    }

    /// Every mode written fits; and up to the first choice that does not,
    /// each plane is the plane alone.
    fn check(&self, allowance: u64, free: &[Answer; 3], answers: &[Answer; 3]) {
        let mut steps = Steps::new(self);
        for (alone, answer) in free.iter().zip(answers) {
            let mut same = true;
            for (first, block) in alone.blocks.iter().zip(&answer.blocks) {
                assert!(steps.needed(block) <= allowance, "a mode that does not fit");
                if same {
                    let fits = steps.needed(first) <= allowance;
                    assert_eq!(block.forced, !fits, "whether the first choice fits");
                    assert!(!fits || as_stated(first, block), "the first choice");
                    same = fits;
                }
                steps.take(block);
            }
            if same {
                assert_eq!(alone.bits, answer.bits, "the plane's bits alone");
                assert_eq!(alone.reconstruction, answer.reconstruction);
                assert_eq!((&alone.x, &alone.y), (&answer.x, &answer.y));
            }
        }
    }

    /// For each macroblock the smallest allowance that holds its first
    /// choice behind those before it.
    fn needs(&self, free: &[Answer; 3]) -> Vec<u64> {
        let mut steps = Steps::new(self);
        let blocks = free.iter().flat_map(|answer| &answer.blocks);
        let need = |block| {
            let needed = steps.needed(block);
            steps.take(block);
            needed
        };
        blocks.map(need).collect()
    }

    /// Allowances at the places where something changes, beside them and
    /// between them, each once. Some are below the least.
    pub fn allowances(&self, free: &[Answer; 3], random: &mut Random) -> Vec<(&'static str, u64)> {
        let (least, bits, needs) = (self.least(), bits_of(free), self.needs(free));
        // Every first choice fits; with a long SKIP code it may be below the
        // least.
        let enough = needs.iter().copied().max().expect("a macroblock");
        let one = random.pick(&needs);
        let few = 2 + random.below(30) as u64;
        let some = random.next() >> (1 + random.below(60));
        let mut allowances = vec![
            ("any below the least", random.below(least as usize) as u64),
            ("a bit below the least", least - 1),
            ("the least", least),
            ("a bit above the least", least + 1),
            ("a few bits above the least", least + few),
            ("from the least to enough", any(random, least, enough)),
            ("some bits short at a macroblock", any(random, one / 2, one)),
            ("a few bits short at a macroblock", one.saturating_sub(few)),
            ("a bit short at a macroblock", one - 1),
            ("a few bits short of enough", enough.saturating_sub(few)),
            ("a bit short of enough", enough - 1),
            ("enough", enough),
            ("from the least to the bits alone", any(random, least, bits)),
            ("a bit short of the bits alone", bits - 1),
            ("the bits alone", bits),
            ("far above", enough.max(least) + some),
            ("2^64-1", u64::MAX),
        ];
        allowances.sort_by_key(|&(_, allowance)| allowance);
        allowances.dedup_by_key(|&mut (_, allowance)| allowance);
        allowances
    }
}

/// A number between the two, which may be either.
fn any(random: &mut Random, one: u64, other: u64) -> u64 {
    one.min(other) + random.below(one.abs_diff(other) as usize + 1) as u64
}

pub fn bits_of(answers: &[Answer; 3]) -> u64 {
    answers.iter().map(|answer| answer.bit_count as u64).sum()
}

fn as_stated(one: &Block, other: &Block) -> bool {
    (one.mode, one.bits, one.error) == (other.mode, other.bits, other.error)
}

/// The macroblocks of a picture one after the other, without the twin's
/// own count.
struct Steps {
    skip: u64,
    spent: u64,
    behind: u64,
}

impl Steps {
    fn new(picture: &Picture) -> Self {
        Self {
            skip: u64::from(call_skip_bits()),
            spent: 0,
            behind: picture.macroblocks() - 1,
        }
    }

    /// The allowance that the mode needs at this macroblock.
    fn needed(&self, block: &Block) -> u64 {
        self.spent + u64::from(block.bits) + self.skip * self.behind
    }

    fn take(&mut self, block: &Block) {
        self.spent += u64::from(block.bits);
        self.behind = self.behind.saturating_sub(1);
    }
}

/// Answers random pictures under one random book and codebook; each answer
/// is checked as it is made.
pub fn pictures(seed: u64, count: u64) -> Result<(), String> {
    let mut random = Random::new(seed);
    let (book, codebook) = any_tables(&mut random);
    assert!(book.is_sound());
    tables::load(&book, &codebook);
    let (mut answers, mut blocks, mut forced) = (0, 0, 0);
    for index in 0..count {
        let mut random = Random::of(seed, index);
        let picture = any_picture(&mut random, LARGEST);
        let free = picture.free();
        for (_, allowance) in picture.allowances(&free, &mut random) {
            if allowance < picture.least() {
                continue;
            }
            answers += 1;
            for answer in &picture.within(allowance, &free) {
                blocks += answer.blocks.len();
                forced += answer.blocks.iter().filter(|block| block.forced).count();
            }
        }
    }
    println!("{answers} answers, {blocks} macroblocks, {forced} first choices that did not fit");
    Ok(())
}
