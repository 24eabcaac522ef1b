//! Random books, codebooks and jobs. All choices come from `Random`, so a
//! seed gives the same ones everywhere.

use crate::book::{BOOK_ENTRIES, Book, CODEBOOK_BYTES, TABLES, house_codebook};
use crate::job::{Job, padded};
use crate::random::Random;

// ---- books ----

/// The house book, or random prefix-free codes of at most 16, 22 or 32 bits.
pub fn any_book(random: &mut Random) -> Book {
    match random.below(5) {
        0 | 1 => Book::house(),
        2 => random_book(random, 16),
        3 => random_book(random, 22),
        _ => random_book(random, 32),
    }
}

/// Random codes, the longest of them of `longest` bits.
pub fn random_book(random: &mut Random, longest: u32) -> Book {
    loop {
        let mut entries = Vec::with_capacity(BOOK_ENTRIES);
        for table in TABLES {
            for _ in 0..table.size() / table.code_size() {
                entries.extend(random_code(random, table.code_size(), longest));
            }
        }
        let book = Book { entries };
        assert!(book.is_sound());
        if u32::from(book.longest()) == longest {
            return book;
        }
    }
}

/// `count` prefix-free codes in random order. Values stay below 2^16, so a
/// long code begins with zeros.
fn random_code(random: &mut Random, count: usize, longest: u32) -> Vec<(u16, u8)> {
    let mut codes = Vec::with_capacity(count);
    let slant = random.below(4);
    let root = Node {
        value: 0,
        length: 0,
    };
    grow(random, root, count, longest, slant, &mut codes);
    random.shuffle(&mut codes);
    codes
}

#[derive(Clone, Copy)]
struct Node {
    value: u32,
    length: u32,
}

impl Node {
    fn child(self, bit: u32) -> Node {
        Node {
            value: self.value * 2 + bit,
            length: self.length + 1,
        }
    }

    /// The most codes that fit below this node.
    fn room(self, longest: u32) -> usize {
        let used = 32 - self.value.leading_zeros();
        if self.length > longest || used > 16 {
            return 0;
        }
        1 << (16 - used).min(longest - self.length)
    }
}

/// Puts `count` codes below `node`. The greater the slant, the longer the
/// codes.
fn grow(
    random: &mut Random,
    node: Node,
    count: usize,
    longest: u32,
    slant: usize,
    codes: &mut Vec<(u16, u8)>,
) {
    let (zero, one) = (node.child(0), node.child(1));
    let stop = count == 1 && node.length > 0;
    if stop && (zero.room(longest) == 0 || !random.one_in(6)) {
        codes.push((node.value as u16, node.length as u8));
        return;
    }
    let low = count.saturating_sub(one.room(longest));
    let high = count.min(zero.room(longest));
    let wanted = split(random, node, count, slant);
    let zeros = wanted.clamp(low, high);
    if zeros > 0 {
        grow(random, zero, zeros, longest, slant, codes);
    }
    if zeros < count {
        grow(random, one, count - zeros, longest, slant, codes);
    }
}

/// How many of `count` codes to put below a further 0.
fn split(random: &mut Random, node: Node, count: usize, slant: usize) -> usize {
    if random.one_in(12) {
        random.below(count + 1)
    } else if random.below(4) >= slant {
        count / 2
    } else if node.value == 0 && random.one_in(2) {
        count
    } else {
        count - 1
    }
}

// ---- codebooks ----

/// The house codebook, or random bytes of some spread.
pub fn any_codebook(random: &mut Random) -> Vec<i8> {
    match random.below(5) {
        0 | 1 => house_codebook(),
        2 => random_codebook(random, |random| random.byte() as i8),
        3 => random_codebook(random, |random| random.pick(&[-128, 127, 0, -1, 1])),
        _ => random_codebook(random, |random| random.between(-12, 12) as i8),
    }
}

/// Bytes by `value`, with -128 and 127 somewhere among them.
pub fn random_codebook(random: &mut Random, value: fn(&mut Random) -> i8) -> Vec<i8> {
    let mut bytes: Vec<i8> = (0..CODEBOOK_BYTES).map(|_| value(random)).collect();
    for _ in 0..40 {
        let place = random.below(CODEBOOK_BYTES);
        bytes[place] = random.pick(&[-128, 127]);
    }
    bytes
}

// ---- planes ----

#[derive(Clone, Copy)]
enum Content {
    Flat,
    Smooth,
    Noisy,
    Grainy,
    Clipped,
    Patched,
}

const CONTENTS: [Content; 6] = [
    Content::Flat,
    Content::Smooth,
    Content::Noisy,
    Content::Grainy,
    Content::Clipped,
    Content::Patched,
];

/// Contents in which a movement shows.
const MOVING: [Content; 3] = [Content::Noisy, Content::Grainy, Content::Patched];

pub fn clamp(value: i64) -> u8 {
    value.clamp(0, 255) as u8
}

/// A plane of samples of one kind of content.
fn picture(random: &mut Random, content: Content, width: usize, height: usize) -> Vec<u8> {
    let base = random.between(0, 255);
    let (across, down) = (random.between(-160, 160), random.between(-160, 160));
    let grain = random.between(1, 24);
    let patches: Vec<u8> = (0..64).map(|_| random.byte()).collect();
    let mut samples = Vec::with_capacity(width * height);
    for y in 0..height {
        for x in 0..width {
            let slope = (across * x as i64 + down * y as i64) / 32;
            let value = match content {
                Content::Flat => base,
                Content::Smooth => base + slope,
                Content::Noisy => random.between(0, 255),
                Content::Grainy => base + slope + random.between(-grain, grain),
                Content::Clipped => random.pick(&[0, 255, base * 3 - 256]),
                Content::Patched => {
                    i64::from(patches[y / 4 % 8 * 8 + x / 4 % 8]) + random.between(0, 3)
                }
            };
            samples.push(clamp(value));
        }
    }
    samples
}

/// A canvas seen at half-sample places; places outside repeat its edge.
struct Canvas<'a> {
    samples: &'a [u8],
    stride: usize,
    rows: usize,
}

impl Canvas<'_> {
    fn at(&self, x: i64, y: i64) -> i64 {
        let x = x.clamp(0, self.stride as i64 - 1) as usize;
        let y = y.clamp(0, self.rows as i64 - 1) as usize;
        i64::from(self.samples[y * self.stride + x])
    }

    /// The mean of the samples around the place (x, y), in half samples.
    fn half(&self, x: i64, y: i64) -> i64 {
        let (left, top) = (x.div_euclid(2), y.div_euclid(2));
        let (right, bottom) = ((x + 1).div_euclid(2), (y + 1).div_euclid(2));
        let sum = self.at(left, top)
            + self.at(right, top)
            + self.at(left, bottom)
            + self.at(right, bottom);
        (sum + 2) / 4
    }
}

/// The reference moved by a vector for each 8×8 or 16×16 block, lightened
/// or darkened and with some noise.
fn moved(random: &mut Random, job: &Job, light: i64, noise: i64) -> Vec<u8> {
    let canvas = Canvas {
        samples: &job.reference,
        stride: job.stride(),
        rows: job.rows(),
    };
    let reach = random.pick(&[2, 6, 16, 34]);
    let jitter = random.pick(&[0, 1, 3, 8]);
    let side = random.pick(&[8, 16]);
    let base = (random.between(-reach, reach), random.between(-reach, reach));
    let vectors: Vec<(i64, i64)> = (0..64)
        .map(|_| {
            let x = base.0 + random.between(-jitter, jitter);
            (x, base.1 + random.between(-jitter, jitter))
        })
        .collect();
    let mut samples = Vec::with_capacity(job.width * job.height);
    for y in 0..job.height {
        for x in 0..job.width {
            let (across, down) = vectors[y / side % 8 * 8 + x / side % 8];
            let value = canvas.half(2 * x as i64 + across, 2 * y as i64 + down);
            samples.push(clamp(value + light + random.between(-noise, noise)));
        }
    }
    samples
}

/// The reference's visible part.
fn unmoved(job: &Job) -> Vec<u8> {
    let rows = job.reference.chunks(job.stride()).take(job.height);
    rows.flat_map(|row| &row[..job.width]).copied().collect()
}

// ---- jobs ----

/// A size of 1 to 64 each way, now and then a larger one.
fn any_size(random: &mut Random) -> (usize, usize) {
    let side = |random: &mut Random| match random.below(8) {
        0..=2 => random.between(1, 16) as usize,
        3..=5 => random.between(17, 40) as usize,
        6 => random.pick(&[8, 16, 24, 32, 48, 64]),
        _ => random.between(41, 64) as usize,
    };
    match random.below(100) {
        0 => (random.between(65, 176) as usize, side(random)),
        1 => (side(random), random.between(65, 144) as usize),
        2 => (random.between(1, 1024) as usize, 1 + random.below(9)),
        3 => (1 + random.below(9), random.between(1, 1024) as usize),
        _ => (side(random), side(random)),
    }
}

fn any_lambda(random: &mut Random) -> u64 {
    match random.below(14) {
        0 | 1 => 0,
        2..=4 => random.between(1, 12) as u64,
        5..=8 => random.between(13, 200) as u64,
        9 => random.between(201, 20_000) as u64,
        10 => 1 << 48,
        11 => u64::MAX,
        12 => 1 << random.below(64),
        _ => random.next(),
    }
}

fn any_radius(random: &mut Random) -> u8 {
    match random.below(8) {
        0 => 0,
        1 => 255,
        2..=5 => random.between(1, 12) as u8,
        _ => random.between(13, 40) as u8,
    }
}

/// A job without its samples.
fn bare(random: &mut Random, width: usize, height: usize) -> Job {
    Job {
        width,
        height,
        lambda: any_lambda(random),
        radius: any_radius(random),
        four: !random.one_in(3),
        source: Vec::new(),
        reference: Vec::new(),
    }
}

/// A job of the given size.
pub fn job_of_size(random: &mut Random, width: usize, height: usize) -> Job {
    if random.one_in(3) {
        return moved_job(random, width, height);
    }
    let mut job = bare(random, width, height);
    let content = random.pick(&CONTENTS);
    job.reference = picture(random, content, padded(width), padded(height));
    job.source = match random.below(6) {
        0..=2 => {
            let light = random.pick(&[0, 3, -40, 200, -200]);
            let noise = random.pick(&[0, 1, 6]);
            moved(random, &job, light, noise)
        }
        3 => unmoved(&job),
        _ => {
            let content = random.pick(&CONTENTS);
            picture(random, content, width, height)
        }
    };
    job
}

/// A job whose source is its reference moved, and little else.
pub fn moved_job(random: &mut Random, width: usize, height: usize) -> Job {
    let mut job = bare(random, width, height);
    let content = random.pick(&MOVING);
    job.reference = picture(random, content, padded(width), padded(height));
    let noise = random.pick(&[0, 0, 2]);
    job.source = moved(random, &job, 0, noise);
    job
}

/// The same samples under other settings.
pub fn other_settings(random: &mut Random, job: &Job) -> Job {
    let mut other = bare(random, job.width, job.height);
    other.source = job.source.clone();
    other.reference = job.reference.clone();
    other
}

pub fn any_job(random: &mut Random) -> Job {
    let (width, height) = any_size(random);
    job_of_size(random, width, height)
}
