//! Plane calls that document 01 refuses, and some that it does not, from
//! both the writer and the reader; a refused call changes nothing.

use crate::book::{Book, Table, house_codebook};
use crate::ours_plane::{Lent, PlaneCall, Read, Written};
use crate::random::Random;
use crate::refusals::any_margin;
use crate::stream::unsigned;
use crate::tally::Tally;

#[derive(Clone)]
pub struct Asked {
    pub call: PlaneCall,
    pub lent: Lent,
    pub start: usize,
}

pub fn refusals(random: &mut Random, tally: &mut Tally) -> Result<(), String> {
    for (name, write, read, change) in PLANES {
        let mut asked = good_plane(any_margin(random));
        change(&mut asked);
        check_write(&asked, *write).map_err(|told| format!("plane writer, {name}: {told}"))?;
        check_read(&asked, *read).map_err(|told| format!("plane reader, {name}: {told}"))?;
        tally.one(format!("plane writer answered {write}"));
        tally.one(format!("plane reader answered {read}"));
    }
    Ok(())
}

/// Where the first macroblock does not fit, the next bit is the start bit;
/// with every other refusal everything else is 0.
fn next(want: u8, start: usize) -> usize {
    if want == 22 || want == 24 { start } else { 0 }
}

fn check_write(asked: &Asked, want: u8) -> Result<(), String> {
    let mut left = asked.lent.clone();
    let got = asked.call.write(&mut left, asked.start);
    let refused = Written {
        refused: want,
        done: 0,
        next: next(want, asked.start),
        bits: 0,
        error: 0,
    };
    let as_wanted = if want == 0 {
        got.refused == 0 && got.done == 2
    } else {
        got == refused && left == asked.lent
    };
    verdict(as_wanted, want, &format!("{got:?}"))
}

fn check_read(asked: &Asked, want: u8) -> Result<(), String> {
    let mut left = asked.lent.clone();
    let got = asked.call.read(&mut left, asked.start);
    let refused = Read {
        refused: want,
        done: 0,
        next: next(want, asked.start),
    };
    let as_wanted = if want == 0 {
        got.refused == 0 && got.done == 2
    } else {
        got == refused && left == asked.lent
    };
    verdict(as_wanted, want, &format!("{got:?}"))
}

fn verdict(as_wanted: bool, want: u8, got: &str) -> Result<(), String> {
    if as_wanted {
        return Ok(());
    }
    Err(format!("wanted {want} and nothing changed, got {got}"))
}

/// Two macroblocks; the bits read as two skipped ones.
pub fn good_plane(margin: u32) -> Asked {
    let call = PlaneCall {
        width: 20,
        height: 16,
        stride: 32,
        rows: 16,
        source: vec![50; 320],
        reference: vec![40; 512],
        book: Book::house().to_bytes(),
        codebook: unsigned(&house_codebook()),
        lambda: 20,
        radius: 3,
        four: 1,
        margin,
    };
    let lent = Lent {
        out: vec![255; 64],
        recon: vec![7; 512],
        vx: vec![8; 8],
        vy: vec![9; 8],
        stated: vec![10; 6],
    };
    Asked {
        call,
        lent,
        start: 3,
    }
}

/// Gives an entry of a table another code, if the book is long enough.
fn set(asked: &mut Asked, table: Table, position: usize, value: u16, length: u8) {
    let place = 3 * (table.start() + position);
    if let Some(entry) = asked.call.book.get_mut(place..place + 3) {
        entry.copy_from_slice(&[(value >> 8) as u8, value as u8, length]);
    }
}

/// The changes by name, but for those that take much memory.
pub fn small_changes() -> Vec<(&'static str, fn(&mut Asked))> {
    let small = PLANES.iter().filter(|(name, ..)| !name.starts_with("2^28"));
    small.map(|&(name, _, _, change)| (name, change)).collect()
}

/// A name, the writer's number, the reader's, and what is changed.
type Change = (&'static str, u8, u8, fn(&mut Asked));

const PLANES: &[Change] = &[
    ("nothing changed", 0, 0, |_| {}),
    ("any flag", 0, 0, |asked| asked.call.four = 255),
    ("the largest margin", 0, 0, |asked| {
        asked.call.margin = u32::MAX
    }),
    ("lambda 2^64-1, radius 255", 0, 0, |asked| {
        asked.call.lambda = u64::MAX;
        asked.call.radius = 255;
    }),
    ("width 0", 1, 1, |asked| asked.call.width = 0),
    ("height 0", 1, 1, |asked| asked.call.height = 0),
    ("width 1025", 1, 1, |asked| {
        asked.call.width = 1025;
        asked.call.stride = 1040;
        asked.call.source = vec![50; 1025 * 16];
        asked.call.reference = vec![40; 1040 * 16];
        asked.lent.recon = vec![7; 1040 * 16];
        asked.lent.vx = vec![8; 260];
        asked.lent.vy = vec![9; 260];
    }),
    ("height 1025", 1, 1, |asked| asked.call.height = 1025),
    ("the largest width", 1, 1, |asked| {
        asked.call.width = usize::MAX
    }),
    ("the largest height", 1, 1, |asked| {
        asked.call.height = usize::MAX
    }),
    ("no source", 2, 0, |asked| asked.call.source.clear()),
    ("source one short", 2, 0, |asked| {
        asked.call.source.truncate(319)
    }),
    ("source one long", 2, 0, |asked| asked.call.source.push(0)),
    ("source of the canvas", 2, 0, |asked| {
        asked.call.source = vec![50; 512]
    }),
    ("stride not rounded up", 3, 3, |asked| {
        asked.call.stride = 20
    }),
    ("stride one macroblock more", 3, 3, |asked| {
        asked.call.stride = 48;
        asked.call.reference = vec![40; 48 * 16];
    }),
    ("the largest stride", 3, 3, |asked| {
        asked.call.stride = usize::MAX
    }),
    ("rows one macroblock more", 3, 3, |asked| {
        asked.call.rows = 32
    }),
    ("no rows", 3, 3, |asked| asked.call.rows = 0),
    ("the largest rows", 3, 3, |asked| {
        asked.call.rows = usize::MAX
    }),
    ("no canvas", 4, 4, |asked| asked.call.reference.clear()),
    ("canvas one short", 4, 4, |asked| {
        asked.call.reference.truncate(511)
    }),
    ("canvas one long", 4, 4, |asked| {
        asked.call.reference.push(0)
    }),
    ("no book", 5, 5, |asked| asked.call.book.clear()),
    ("book one byte short", 5, 5, |asked| {
        asked.call.book.truncate(2795)
    }),
    ("book one entry long", 5, 5, |asked| {
        asked.call.book.extend([0, 1, 1])
    }),
    ("no codebook", 5, 5, |asked| asked.call.codebook.clear()),
    ("codebook one byte long", 5, 5, |asked| {
        asked.call.codebook.push(0)
    }),
    ("a code of no length", 6, 6, |asked| {
        set(asked, Table::Vector, 63, 0, 0)
    }),
    ("a code of 33 bits", 6, 6, |asked| {
        set(asked, Table::InterStage, 47, 1, 33)
    }),
    ("a value past its length", 6, 6, |asked| {
        set(asked, Table::IntraMean, 9, 8, 3)
    }),
    ("the same code twice", 7, 7, |asked| {
        set(asked, Table::Mode, 0, 1, 1)
    }),
    ("a code that begins another", 7, 7, |asked| {
        set(asked, Table::InterStage, 1, 2, 2)
    }),
    ("samples one short", 20, 20, |asked| {
        asked.lent.recon.truncate(511)
    }),
    ("samples one long", 20, 20, |asked| asked.lent.recon.push(0)),
    ("no samples", 20, 20, |asked| asked.lent.recon.clear()),
    ("x one short", 20, 20, |asked| asked.lent.vx.truncate(7)),
    ("y one short", 20, 20, |asked| asked.lent.vy.truncate(7)),
    ("no vectors", 20, 20, |asked| {
        asked.lent.vx.clear();
        asked.lent.vy.clear();
    }),
    ("longer vector slices", 0, 0, |asked| {
        asked.lent.vx.push(0);
        asked.lent.vy.extend([0; 9]);
    }),
    ("start one bit beyond", 21, 21, |asked| asked.start = 513),
    ("the largest start", 21, 21, |asked| {
        asked.start = usize::MAX
    }),
    ("start at the end", 22, 24, |asked| asked.start = 512),
    ("no bits at all", 22, 24, |asked| {
        asked.lent.out.clear();
        asked.start = 0;
    }),
    ("a bit of no bits", 21, 21, |asked| {
        asked.lent.out.clear();
        asked.start = 1;
    }),
    ("2^28 bytes", 0, 0, |asked| {
        asked.lent.out = vec![255; 1 << 28]
    }),
    ("2^28 bytes and one", 21, 21, |asked| {
        asked.lent.out = vec![255; (1 << 28) + 1]
    }),
    ("1 before all", 1, 1, |asked| {
        asked.call.width = 0;
        asked.call.stride = 1;
        asked.call.source.clear();
        asked.call.reference.clear();
        asked.call.book.clear();
        asked.lent.recon.clear();
        asked.start = 513;
    }),
    ("2 before 3 to 21", 2, 3, |asked| {
        asked.call.source.clear();
        asked.call.stride = 16;
        asked.call.reference.clear();
        asked.call.codebook.clear();
        asked.lent.recon.clear();
        asked.start = 513;
    }),
    ("3 before 4 to 21", 3, 3, |asked| {
        asked.call.rows = 32;
        asked.call.reference.clear();
        asked.call.book.clear();
        asked.lent.vx.clear();
        asked.start = 513;
    }),
    ("4 before 5 to 21", 4, 4, |asked| {
        asked.call.reference.clear();
        asked.call.codebook.clear();
        asked.lent.vy.clear();
        asked.start = 513;
    }),
    ("5 before 6 to 21", 5, 5, |asked| {
        set(asked, Table::Mode, 0, 0, 0);
        asked.call.codebook.clear();
        asked.lent.recon.clear();
        asked.start = 513;
    }),
    ("6 before 7 to 21", 6, 6, |asked| {
        set(asked, Table::Mode, 0, 1, 1);
        set(asked, Table::InterStage, 47, 1, 33);
        asked.lent.recon.clear();
        asked.start = 513;
    }),
    ("7 before 20 and 21", 7, 7, |asked| {
        set(asked, Table::Mode, 0, 1, 1);
        asked.lent.recon.clear();
        asked.start = 513;
    }),
    ("20 before 21", 20, 20, |asked| {
        asked.lent.vx.clear();
        asked.start = 513;
    }),
];
