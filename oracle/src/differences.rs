//! The inputs of docs/DIFFERENCES.md, run on the original. Each case has its
//! own tables, and the original keeps tables for the life of a process, so
//! each case runs in a process of its own.

use std::panic::{catch_unwind, set_hook};
use std::process::Command;

use crate::answer::{decode, params};
use crate::book::{Book, Table, house_codebook};
use crate::cards::{hex, search_at, show};
use crate::job::Job;
use crate::svq1_blocktree::Svq1Level;
use crate::svq1_enc::{BitWriter, Svq1PlaneRef};
use crate::svq1_enc_inter::{
    MvVisibleWindow, call_encode_inter_plane, call_mv_component_bits, search_motion_vector,
};
use crate::svq1_enc_leaf::search_leaf;
use crate::svq1_mc::Svq1ReferencePlane;
use crate::svq1_motion_predictor::Svq1Mv;
use crate::svq1_mv_cache::Svq1MvCache;
use crate::svq1_plane::Svq1PlaneCanvas;
use crate::svq1_vlc::Svq1Half;
use crate::tables;

struct Case {
    name: &'static str,
    book: fn() -> Book,
    run: fn() -> String,
}

const CASES: [Case; 26] = [
    case("search-none", Book::house, || search_at(0)),
    case("search-none-code", Book::house, || {
        call_mv_component_bits(32).to_string()
    }),
    case("read-vector-clamp", Book::house, || {
        read(16, &[0x4A, 0x80], |samples| format!("{:?}", &samples[..16]))
    }),
    case("read-predicted", Book::house, || {
        read(32, &[0x45, 0xAB, 0x40], |samples| {
            format!("{:?}", &samples[16..32])
        })
    }),
    case("write-long-code", || with_modes(LONG_MODES), write_still),
    case(
        "read-long-code",
        || with_modes(LONG_MODES),
        || read_all(16, &[0x00, 0x00, 0x08]),
    ),
    case(
        "read-sixteen-bits",
        || with_modes(GAP_MODES),
        || read_all(16, &[0x80, 0x00, 0x80]),
    ),
    case("read-mean-first", Book::house, || {
        read_all(16, &[0x21, 0x80])
    }),
    case("read-mean-then-level", Book::house, || {
        read_all(16, &[0x21, 0xC0])
    }),
    case(
        "read-no-code",
        || with_modes(SHORT_MODES),
        || read_all(16, &[0xFF]),
    ),
    case("read-early-end", Book::house, || read_all(144, &[0xFF])),
    case("write-clash", || with_modes(CLASHING_MODES), write_still),
    case(
        "read-clash",
        || with_modes(CLASHING_MODES),
        || read_all(16, &[0x00]),
    ),
    case("write-no-length", || with_modes(EMPTY_MODES), write_still),
    case("write-wide", Book::house, || {
        write((1040, 1), 1040, (1040, 1))
    }),
    case("write-empty", Book::house, || write((0, 16), 0, (0, 16))),
    case("write-source-long", Book::house, || {
        write((4, 4), 17, (4, 4))
    }),
    case("write-source-short", Book::house, || {
        write((4, 4), 15, (4, 4))
    }),
    case("write-other-reference", Book::house, || {
        write((16, 16), 256, (17, 16))
    }),
    case("leaf-intra-skip", Book::house, || {
        leaf(Svq1Half::Intra, 8, 6, true)
    }),
    case("leaf-cap", Book::house, || {
        leaf(Svq1Half::Inter, 8, 7, true)
    }),
    case("leaf-length", Book::house, || {
        leaf(Svq1Half::Inter, 9, 6, true)
    }),
    case("leaf-clamped-once", Book::house, || {
        let target = [255, 0, 0, 0, 0, 0, 0, 0];
        let leaf = search_leaf(Svq1Level::L0, Svq1Half::Intra, &target, &[0; 8], 6, false);
        format!("{:?}", leaf.recon)
    }),
    case("search-off-grid", Book::house, search_off_grid),
    case("neighbours-of-third", Book::house, || neighbours_of(2)),
    case("neighbours-of-fourth", Book::house, || neighbours_of(3)),
];

const fn case(name: &'static str, book: fn() -> Book, run: fn() -> String) -> Case {
    Case { name, book, run }
}

/// Prints what the original does in every case.
pub fn differences() -> Result<(), String> {
    let program = std::env::current_exe().map_err(|error| error.to_string())?;
    for case in &CASES {
        let child = Command::new(&program)
            .args(["difference", case.name])
            .status()
            .map_err(|error| error.to_string())?;
        if !child.success() {
            return Err(format!("{} could not be run", case.name));
        }
    }
    Ok(())
}

/// Prints what the original does in one case.
pub fn difference(name: &str) -> Result<(), String> {
    let case = CASES.iter().find(|case| case.name == name);
    let case = case.ok_or(format!("no such case: {name}"))?;
    tables::load(&(case.book)(), &house_codebook());
    set_hook(Box::new(|_| {}));
    let outcome = catch_unwind(case.run).unwrap_or("panics".into());
    println!("{name}: {outcome}");
    Ok(())
}

// ---- books: the house book with other mode codes, as (value, length) ----

type Modes = [(u16, u8); 4];

/// Every code of 23 bits.
const LONG_MODES: Modes = [(1, 23), (2, 23), (3, 23), (4, 23)];
/// No code begins with 1, and one has 17 bits.
const GAP_MODES: Modes = [(1, 2), (1, 3), (1, 4), (1, 17)];
/// No code begins with 1, and one has 9 bits.
const SHORT_MODES: Modes = [(1, 2), (1, 3), (1, 4), (1, 9)];
/// Every code is the same.
const CLASHING_MODES: Modes = [(0, 2); 4];
/// SKIP has no bits.
const EMPTY_MODES: Modes = [(1, 1), (1, 2), (1, 3), (0, 0)];

fn with_modes(modes: Modes) -> Book {
    let mut book = Book::house();
    for (position, (value, length)) in modes.into_iter().enumerate() {
        book.set(Table::Mode, position, value, length);
    }
    book
}

// ---- calls ----

fn job(width: usize, height: usize, source: Vec<u8>, reference: Vec<u8>) -> Job {
    Job {
        width,
        height,
        lambda: 32,
        radius: 8,
        four: false,
        source,
        reference,
    }
}

/// Reads a plane of one row of macroblocks whose reference is ten times the
/// column in each sample.
fn read(width: usize, bits: &[u8], show: fn(&[u8]) -> String) -> String {
    let row: Vec<u8> = (0..width).map(|x| (10 * x % 256) as u8).collect();
    let job = job(width, 16, Vec::new(), row.repeat(16));
    match decode(&job, bits, 8 * bits.len()) {
        Ok((samples, taken)) => format!("{taken} bits, {}", show(&samples)),
        Err(error) => format!("{error:?}"),
    }
}

fn read_all(width: usize, bits: &[u8]) -> String {
    read(width, bits, |_| "all macroblocks".into())
}

/// Writes a plane of `length` zeros against a canvas of zeros for a plane of
/// the other size.
fn write(size: (usize, usize), length: usize, other: (usize, usize)) -> String {
    let job = job(size.0, size.1, vec![0; length], Vec::new());
    let source = Svq1PlaneRef {
        samples: &job.source,
        width: job.width,
        height: job.height,
    };
    let reference = Svq1PlaneCanvas::new(other.0, other.1);
    let mut writer = BitWriter::new();
    match call_encode_inter_plane(&mut writer, &source, &reference, &params(&job)) {
        Ok(()) => {
            let count = writer.bits_written();
            format!("{count} bits [{}]", hex(&writer.into_bytes()))
        }
        Err(error) => format!("{error:?}"),
    }
}

/// Writes a 16×16 plane that equals its reference.
fn write_still() -> String {
    write((16, 16), 256, (16, 16))
}

/// Searches an L0 leaf of `length` zeros.
fn leaf(half: Svq1Half, length: usize, cap: usize, skip: bool) -> String {
    let zeros = vec![0; length];
    let leaf = search_leaf(Svq1Level::L0, half, &zeros, &zeros, cap, skip);
    format!("{:?}, {} bits", leaf.code, leaf.bits)
}

/// A search at a place that is no multiple of the side.
fn search_off_grid() -> String {
    let samples = [50; 32 * 32];
    let plane = Svq1ReferencePlane::new(&samples, 32, 32).expect("whole rows");
    let window = MvVisibleWindow::for_block(3, 0, 8, 32, 32);
    let found = search_motion_vector(&plane, &[50; 64], 8, 3, 0, Svq1Mv::ZERO, 8, window);
    show(found)
}

/// The neighbours of an 8×8 block of the only macroblock, after the blocks
/// before it have got the vectors (1,1), (2,2) and (3,3).
fn neighbours_of(index: usize) -> String {
    let mut cache = Svq1MvCache::new(1, 1);
    for earlier in 0..index {
        let value = earlier as i32 + 1;
        cache.store_subblock(0, 0, earlier, Svq1Mv::new(value, value));
    }
    let neighbours = cache.inter_4mv_neighbours(0, 0, index);
    let name = |vector: Option<Svq1Mv>| vector.map_or("none".into(), show);
    format!(
        "left {}, top {}, top right {}",
        name(neighbours.left),
        name(neighbours.top),
        name(neighbours.top_right)
    )
}
