//! Calls that documents 01 and 02 refuse. The original has no refusals, so
//! what is wanted stands here: the lowest number that applies, and zeros. No
//! refusal depends on the margin, so each call is asked at any.

use crate::book::{Book, Table, house_codebook};
use crate::ours::{Leaf, LeafCall, Plan, PlanCall, Sum, SumCall, Vector, VectorCall};
use crate::picture_refusals;
use crate::plane_refusals;
use crate::random::Random;
use crate::stream::unsigned;
use crate::tally::Tally;

const SEED: u64 = 4;

/// A margin, small ones as often as large ones.
pub fn any_margin(random: &mut Random) -> u32 {
    let margin = random.next() as u32;
    margin >> random.below(32)
}

pub fn refusals() -> Result<Tally, String> {
    let mut random = Random::new(SEED);
    let mut tally = Tally::default();
    for (name, want, change) in LEAVES {
        let mut call = good_leaf(any_margin(&mut random));
        change(&mut call);
        let got = call.ask();
        if *want == 0 && got.refused != 0 || *want != 0 && got != Leaf::refused(*want) {
            return Err(format!("leaf, {name}: wanted {want}, got {got:?}"));
        }
        tally.one(format!("leaf call answered {want}"));
    }
    for (name, want, change) in LEAVES {
        let mut block = good_leaf(any_margin(&mut random));
        change(&mut block);
        let got = PlanCall { block, lambda: 20 }.ask();
        if *want == 0 && got.refused != 0 || *want != 0 && got != Plan::refused(*want) {
            return Err(format!("plan, {name}: wanted {want}, got {got:?}"));
        }
        tally.one(format!("plan call answered {want}"));
    }
    for (name, want, change) in SEARCHES {
        let mut call = good_search();
        change(&mut call);
        let got = call.ask();
        if *want == 0 && got.refused != 0 || *want != 0 && got != Vector::refused(*want) {
            return Err(format!("search, {name}: wanted {want}, got {got:?}"));
        }
        tally.one(format!("search call answered {want}"));
    }
    sum_refusals(&mut random, &mut tally)?;
    plane_refusals::refusals(&mut random, &mut tally)?;
    picture_refusals::refusals(&mut random, &mut tally)?;
    Ok(tally)
}

/// The blocks of the search once with a vector that may be taken wherever the
/// search has an answer, and once with one that never may; then vectors of one
/// block. The best is any.
fn sum_refusals(random: &mut Random, tally: &mut Tally) -> Result<(), String> {
    for (name, want, change) in SEARCHES {
        for (vx, vy, otherwise) in [(-1, 0, 0), (i32::MAX, i32::MIN, 23)] {
            let mut block = good_search();
            change(&mut block);
            let want = if *want == 0 { otherwise } else { *want };
            check_sum(random, tally, name, want, block, (vx, vy))?;
        }
    }
    for (name, want, vector, change) in SUMS {
        let mut block = good_search();
        change(&mut block);
        check_sum(random, tally, name, *want, block, *vector)?;
    }
    Ok(())
}

fn check_sum(
    random: &mut Random,
    tally: &mut Tally,
    name: &str,
    want: u8,
    block: VectorCall,
    (vx, vy): (i32, i32),
) -> Result<(), String> {
    let best = random.next() >> random.below(64);
    let call = SumCall {
        block,
        vx,
        vy,
        best,
    };
    let got = call.ask();
    if want == 0 && got.refused != 0 || want != 0 && got != Sum::refused(want) {
        return Err(format!(
            "sum, {name}, vector ({vx},{vy}), best {best}: wanted {want}, got {got:?}"
        ));
    }
    tally.one(format!("sum call answered {want}"));
    Ok(())
}

// ---- leaf, and plan: both refuse the same blocks ----

fn good_leaf(margin: u32) -> LeafCall {
    LeafCall {
        book: Book::house().to_bytes(),
        codebook: unsigned(&house_codebook()),
        level: 0,
        half: 1,
        target: vec![90; 8],
        predictor: vec![100; 8],
        cap: 6,
        skip: 1,
        margin,
    }
}

/// Gives an entry of a table another code.
fn set(call: &mut LeafCall, table: Table, position: usize, value: u16, length: u8) {
    let mut book = Book::from_bytes(&call.book);
    book.set(table, position, value, length);
    call.book = book.to_bytes();
}

/// Gives an entry the code of the one before it, lengthened by zeros.
fn lengthen(call: &mut LeafCall, table: Table, position: usize, zeros: u8) {
    let (value, length) = Book::from_bytes(&call.book).table(table)[position - 1];
    set(call, table, position, value << zeros, length + zeros);
}

type LeafChange = (&'static str, u8, fn(&mut LeafCall));

const LEAVES: &[LeafChange] = &[
    ("nothing changed", 0, |_| {}),
    ("any skip flag", 0, |call| call.skip = 255),
    ("the largest margin", 0, |call| call.margin = u32::MAX),
    ("no book", 5, |call| call.book.clear()),
    ("book one byte short", 5, |call| call.book.truncate(2795)),
    ("book one entry long", 5, |call| call.book.extend([0, 1, 1])),
    ("no codebook", 5, |call| call.codebook.clear()),
    ("codebook one byte short", 5, |call| {
        call.codebook.truncate(23039)
    }),
    ("codebook one byte long", 5, |call| call.codebook.push(0)),
    ("first code of no length", 6, |call| {
        set(call, Table::Mode, 0, 0, 0)
    }),
    ("last code of 33 bits", 6, |call| {
        set(call, Table::InterStage, 47, 1, 33)
    }),
    ("a code of 255 bits", 6, |call| {
        set(call, Table::InterMean, 300, 1, 255)
    }),
    ("a value past its length", 6, |call| {
        set(call, Table::IntraMean, 9, 8, 3)
    }),
    ("the same code twice", 7, |call| {
        lengthen(call, Table::Mode, 1, 0)
    }),
    ("a code that begins another", 7, |call| {
        lengthen(call, Table::Vector, 40, 1)
    }),
    ("the same in a level's stages", 7, |call| {
        lengthen(call, Table::IntraStage, 47, 0)
    }),
    ("level 6", 8, |call| call.level = 6),
    ("level 255", 8, |call| call.level = 255),
    ("half 2", 8, |call| call.half = 2),
    ("target one short", 8, |call| call.target.truncate(7)),
    ("target one long", 8, |call| call.target.push(0)),
    ("no predictor", 8, |call| call.predictor.clear()),
    ("both one long", 8, |call| {
        call.target.push(0);
        call.predictor.push(0);
    }),
    ("a block of another level", 8, |call| call.level = 1),
    ("cap 7", 8, |call| call.cap = 7),
    ("intra with skip", 8, |call| call.half = 0),
    ("intra without skip", 0, |call| {
        call.half = 0;
        call.skip = 0;
    }),
    ("5 before 8", 5, |call| {
        call.codebook.clear();
        call.level = 6;
    }),
    ("5 before 6", 5, |call| {
        set(call, Table::Mode, 0, 0, 0);
        call.codebook.clear();
    }),
    ("6 before 7 and 8", 6, |call| {
        lengthen(call, Table::Mode, 1, 0);
        set(call, Table::InterStage, 47, 1, 33);
        call.level = 6;
    }),
    ("7 before 8", 7, |call| {
        lengthen(call, Table::Mode, 1, 0);
        call.cap = 7;
    }),
];

// ---- search, and sum: both refuse the same blocks ----

fn good_search() -> VectorCall {
    VectorCall {
        reference: vec![50; 32 * 16],
        width: 20,
        height: 16,
        stride: 32,
        rows: 16,
        target: vec![50; 64],
        side: 8,
        x: 8,
        y: 0,
        px: 0,
        py: 0,
        radius: 3,
    }
}

type SearchChange = (&'static str, u8, fn(&mut VectorCall));

const SEARCHES: &[SearchChange] = &[
    ("nothing changed", 0, |_| {}),
    ("radius 255", 0, |call| call.radius = 255),
    ("predictor at both ends", 0, |call| {
        call.px = -32;
        call.py = 31;
    }),
    ("width 0", 1, |call| call.width = 0),
    ("height 0", 1, |call| call.height = 0),
    ("width 1025", 1, |call| {
        call.width = 1025;
        call.stride = 1040;
        call.reference = vec![50; 1040 * 16];
    }),
    ("width 1024", 0, |call| {
        call.width = 1024;
        call.stride = 1024;
        call.reference = vec![50; 1024 * 16];
    }),
    ("height 1025", 1, |call| call.height = 1025),
    ("the largest width", 1, |call| call.width = usize::MAX),
    ("stride not rounded up", 3, |call| call.stride = 20),
    ("stride one macroblock more", 3, |call| {
        call.stride = 48;
        call.reference = vec![50; 48 * 16];
    }),
    ("the largest stride", 3, |call| call.stride = usize::MAX),
    ("rows one macroblock more", 3, |call| {
        call.rows = 32;
        call.reference = vec![50; 32 * 32];
    }),
    ("rows not in macroblocks", 3, |call| call.rows = 17),
    ("canvas one short", 4, |call| call.reference.truncate(511)),
    ("canvas one long", 4, |call| call.reference.push(0)),
    ("no canvas", 4, |call| call.reference.clear()),
    ("side 0", 9, |call| {
        call.side = 0;
        call.target.clear();
    }),
    ("side 4", 9, |call| {
        call.side = 4;
        call.target.truncate(16);
    }),
    ("side 32", 9, |call| {
        call.side = 32;
        call.x = 0;
        call.target = vec![50; 1024];
    }),
    ("x off the grid", 9, |call| call.x = 12),
    ("x off the grid of 16", 9, |call| {
        call.side = 16;
        call.target = vec![50; 256];
    }),
    ("y off the grid", 9, |call| call.y = 1),
    ("x at the stride", 9, |call| call.x = 32),
    ("y at the rows", 9, |call| call.y = 16),
    ("x beyond the visible", 0, |call| call.x = 24),
    ("target one short", 9, |call| call.target.truncate(63)),
    ("target one long", 9, |call| call.target.push(0)),
    ("predictor 32 across", 9, |call| call.px = 32),
    ("predictor -33 across", 9, |call| call.px = -33),
    ("predictor 32 down", 9, |call| call.py = 32),
    ("the lowest predictor", 9, |call| call.py = i32::MIN),
    ("1 before 3, 4 and 9", 1, |call| {
        call.width = 0;
        call.stride = 0;
        call.reference.clear();
        call.side = 0;
    }),
    ("3 before 4 and 9", 3, |call| {
        call.stride = 16;
        call.reference.clear();
        call.side = 0;
    }),
    ("4 before 9", 4, |call| {
        call.reference.clear();
        call.px = 32;
    }),
    ("9 before 23", 9, |call| {
        call.x = 0;
        call.px = -32;
        call.py = 32;
    }),
    ("nothing codable in the window", 23, |call| {
        call.x = 0;
        call.px = -32;
    }),
];

type SumChange = (&'static str, u8, (i32, i32), fn(&mut VectorCall));

/// The block stands at 8,0, with 8 samples to its left, 4 to its right and 8
/// below it.
const SUMS: &[SumChange] = &[
    ("zero", 0, (0, 0), |_| {}),
    ("far on both axes", 0, (16, 16), |call| call.width = 32),
    ("left edge", 0, (-16, 0), |_| {}),
    ("past the left edge", 23, (-17, 0), |_| {}),
    ("right edge", 0, (8, 0), |_| {}),
    ("past the right edge", 23, (9, 0), |_| {}),
    ("past the upper edge", 23, (0, -1), |_| {}),
    ("lower edge", 0, (0, 16), |_| {}),
    ("past the lower edge", 23, (0, 17), |_| {}),
    ("a component of 32", 23, (0, 32), |_| {}),
    ("a component of -33", 23, (-33, 0), |_| {}),
    ("the lowest components", 23, (i32::MIN, i32::MIN), |_| {}),
    ("the largest components", 23, (i32::MAX, i32::MAX), |_| {}),
    ("31 from the predictor", 0, (0, 0), |call| call.px = -31),
    ("32 from the predictor", 23, (0, 0), |call| call.px = -32),
    ("-32 from the predictor", 0, (-1, 0), |call| call.px = 31),
    ("-33 from the predictor", 23, (-2, 0), |call| call.px = 31),
    ("32 from the predictor down", 23, (0, 0), |call| {
        call.py = -32
    }),
    ("1 before 23", 1, (32, 0), |call| call.height = 0),
    ("3 before 23", 3, (0, -1), |call| call.stride = 16),
    ("4 before 23", 4, (9, 0), |call| call.reference.clear()),
    ("9 before 23", 9, (0, 0), |call| call.py = -33),
];
