//! The run-time form of the original's tables. The original keeps what it
//! derives from them for the life of the process, so they are loaded once.

use std::ops::Deref;
use std::sync::OnceLock;

use crate::book::{Book, CODEBOOK_BYTES, Table};
use crate::svq1_codebook::*;

/// A code table: its entries and the number that the first one stands for.
type Entries<const N: usize> = ([(u16, u8); N], i32);

/// A code table that is empty until it is loaded.
pub struct Vlc<const N: usize> {
    cell: OnceLock<Entries<N>>,
}

impl<const N: usize> Vlc<N> {
    pub const fn empty() -> Self {
        Self {
            cell: OnceLock::new(),
        }
    }

    fn fill(&self, entries: &[(u16, u8)], first: i32) {
        let entries = entries.try_into().expect("table size");
        assert!(self.cell.set((entries, first)).is_ok(), "loaded twice");
    }
}

impl<const N: usize> Deref for Vlc<N> {
    type Target = Entries<N>;

    fn deref(&self) -> &Entries<N> {
        self.cell.get().expect("tables are not loaded")
    }
}

/// Codebook bytes that are empty until they are loaded.
pub struct Lent<T> {
    cell: OnceLock<Vec<T>>,
}

impl<T> Lent<T> {
    pub const fn empty() -> Self {
        Self {
            cell: OnceLock::new(),
        }
    }

    fn fill(&self, values: Vec<T>) {
        assert!(self.cell.set(values).is_ok(), "loaded twice");
    }
}

impl<T> Deref for Lent<T> {
    type Target = [T];

    fn deref(&self) -> &[T] {
        self.cell.get().expect("tables are not loaded")
    }
}

static LONGEST: OnceLock<u8> = OnceLock::new();

/// Loads the book and the codebook for the rest of the process.
pub fn load(book: &Book, codebook: &[i8]) {
    load_codes(book);
    load_codebook(codebook);
    LONGEST.set(book.longest()).expect("loaded twice");
}

/// Length of the loaded book's longest code.
pub fn longest() -> u8 {
    *LONGEST.get().expect("tables are not loaded")
}

fn load_codes(book: &Book) {
    SVQ1_VLC_MB_MODE.fill(book.table(Table::Mode), 0);
    SVQ1_VLC_MV_COMPONENT.fill(book.table(Table::Vector), 0);
    SVQ1_VLC_INTRA_MEAN.fill(book.table(Table::IntraMean), 0);
    SVQ1_VLC_INTER_MEAN.fill(book.table(Table::InterMean), -256);
    let intra = [
        &SVQ1_VLC_INTRA_STAGE_COUNT_L0,
        &SVQ1_VLC_INTRA_STAGE_COUNT_L1,
        &SVQ1_VLC_INTRA_STAGE_COUNT_L2,
        &SVQ1_VLC_INTRA_STAGE_COUNT_L3,
        &SVQ1_VLC_INTRA_STAGE_COUNT_L4,
        &SVQ1_VLC_INTRA_STAGE_COUNT_L5,
    ];
    let inter = [
        &SVQ1_VLC_INTER_STAGE_COUNT_L0,
        &SVQ1_VLC_INTER_STAGE_COUNT_L1,
        &SVQ1_VLC_INTER_STAGE_COUNT_L2,
        &SVQ1_VLC_INTER_STAGE_COUNT_L3,
        &SVQ1_VLC_INTER_STAGE_COUNT_L4,
        &SVQ1_VLC_INTER_STAGE_COUNT_L5,
    ];
    for level in 0..6 {
        let part = level * 8..level * 8 + 8;
        intra[level].fill(&book.table(Table::IntraStage)[part.clone()], 0);
        inter[level].fill(&book.table(Table::InterStage)[part], 0);
    }
}

fn load_codebook(codebook: &[i8]) {
    assert_eq!(codebook.len(), CODEBOOK_BYTES);
    let (first, rest) = codebook.split_at(16);
    let (middle, tail) = rest.split_at(SVQ1_CODEBOOK_PAYLOAD_BYTES);
    SVQ1_BLOCK_SHAPE_LUT.fill(first.iter().map(|&value| value as u8).collect());
    SVQ1_CODEBOOK_L0L3_BYTES.fill(middle.to_vec());
    SVQ1_CODEBOOK_TAIL_BYTES.fill(tail.to_vec());
}
