//! The book and the codebook of a seed.

use crate::book::Book;
use crate::make::{any_book, any_codebook};
use crate::picture::any_tables;
use crate::random::Random;
use crate::stream::unsigned;
use crate::tables;

pub struct SeedTables {
    pub book: Vec<u8>,
    pub codebook: Vec<u8>,
}

/// Loads them for the rest of the process.
pub fn load_tables(seed: u64) -> SeedTables {
    let mut random = Random::new(seed);
    let book = any_book(&mut random);
    let codebook = any_codebook(&mut random);
    load(&book, &codebook)
}

/// The same for pictures.
pub fn load_picture_tables(seed: u64) -> SeedTables {
    let (book, codebook) = any_tables(&mut Random::new(seed));
    load(&book, &codebook)
}

fn load(book: &Book, codebook: &[i8]) -> SeedTables {
    tables::load(book, codebook);
    SeedTables {
        book: book.to_bytes(),
        codebook: unsigned(codebook),
    }
}
