//! Jobs from files and in batches.

use std::fs;
use std::io::{Read, Write, stdin, stdout};
use std::path::Path;

use crate::answer::answer;
use crate::book::{BOOK_BYTES, Book, CODEBOOK_BYTES, house_codebook};
use crate::bytes::Source;
use crate::job::{Job, read_bytes, read_text, write};
use crate::make::{any_book, any_codebook, any_job};
use crate::random::Random;
use crate::tables;

/// Answers the job of a folder's five files with five more beside them.
pub fn run(folder: &Path) -> Result<(), String> {
    let job = load_files(folder)?;
    let answer = answer(&job);
    write(&folder.join("out.bits"), &answer.bits)?;
    write(&folder.join("out.recon"), &answer.reconstruction)?;
    write(&folder.join("out.mvx"), &answer.x)?;
    write(&folder.join("out.mvy"), &answer.y)?;
    let listing = answer.listing(&job);
    write(&folder.join("out.txt"), listing.as_bytes())
}

/// Loads a folder's tables and gives its job.
pub fn load_files(folder: &Path) -> Result<Job, String> {
    let book = Book::parse(&read_text(&folder.join("book.txt"))?)?;
    if !book.is_sound() {
        return Err("the book has a code out of range or codes that clash".into());
    }
    let codebook = read_bytes(&folder.join("codebook.bin"))?;
    if codebook.len() != CODEBOOK_BYTES {
        return Err("codebook.bin has the wrong length".into());
    }
    tables::load(&book, &signed(&codebook));
    Job::read_files(folder)
}

/// Writes the house book and codebook as files.
pub fn house(folder: &Path) -> Result<(), String> {
    write_tables(folder, &Book::house(), &house_codebook())
}

fn write_tables(folder: &Path, book: &Book, codebook: &[i8]) -> Result<(), String> {
    fs::create_dir_all(folder).map_err(|error| error.to_string())?;
    write(&folder.join("book.txt"), book.file().as_bytes())?;
    write(&folder.join("codebook.bin"), &unsigned(codebook))
}

/// Writes random jobs, each in a folder of its own, named by its number.
pub fn gen_files(seed: u64, count: u64, folder: &Path) -> Result<(), String> {
    for index in 0..count {
        let mut random = Random::of(seed, index);
        let book = any_book(&mut random);
        let codebook = any_codebook(&mut random);
        let job = any_job(&mut random);
        let place = folder.join(index.to_string());
        write_tables(&place, &book, &codebook)?;
        job.write_files(&place)?;
    }
    Ok(())
}

/// Writes random jobs that share one book and one codebook as a batch.
pub fn gen_stream(seed: u64, count: u64) -> Result<(), String> {
    let mut random = Random::new(seed);
    let book = any_book(&mut random);
    let codebook = any_codebook(&mut random);
    let mut out = head(&book, &codebook);
    for index in 0..count {
        out.extend(any_job(&mut Random::of(seed, index)).to_bytes());
    }
    emit(&out)
}

/// Answers a batch.
pub fn batch() -> Result<(), String> {
    let mut bytes = Vec::new();
    stdin()
        .read_to_end(&mut bytes)
        .map_err(|error| error.to_string())?;
    let mut from = Source::new(bytes);
    load_head(&mut from)?;
    while let Some(job) = Job::read(&mut from) {
        emit(&answer(&job).to_bytes())?;
    }
    Ok(())
}

/// A batch's head: the book, then the codebook.
pub fn head(book: &Book, codebook: &[i8]) -> Vec<u8> {
    [book.to_bytes(), unsigned(codebook)].concat()
}

fn load_head(from: &mut Source) -> Result<(), String> {
    let book = from.take(BOOK_BYTES).ok_or("the batch has no book")?;
    let codebook = from
        .take(CODEBOOK_BYTES)
        .ok_or("the batch has no codebook")?;
    tables::load(&Book::from_bytes(&book), &signed(&codebook));
    Ok(())
}

pub fn emit(bytes: &[u8]) -> Result<(), String> {
    stdout().write_all(bytes).map_err(|error| error.to_string())
}

pub fn signed(bytes: &[u8]) -> Vec<i8> {
    bytes.iter().map(|&byte| byte as i8).collect()
}

pub fn unsigned(values: &[i8]) -> Vec<u8> {
    values.iter().map(|&value| value as u8).collect()
}
