//! The original and the proved library on the same pictures, in one run.
//! README.md beside this folder says what each command prints.

// The harness around the original serves other commands too.
#![allow(dead_code)]

include!("modules.rs");

mod clock;
mod entries;
mod library;
mod pictures;
mod scenes;

use std::process::ExitCode;

const USAGE: &str = "usage:
  bench pictures [COUNTS]   both writers on each scene, in processor time; COUNTS
                            names a file of counted instructions
  bench one ours|original SCENE SIZE RADIUS
                            one luma plane and nothing else, for counting instructions
  bench scenes              the words for SCENE, SIZE and RADIUS, one case a line";

fn main() -> ExitCode {
    let arguments: Vec<String> = std::env::args().skip(1).collect();
    let words: Vec<&str> = arguments.iter().map(String::as_str).collect();
    tables::load(&book::Book::house(), &book::house_codebook());
    let done = match *words {
        ["pictures"] => pictures::table(None),
        ["pictures", counts] => pictures::table(Some(counts)),
        ["one", whose, scene, size, radius] => pictures::one(whose, scene, size, radius),
        ["scenes"] => scenes::list(),
        _ => Err(USAGE.into()),
    };
    match done {
        Ok(()) => ExitCode::SUCCESS,
        Err(message) => {
            eprintln!("bench: {message}");
            ExitCode::FAILURE
        }
    }
}
