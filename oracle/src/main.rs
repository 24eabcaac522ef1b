//! The oracle: runs the unchanged Rust original and writes what it answers.
//! README.md beside this folder says what each command does.

include!("modules.rs");

use std::path::Path;
use std::process::ExitCode;

const USAGE: &str = "usage:
  svq1_oracle run FOLDER          one job from files
  svq1_oracle house FOLDER        the house book and codebook as files
  svq1_oracle gen SEED N FOLDER   N random jobs as files
  svq1_oracle stream SEED N       N random jobs as a batch, to standard output
  svq1_oracle batch               a batch from standard input, answers to standard output
  svq1_oracle pictures SEED N     N random pictures inside allowances of bits, only checked
  svq1_oracle fixed               the fixed list, to standard output
  svq1_oracle cards               document 01's bench cards
  svq1_oracle differences         the inputs of docs/DIFFERENCES.md";

fn main() -> ExitCode {
    let arguments: Vec<String> = std::env::args().skip(1).collect();
    let words: Vec<&str> = arguments.iter().map(String::as_str).collect();
    match dispatch(&words) {
        Ok(()) => ExitCode::SUCCESS,
        Err(message) => {
            eprintln!("svq1_oracle: {message}");
            ExitCode::FAILURE
        }
    }
}

fn dispatch(words: &[&str]) -> Result<(), String> {
    match *words {
        ["run", folder] => stream::run(Path::new(folder)),
        ["house", folder] => stream::house(Path::new(folder)),
        ["gen", seed, count, folder] => {
            stream::gen_files(number(seed)?, number(count)?, Path::new(folder))
        }
        ["stream", seed, count] => stream::gen_stream(number(seed)?, number(count)?),
        ["batch"] => stream::batch(),
        ["pictures", seed, count] => picture::pictures(number(seed)?, number(count)?),
        ["fixed"] => fixed::fixed(),
        ["cards"] => cards::cards(),
        ["differences"] => differences::differences(),
        ["difference", name] => differences::difference(name),
        _ => Err(USAGE.into()),
    }
}

fn number(word: &str) -> Result<u64, String> {
    word.parse().map_err(|_| format!("not a number: {word}"))
}
