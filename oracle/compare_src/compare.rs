//! Compares the proved functions with the Rust original, call by call.
//! README.md beside this folder says what each command does.

// The harness around the original serves other commands too.
#![allow(dead_code)]

include!("modules.rs");

mod compare_leaf;
mod compare_picture;
mod compare_plan;
mod compare_plane;
mod compare_search;
mod compare_sum;
mod entries;
mod leaf_input;
mod none;
mod ours;
mod ours_picture;
mod ours_plane;
mod picture_refusals;
mod picture_wanted;
mod plan_input;
mod plane_refusals;
mod plane_wanted;
mod refusals;
mod search_input;
mod seed_tables;
mod sum_input;
mod tally;

use std::process::ExitCode;

const USAGE: &str = "usage:
  compare leaf SEED N      N random leaf searches under the seed's book and codebook
  compare plan SEED N      N random plans of blocks, likewise
  compare search SEED N    N random motion searches
  compare sum SEED N       N random vectors summed against a best found so far
  compare plane SEED N     N random planes under the seed's book and codebook
  compare plane SEED N LARGEST
                           the same, no side longer than LARGEST
  compare picture SEED N   N random pictures inside allowances of bits, likewise
  compare picture SEED N LARGEST
                           the same, no side longer than LARGEST instead of 40
  compare none             where the original's motion search has no answer
  compare refusals         calls that have to be refused";

fn main() -> ExitCode {
    let arguments: Vec<String> = std::env::args().skip(1).collect();
    let words: Vec<&str> = arguments.iter().map(String::as_str).collect();
    match dispatch(&words) {
        Ok(tally) => {
            print!("{tally}");
            ExitCode::SUCCESS
        }
        Err(message) => {
            eprintln!("compare: {message}");
            ExitCode::FAILURE
        }
    }
}

fn dispatch(words: &[&str]) -> Result<tally::Tally, String> {
    match *words {
        ["leaf", seed, count] => compare_leaf::compare(number(seed)?, number(count)?),
        ["plan", seed, count] => compare_plan::compare(number(seed)?, number(count)?),
        ["search", seed, count] => compare_search::compare(number(seed)?, number(count)?),
        ["sum", seed, count] => compare_sum::compare(number(seed)?, number(count)?),
        ["plane", seed, count] => compare_plane::compare(number(seed)?, number(count)?, None),
        ["plane", seed, count, side] => {
            compare_plane::compare(number(seed)?, number(count)?, Some(number(side)?))
        }
        ["picture", seed, count] => {
            compare_picture::compare(number(seed)?, number(count)?, picture::LARGEST)
        }
        ["picture", seed, count, side] => {
            compare_picture::compare(number(seed)?, number(count)?, number(side)?)
        }
        ["none"] => none::none(),
        ["refusals"] => refusals::refusals(),
        _ => Err(USAGE.into()),
    }
}

fn number(word: &str) -> Result<u64, String> {
    word.parse().map_err(|_| format!("not a number: {word}"))
}
