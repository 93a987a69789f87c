//! Trials of the join, the reader, the writer, the heat map, the host calls and the program, against the paper by brute
//! force. Each subcommand prints how often each outcome was reached, and stops at the first difference with all that
//! is needed to see it again.

// Without its library a subcommand is left out, and what only it uses with it.
#![cfg_attr(not(all(feature = "probe", feature = "host")), allow(dead_code))]

mod cases;
mod choice;
mod crash;
mod damage;
mod doubling;
mod ffi;
mod heat;
mod join_ways;
mod lists;
mod paper;
mod progress;
mod random;
mod runs;
mod sheet;
mod spread;
mod tally;
mod ways;

use std::process::ExitCode;

use choice::Words;
use tally::Tally;

/// Runs all that is chosen; gives the last line.
fn run(words: &Words) -> Result<String, String> {
    let mut all = Tally::default();
    for kind in &words.kinds {
        all.merge(&kind.run(&words.choice)?);
    }
    Ok(format!("trials: {}, no difference; {}", tally::cases(all.cases()), all.words()))
}

fn main() -> ExitCode {
    // What is no text in UTF-8 names no kind and no number; a path that is none cannot be told again.
    let words =
        std::env::args_os().skip(1).map(|word| word.into_string().map_err(|word| format!("{word:?}: no UTF-8")));
    let words = match words.collect::<Result<_, _>>().and_then(Words::read) {
        Ok(words) => words,
        Err(what) => {
            eprintln!("trials: {what}\n\n{}", choice::USAGE);
            return ExitCode::from(2);
        }
    };
    match run(&words) {
        Ok(last) => {
            println!("{last}");
            ExitCode::SUCCESS
        }
        Err(what) => {
            println!("trials: FAILED\n{what}");
            ExitCode::FAILURE
        }
    }
}
