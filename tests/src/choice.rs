//! The words that `trials` is called with.

use std::thread::available_parallelism;

use crate::runs::{Choice, Kind, KINDS};

pub const USAGE: &str = "\
use: trials KIND [PATH] [n=N] [seed=S] [trial=T] [jobs=J] [path=PATH]

KIND     join | read | write | doubled | cell | host | program
         sheets: read and write; all: every kind, one after the other
PATH     the program to try, for program and all; path=PATH says the same, and any kind takes it
n=N      N random cases of each kind, behind the cases by name (without it: as many as the gate has)
seed=S   other random cases (without it: seed=1)
trial=T  one random case alone, the one that a run of this seed has under this number
jobs=J   how many processors are kept busy (without it: all)";

/// No run is longer than this, so that no count of trials overflows.
const MOST: u64 = 1_000_000_000_000_000;
const MOST_JOBS: u64 = 256;

/// What the words ask for.
pub struct Words {
    pub kinds: Vec<&'static Kind>,
    pub choice: Choice,
}

impl Words {
    pub fn read(words: Vec<String>) -> Result<Words, String> {
        let jobs = available_parallelism().map_or(1, |number| number.get() as u64);
        let mut choice = Choice { seed: 1, trial: None, n: None, jobs, path: None };
        let mut plain = Vec::new();
        for word in &words {
            match word.split_once('=') {
                // A path may hold a '='; one that is given alone begins otherwise.
                Some((key, value)) if KEYS.contains(&key) => set(&mut choice, key, value)?,
                _ => plain.push(word.as_str()),
            }
        }
        let (name, path) = match plain.as_slice() {
            [] => return Err("which kind of trials?".to_string()),
            [name] => (*name, None),
            [name, path] => (*name, Some(path.to_string())),
            [_, _, more, ..] => return Err(format!("{more}: one word too many")),
        };
        choice.path = path.or(choice.path);
        let kinds = named(name)?;
        check(name, &kinds, &choice)?;
        Ok(Words { kinds, choice })
    }
}

const KEYS: &[&str] = &["n", "seed", "trial", "jobs", "path"];

/// Takes in one KEY=VALUE. Nothing behind the '=' is as if the word were not there.
fn set(choice: &mut Choice, key: &str, value: &str) -> Result<(), String> {
    let number = |least: u64, most: u64| match value.parse::<u64>() {
        Ok(number) if (least..=most).contains(&number) && value.bytes().all(|b| b.is_ascii_digit()) => Ok(number),
        _ => {
            Err(format!("{key}={value}: write a whole number of {least} to {most}, in digits alone, as {key}={least}"))
        }
    };
    match key {
        _ if value.is_empty() => {}
        "n" => choice.n = Some(number(0, MOST)?),
        "seed" => choice.seed = number(0, u64::MAX)?,
        "trial" => choice.trial = Some(number(0, u64::MAX)?),
        "jobs" => choice.jobs = number(1, MOST_JOBS)?,
        _ => choice.path = Some(value.to_string()),
    }
    Ok(())
}

/// The kinds that go by this name.
fn named(name: &str) -> Result<Vec<&'static Kind>, String> {
    let wanted: &[&str] = match name {
        "all" => &["join", "read", "write", "doubled", "cell", "host", "program"],
        "sheets" => &["read", "write"],
        "join" | "read" | "write" | "doubled" | "cell" | "host" | "program" => &[name],
        _ => return Err(format!("{name}: there is no such kind")),
    };
    let found: Vec<&'static Kind> = KINDS.iter().copied().filter(|kind| wanted.contains(&kind.name)).collect();
    if found.len() == wanted.len() {
        Ok(found)
    } else {
        Err(format!("{name}: built without the library that this kind needs"))
    }
}

/// What is asked for must be able to run.
fn check(name: &str, kinds: &[&Kind], choice: &Choice) -> Result<(), String> {
    if choice.trial.is_some() && kinds.len() > 1 {
        let names: Vec<&str> = kinds.iter().map(|kind| kind.name).collect();
        return Err(format!("{name}: each kind has trials of its own; with trial= say one of {}", names.join(", ")));
    }
    if choice.path.is_none() && kinds.iter().any(|kind| kind.of_program) {
        return Err(format!("{name}: which program? Give its path, as in: trials {name} path=target/bin/sazamkhri"));
    }
    Ok(())
}
