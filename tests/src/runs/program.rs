//! `trials program PATH`: the program at PATH, run on sheets through its standard input, against the listing by
//! brute force and against the host's text. It must print that and nothing else, and end with exit status 0.

use std::io::{self, ErrorKind, Read, Write};
use std::os::unix::process::ExitStatusExt;
use std::process::{Child, ChildStdin, Command, ExitStatus, Stdio};
use std::sync::mpsc::{sync_channel, Receiver};
use std::thread;
use std::time::{Duration, Instant};

use super::{host, Choice, Kind};
use crate::cases;
use crate::damage::{large_sheet, shown};
use crate::random::{large_kind, seed_of, Random};
use crate::sheet;
use crate::tally::Outcome;

pub const KIND: Kind = Kind {
    name: "program",
    gate: 408,
    owed: &[0, 1, 4, 5, 8, 9, 10, 11],
    ways: &[],
    // Most of the time is spent in pauses.
    threads: 8,
    of_program: true,
    named: cases_by_name,
    trial,
};
/// One trial in so many is of a large sheet.
const EVERY: u64 = 51;
/// A program that takes longer than this over a sheet is taken to hang.
const PATIENCE: Duration = Duration::from_secs(60);
/// The pause behind a chunk, and between two looks whether the program has ended.
const PAUSE: Duration = Duration::from_micros(500);
const LOOK: Duration = Duration::from_micros(100);

/// What a run of the program leaves behind.
struct Ended {
    printed: Vec<u8>,
    complaint: Vec<u8>,
    status: ExitStatus,
}

/// Runs the program on a sheet that is fed in chunks of these lengths, and what is left at once.
fn run_program(path: &str, text: &[u8], chunks: &[usize]) -> Result<Ended, String> {
    let mut child = Command::new(path)
        .stdin(Stdio::piped())
        .stdout(Stdio::piped())
        .stderr(Stdio::piped())
        .spawn()
        .map_err(|error| format!("{path} does not start: {error}"))?;
    let start = Instant::now();
    let input = child.stdin.take().expect("a pipe was asked for");
    let (text, chunks) = (text.to_vec(), chunks.to_vec());
    let fed = aside(move || feed(input, &text, &chunks));
    let printed = aside(drain(child.stdout.take().expect("a pipe was asked for")));
    let complaint = aside(drain(child.stderr.take().expect("a pipe was asked for")));
    let ended = (|| {
        let printed = within(start, &printed)?.map_err(|error| format!("reading from the program: {error}"))?;
        let complaint = within(start, &complaint)?.map_err(|error| format!("reading its standard error: {error}"))?;
        within(start, &fed)?.map_err(|error| format!("feeding the program: {error}"))?;
        Ok(Ended { printed, complaint, status: status(start, &mut child)? })
    })();
    if ended.is_err() {
        // It may have ended by itself in the meantime.
        let _ = child.kill();
        let _ = child.wait();
    }
    ended
}

/// Does something in a thread of its own; its result comes when it is done.
fn aside<T: Send + 'static>(work: impl FnOnce() -> T + Send + 'static) -> Receiver<T> {
    let (tell, told) = sync_channel(1);
    // Nobody listens any more if the program was given up.
    thread::spawn(move || tell.send(work()).ok());
    told
}

/// Feeds the sheet, with a short pause behind each chunk, so that the program's reads come up short.
fn feed(mut input: ChildStdin, text: &[u8], chunks: &[usize]) -> io::Result<()> {
    let mut rest = text;
    for &length in chunks.iter().chain([&usize::MAX]) {
        let (now, later) = rest.split_at(length.min(rest.len()));
        match input.write_all(now).and_then(|()| input.flush()) {
            // A program that has seen enough need not read the rest.
            Err(error) if error.kind() == ErrorKind::BrokenPipe => return Ok(()),
            done => done?,
        }
        rest = later;
        if rest.is_empty() {
            return Ok(());
        }
        thread::sleep(PAUSE);
    }
    Ok(())
}

/// All that comes out of a pipe.
fn drain(mut pipe: impl Read + Send + 'static) -> impl FnOnce() -> io::Result<Vec<u8>> + Send + 'static {
    move || {
        let mut bytes = Vec::new();
        pipe.read_to_end(&mut bytes).map(|_| bytes)
    }
}

fn hangs() -> String {
    format!("the program has not ended within {} s; it was given up", PATIENCE.as_secs())
}

/// What comes, if it comes in time.
fn within<T>(start: Instant, told: &Receiver<T>) -> Result<T, String> {
    told.recv_timeout(PATIENCE.saturating_sub(start.elapsed())).map_err(|_| hangs())
}

/// How the program has ended, if it ends in time.
fn status(start: Instant, child: &mut Child) -> Result<ExitStatus, String> {
    while start.elapsed() < PATIENCE {
        match child.try_wait().map_err(|error| format!("waiting for the program: {error}"))? {
            Some(status) => return Ok(status),
            None => thread::sleep(LOOK),
        }
    }
    Err(hangs())
}

/// All that is wrong with a run that should have printed this.
fn faults(expected: &[u8], ended: &Ended) -> Vec<String> {
    [misprint(expected, &ended.printed), complaint(&ended.complaint), bad_end(ended.status)]
        .into_iter()
        .flatten()
        .collect()
}

fn misprint(expected: &[u8], printed: &[u8]) -> Option<String> {
    let what = match (expected.len(), printed.len()) {
        _ if printed == expected => return None,
        (_, 0) => "nothing".to_string(),
        (right, all) if printed.starts_with(expected) => format!("the right text and {} more behind it", all - right),
        (right, all) if expected.starts_with(printed) => format!("only {all} of {right} bytes"),
        _ => "another text".to_string(),
    };
    Some(format!("the program printed {what}\nexpected {}\ngot {}", shown(expected), shown(printed)))
}

fn complaint(complaint: &[u8]) -> Option<String> {
    (!complaint.is_empty()).then(|| format!("the program wrote to standard error: {}", shown(complaint)))
}

fn bad_end(status: ExitStatus) -> Option<String> {
    match (status.code(), status.signal()) {
        (Some(0), _) => None,
        (Some(code), _) => Some(format!("the program ended with exit status {code}, and not with 0")),
        (None, Some(signal)) => Some(format!("the program was ended by signal {signal}, and not by itself")),
        (None, None) => Some(format!("the program ended strangely: {status}")),
    }
}

/// One sheet: the program against the paper, and against the host call.
fn compare(path: &str, random: &mut Random, text: &[u8], chunks: &[usize]) -> Result<u64, String> {
    let told = |what: String| format!("{what}\nsheet {}\nfed in chunks of {chunks:?}", shown(text));
    let listing = sheet::listing(text);
    let expected = sheet::printed(&listing);
    let ended = run_program(path, text, chunks).map_err(told)?;
    let faults = faults(expected.as_bytes(), &ended);
    if !faults.is_empty() {
        return Err(told(faults.join("\n")));
    }
    let printed = ended.printed;
    // The host's buffer is as long as what is printed, so that a listing just fits.
    let (value, buffer) = host::call(random, text, &listing, printed.len())?;
    match host::outcome(value) {
        0 if buffer != printed => Err(told("program and host differ".to_string())),
        0 => Ok(0),
        number if printed.starts_with(format!("refused={number} ").as_bytes()) => Ok(number),
        number => Err(told(format!("the host refuses with {number}, the program prints {}", shown(&printed)))),
    }
}

/// Lengths of chunks, not too many, or none: the sheet at once. Each sheet of a round of 20 gets all of them in turn.
fn some_chunks(random: &mut Random, number: u64) -> Vec<usize> {
    match (number + number / 20) % 4 {
        0 => vec![1; random.between(1, 40)],
        1 => (0..random.between(1, 20)).map(|_| random.between(1, 30)).collect(),
        2 => (0..random.between(1, 12)).map(|_| *random.pick(&[1, 7, 512, 1024, 4096])).collect(),
        _ => Vec::new(),
    }
}

fn path_of(choice: &Choice) -> &str {
    choice.path.as_deref().expect("the words are refused if there is no path")
}

fn trial(choice: &Choice, number: u64) -> Result<Outcome, String> {
    let mut random = Random::new(seed_of(choice.seed, number));
    let text = match large_kind(number, EVERY) {
        Some(kind) => large_sheet(&mut random, kind),
        None => host::host_sheet(&mut random, number),
    };
    let chunks = some_chunks(&mut random, number);
    compare(path_of(choice), &mut random, &text, &chunks).map(|number| Some(number).into())
}

/// The listings by name, fed at once, byte by byte, and in halves.
fn named(path: &str) -> Result<u64, String> {
    let mut random = Random::new(0);
    let cases = cases::listings();
    for case in &cases {
        case.stated()?;
        for chunks in [vec![], vec![1; 50], vec![case.sheet.len() / 2], vec![24_575, 1, 1]] {
            compare(path, &mut random, &case.sheet, &chunks).map_err(|what| format!("case '{}'\n{what}", case.name))?;
        }
    }
    Ok(cases.len() as u64)
}

/// Sheets that are far too long.
fn long_sheets(path: &str) -> Result<(), String> {
    let mut random = Random::new(0);
    for length in [65_536, 65_537, 1_000_000] {
        compare(path, &mut random, &vec![b'7'; length], &[4096, 20_480, 1])
            .map_err(|what| format!("{length} bytes\n{what}"))?;
    }
    Ok(())
}

fn cases_by_name(choice: &Choice) -> Result<(), String> {
    let path = path_of(choice);
    println!("program: {} listings by name agree", named(path)?);
    long_sheets(path)
}
