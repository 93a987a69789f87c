//! `trials host`: the host call against the listing by brute force, every byte of the buffer.

use super::{Choice, Kind};
use crate::cases;
use crate::damage::{accepted_sheet, damage, large_sheet, number_above_limit, shown, some_sheet};
use crate::ffi::{self, Lent};
use crate::random::{large_kind, seed_of, Random};
use crate::sheet::{self, Listing};
use crate::tally::Outcome;

pub const KIND: Kind = Kind {
    name: "host",
    gate: 24_032,
    // Every outcome that a sheet can have. 2, 3, 6 and 7 cannot be caused by one.
    owed: &[0, 1, 4, 5, 8, 9, 10, 11, 12],
    ways: &[],
    threads: 1,
    of_program: false,
    named: cases_by_name,
    trial,
};
/// One trial in so many is of a large sheet.
const EVERY: u64 = 751;

/// The number of the refusal that a value stands for; 0 for a text.
pub fn outcome(value: u64) -> u64 {
    value.saturating_sub(1_000_000)
}

/// Calls the host with junk in the buffer and compares value and bytes with those of the listing by brute force; gives
/// the value and the buffer.
pub fn call(random: &mut Random, text: &[u8], listing: &Listing, room: usize) -> Result<(u64, Vec<u8>), String> {
    let (value, expected) = sheet::host(listing, room);
    let guard = random.next() as u8;
    let mut lent_sheet = Lent::new(text, guard);
    let mut lent_text = Lent::new(&random.junk_bytes(room), guard);
    let got = ffi::listing(&mut lent_sheet, &mut lent_text);
    let compare = || -> Result<(), String> {
        lent_sheet.check("sheet", text)?;
        if got != value {
            return Err(format!("expected the value {value}, got {got}"));
        }
        lent_text.check("text", &expected)
    };
    compare().map_err(|what| {
        format!(
            "host: {what}\nexpected {}\ngot {}\nsheet {}\nbuffer of {room} bytes",
            shown(&expected),
            shown(lent_text.words()),
            shown(text)
        )
    })?;
    Ok((value, lent_text.words().to_vec()))
}

/// A room about the length of the listing.
fn some_room(random: &mut Random, listing: &Listing) -> usize {
    let exact = listing.as_ref().map_or(40, String::len);
    match random.below(12) {
        0 => 0,
        1..=3 => exact,
        4 | 5 => exact - 1,
        6 => exact + 1,
        7 => random.below(exact),
        8 => 1,
        9 => exact + random.below(3_000),
        _ => exact + random.below(40),
    }
}

/// A sheet for the host call and the program: sound, damaged, or with a join that is refused. The ways to make one go
/// round by the trial's number, so that also a short run meets every refusal.
pub fn host_sheet(random: &mut Random, number: u64) -> Vec<u8> {
    let round = number / 20;
    match number % 20 {
        0..=7 => accepted_sheet(random),
        8 => number_above_limit(random),
        9..=12 => some_sheet(random),
        13 | 14 => {
            let mut text = accepted_sheet(random);
            damage(random, &mut text);
            text
        }
        15 => [random.pick(&["k=0\n", "k=65\n", "k=100\n", "k=65535\n"]).as_bytes(), b"contexts=1\nc=1 2\n"].concat(),
        16 => code_about_limit(random, round % 2 == 0),
        17 => code_not_above(random, round % 2 == 0),
        18 if round % 4 == 0 => pairs_about_limit(random, round % 8 == 0),
        19 if round % 10 == 0 => length_about_limit(random, round % 20 == 0),
        _ => accepted_sheet(random),
    }
}

/// A code of about 4095, or surely above.
fn code_about_limit(random: &mut Random, surely: bool) -> Vec<u8> {
    let code = random.between(if surely { 4096 } else { 4090 }, 4100);
    format!("k=1\ncontexts=2\nc=1 2\nc={} {code}\n", random.between(3, 9)).into_bytes()
}

/// A code that may well not be above the one before it, or surely is not.
fn code_not_above(random: &mut Random, surely: bool) -> Vec<u8> {
    format!("k=2\ncontexts=2\nc=1 2 {}\nc=0\n", random.between(0, if surely { 2 } else { 4 })).into_bytes()
}

/// About 2048 pairs met, or surely more. (64 contexts of one code make 2016 pairs, 65 make 2080.)
fn pairs_about_limit(random: &mut Random, surely: bool) -> Vec<u8> {
    let first = match random.below(3) {
        _ if surely => random.between(65, 70),
        0 => random.between(60, 70),
        _ => 64,
    };
    let sizes = [first, random.between(7, 8), random.between(1, 4), random.between(1, 4), random.between(1, 2)];
    cases::groups(random.between(1, 64) as u16, &sizes)
}

/// About as long as the program and the host call take, or surely longer.
fn length_about_limit(random: &mut Random, surely: bool) -> Vec<u8> {
    let mut text = cases::sheet_of_length(random.between(if surely { 24_577 } else { 24_574 }, 24_580));
    if !surely && random.once_in(2) {
        damage(random, &mut text);
    }
    text
}

fn trial(choice: &Choice, number: u64) -> Result<Outcome, String> {
    let mut random = Random::new(seed_of(choice.seed, number));
    let text = match large_kind(number, EVERY) {
        Some(kind) => large_sheet(&mut random, kind),
        None => host_sheet(&mut random, number),
    };
    let listing = sheet::listing(&text);
    let room = some_room(&mut random, &listing);
    let (value, _) = call(&mut random, &text, &listing, room)?;
    Ok(Some(outcome(value)).into())
}

/// The listings by name, in buffers that just fit, that are a byte short, that are long, and in none.
fn named() -> Result<u64, String> {
    let mut random = Random::new(0);
    let cases = cases::listings();
    for case in &cases {
        case.stated()?;
        let exact = case.printed.len();
        let listing = sheet::listing(&case.sheet);
        for room in [exact, exact - 1, exact + 1, 5_000, 0] {
            call(&mut random, &case.sheet, &listing, room).map_err(|what| format!("case '{}'\n{what}", case.name))?;
        }
    }
    Ok(cases.len() as u64)
}

fn cases_by_name(_: &Choice) -> Result<(), String> {
    println!("host: {} listings by name agree", named()?);
    Ok(())
}
