//! `trials join`: the join against the paper by brute force, every word of every buffer.

use super::{Choice, Kind};
use crate::cases;
use crate::damage::{all_sites, all_tables, break_tables, Tables};
use crate::ffi::{self, JoinBuffers, Lent};
use crate::join_ways::{ways, WAYS};
use crate::paper::{self, Joined, Rooms, Survey, ENTRY_WORDS};
use crate::random::{large_kind, seed_of, slices, some_site, tables, Random};
use crate::tally::{Outcome, Tally};

pub const KIND: Kind = Kind {
    name: "join",
    gate: 30_120,
    owed: &[0, 1, 2, 3, 4, 5, 6, 7, 8],
    ways: WAYS,
    threads: 1,
    of_program: false,
    named: cases_by_name,
    trial,
};
/// One trial in so many is of a large site.
const EVERY: u64 = 251;

/// One call of the join: its tables, the lengths of its buffers, and of its answer.
#[derive(Clone, Debug)]
pub struct Trial {
    pub tables: Tables,
    pub rooms: Rooms,
    pub answer: usize,
}

impl Trial {
    /// Calls the join and compares all with the paper; gives the outcome.
    fn run(&self, random: &mut Random) -> Result<Outcome, String> {
        let Tables { k, offsets, codes } = &self.tables;
        let expected = paper::join(*k, offsets, codes, self.rooms);
        self.call(random, &expected)?;
        if self.answer < 4 {
            return Ok(None.into());
        }
        Ok(Outcome { end: Some(expected.answer[0]), ways: ways(&self.tables, self.rooms, &expected) })
    }

    /// Calls the join with junk in each buffer and compares all with what is expected; gives the buffers.
    pub fn call(&self, random: &mut Random, expected: &Joined) -> Result<JoinBuffers, String> {
        self.compare(random, expected).map_err(|what| {
            let Tables { k, offsets, codes } = &self.tables;
            format!(
                "{what}\nk {k}\noffsets {offsets:?}\ncodes {codes:?}\n{:?}, answer of {} words",
                self.rooms, self.answer
            )
        })
    }

    fn compare(&self, random: &mut Random, expected: &Joined) -> Result<JoinBuffers, String> {
        let Tables { k, offsets, codes } = &self.tables;
        let list = random.junk_words(self.rooms.list);
        let work = random.junk_words(self.rooms.work);
        let trail = random.junk_words(self.rooms.trail);
        let answer: Vec<u64> = (0..self.answer).map(|_| random.next()).collect();
        let guard = random.next();
        let mut lent_offsets = Lent::new(offsets, guard as u16);
        let mut lent_codes = Lent::new(codes, guard as u16);
        let mut buffers = JoinBuffers {
            list: Lent::new(&list, guard as u16),
            work: Lent::new(&work, guard as u16),
            trail: Lent::new(&trail, guard as u16),
            answer: Lent::new(&answer, guard),
        };
        ffi::join(*k, &mut lent_offsets, &mut lent_codes, &mut buffers);

        lent_offsets.check("offsets", offsets)?;
        lent_codes.check("codes", codes)?;
        if self.answer < 4 {
            // Nothing is done.
            buffers.answer.check("answer", &answer)?;
            buffers.list.check("list", &list)?;
            buffers.work.check("work", &work)?;
            buffers.trail.check("trail", &trail)?;
            return Ok(buffers);
        }
        buffers.answer.check("answer", &[&expected.answer[..], &answer[4..]].concat())?;
        buffers.list.check("list", &expected.list.words(&list))?;
        buffers.work.check("work", &expected.work.words(&work))?;
        buffers.trail.check("trail", &expected.trail.words(&trail))?;
        Ok(buffers)
    }
}

/// A k of 1 to 64, often about the number of pairs that share a code.
pub fn some_k(random: &mut Random, sharing: usize) -> u16 {
    let k = match random.below(10) {
        0 | 1 => 1,
        2 => 2,
        3 => random.between(1, 8),
        4 => random.between(1, 64),
        5 => 64,
        6 => sharing.saturating_sub(1),
        7 => sharing,
        8 => sharing + 1,
        _ => random.between(1, sharing.max(1)),
    };
    k.clamp(1, 64) as u16
}

/// Rooms that are enough: exact, or longer, odd lengths too.
pub fn ample_rooms(random: &mut Random, k: u16, met: usize) -> Rooms {
    let exact = ENTRY_WORDS * usize::from(k);
    Rooms {
        list: match random.below(4) {
            0 | 1 => exact,
            2 => exact + random.between(1, 9),
            _ => exact + random.below(300),
        },
        work: match random.below(8) {
            0 => 10_241,
            1 => 10_240 + random.below(3_000),
            _ => 10_240,
        },
        trail: match random.below(5) {
            0 | 1 => 2 * met,
            2 => 2 * met + 1,
            3 => 2 * met + random.below(12),
            _ => 2 * met + random.below(600),
        },
    }
}

/// One of the rooms, or all three, made too short.
fn shorten(random: &mut Random, rooms: &mut Rooms, k: u16, met: usize) {
    let exact = ENTRY_WORDS * usize::from(k);
    let which = random.below(10);
    if which < 3 {
        rooms.list = match random.below(4) {
            0 => 0,
            1 => exact.saturating_sub(1),
            // Entries without their fifth word.
            2 => exact - usize::from(k),
            _ => random.below(exact.max(1)),
        };
    }
    if (3..6).contains(&which) || which == 0 {
        rooms.work = match random.below(4) {
            0 => 0,
            1 | 2 => 10_239,
            _ => random.below(10_240),
        };
    }
    if which >= 6 || which == 0 || which == 3 {
        let short = 2 * met;
        rooms.trail = match random.below(6) {
            0 => 0,
            1 => 1,
            2 | 3 => short.saturating_sub(1),
            4 => short.saturating_sub(2),
            _ => random.below(short.max(1)),
        };
    }
}

/// The trial of this number.
fn make(random: &mut Random, number: u64) -> Trial {
    let large = large_kind(number, EVERY);
    let contexts = some_site(random, large);
    let slices = slices(&contexts);
    let survey = Survey::new(&slices);
    let k = if large.is_some() { *random.pick(&[64, 64, 1, 10]) } else { some_k(random, survey.sharing()) };
    let met = survey.find(usize::from(k)).trail.len();
    let (offsets, codes) = tables(&contexts);
    let mut trial =
        Trial { tables: Tables { k, offsets, codes }, rooms: ample_rooms(random, k, met), answer: answer_room(random) };
    if large.is_none() {
        spoil(random, &mut trial, met);
    } else if random.once_in(6) {
        shorten(random, &mut trial.rooms, k, met);
    }
    trial
}

fn answer_room(random: &mut Random) -> usize {
    match random.below(24) {
        0 => random.below(4),
        1 | 2 => random.between(5, 9),
        _ => 4,
    }
}

/// Every other trial is broken, up to three times.
fn spoil(random: &mut Random, trial: &mut Trial, met: usize) {
    let k = trial.tables.k;
    let times = if random.once_in(2) { 0 } else { random.between(1, 3) };
    for _ in 0..times {
        if random.once_in(3) {
            shorten(random, &mut trial.rooms, k, met);
        } else {
            break_tables(random, &mut trial.tables);
        }
    }
}

/// Makes and runs one trial.
fn trial(choice: &Choice, number: u64) -> Result<Outcome, String> {
    let mut random = Random::new(seed_of(choice.seed, number));
    make(&mut random, number).run(&mut random)
}

/// All cases by name, each with answers of 0 to 5 words.
fn named() -> Result<u64, String> {
    let mut random = Random::new(0);
    let cases = cases::joins();
    for case in &cases {
        case.stated()?;
        let tables = Tables { k: case.k, offsets: case.offsets.clone(), codes: case.codes.clone() };
        for answer in [4, 5, 0, 1, 2, 3] {
            let trial = Trial { tables: tables.clone(), rooms: case.rooms, answer };
            trial.run(&mut random).map_err(|what| format!("join, case '{}'\n{what}", case.name))?;
        }
    }
    Ok(cases.len() as u64)
}

/// Every site of up to four contexts over three codes.
fn every_site() -> Result<Tally, String> {
    let mut random = Random::new(0);
    let mut tally = Tally::default();
    for contexts in all_sites() {
        every_k(&mut random, &contexts, &mut tally)?;
    }
    Ok(tally)
}

/// The site with each k up to one more than the pairs it can have: once in buffers that just fit, and once with a trail
/// that is a word short.
fn every_k(random: &mut Random, contexts: &[Vec<u16>], tally: &mut Tally) -> Result<(), String> {
    let (offsets, codes) = tables(contexts);
    let slices = slices(contexts);
    let survey = Survey::new(&slices);
    for k in 1..=(contexts.len() * contexts.len().saturating_sub(1) / 2 + 1) {
        let findings = survey.find(k);
        let room = 2 * findings.trail.len();
        for trail in [Some(room), room.checked_sub(1)].into_iter().flatten() {
            let tables = Tables { k: k as u16, offsets: offsets.clone(), codes: codes.clone() };
            let trial = Trial { tables, rooms: Rooms { list: ENTRY_WORDS * k, work: 10_240, trail }, answer: 4 };
            let expected = paper::searched(&findings, trail);
            trial.call(random, &expected)?;
            tally.add(Some(expected.answer[0]));
        }
    }
    Ok(())
}

/// All small tables, most of them broken.
fn every_table() -> Result<Tally, String> {
    let mut random = Random::new(0);
    let mut tally = Tally::default();
    for (offsets, codes) in all_tables() {
        let trial = Trial {
            tables: Tables { k: 1, offsets, codes },
            rooms: Rooms { list: ENTRY_WORDS, work: 10_240, trail: 8 },
            answer: 4,
        };
        tally.add(trial.run(&mut random)?);
    }
    Ok(tally)
}

/// The cases by name, and those that are counted out.
fn cases_by_name(_: &Choice) -> Result<(), String> {
    println!("join: {} cases by name agree", named()?);
    every_site()?.report("join, every site of four contexts over three codes", &[0, 8])?;
    every_table()?.report("join, every small table", &[0, 2, 3, 4, 5])
}
