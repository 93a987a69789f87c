//! `trials cell`: both calls for a cell of the heat map against the map by brute force, every bit of the value and
//! every word of every buffer. Lists are invented ones, damaged or not, and those that the join leaves behind.

use std::collections::BTreeMap;

use super::join::{ample_rooms, some_k, Trial};
use super::{Choice, Kind};
use crate::cases;
use crate::damage::{all_sites, Tables};
use crate::ffi::{self, Lent};
use crate::heat::{self, similarity, Asked, Bits, Cell, Told};
use crate::lists::{all_questions, cells_below, some_question, Question};
use crate::paper::{self, Findings, Survey, ENTRY_WORDS};
use crate::random::{large_kind, seed_of, slices, some_site, tables, Contexts, Random};
use crate::tally::{Outcome, Tally};
use crate::ways::{ways, LARGE_MAP, MAP, NO_ANSWER, NO_VALUE, WAYS};

pub const KIND: Kind = Kind {
    name: "cell",
    gate: 120_120,
    owed: &[0, 13, 17],
    ways: WAYS,
    threads: 1,
    of_program: false,
    named: cases_by_name,
    trial,
};
/// One trial in so many asks for every cell of a large site, and one in so many for every cell of a small one.
const EVERY: u64 = 5_005;
const EVERY_SMALL: u64 = 16;

/// The lengths of `value` and `answer` that are lent.
#[derive(Clone, Copy, Debug)]
struct Rooms {
    value: usize,
    answer: usize,
}

const EXACT: Rooms = Rooms { value: 1, answer: 4 };

impl Rooms {
    /// Whether anything is done at all.
    fn enough(self) -> bool {
        self.value >= 1 && self.answer >= 4
    }
}

/// A list buffer that is lent to one call after the other.
struct List<'a> {
    words: &'a [u16],
    lent: Lent<u16>,
}

impl<'a> List<'a> {
    fn new(random: &mut Random, words: &'a [u16]) -> List<'a> {
        List { words, lent: Lent::new(words, random.next() as u16) }
    }

    /// The words as they are printed with a difference; of a very long list only the first ones.
    fn shown(&self) -> String {
        let shown = &self.words[..self.words.len().min(1_300)];
        let more = if shown.len() < self.words.len() { ", and so on" } else { "" };
        format!("list of {} words: {shown:?}{more}", self.words.len())
    }
}

/// Junk for `value`, some of it no number, and some what an answer could leave there.
fn junk_values(random: &mut Random, len: usize) -> Vec<Bits> {
    let special = [f64::NAN, -f64::NAN, f64::INFINITY, -0.0, 0.0, 1.0, 0.5].map(f64::to_bits);
    let signalling = 0x7ff0_0000_0000_0001;
    let word = |random: &mut Random| match random.below(10) {
        0..=2 => *random.pick(&special),
        3 => signalling,
        4 => u64::MAX,
        _ => random.next(),
    };
    (0..len).map(|_| Bits(word(random))).collect()
}

/// Asks both calls for a cell, and compares all that they leave with what is to be told.
fn ask(random: &mut Random, asked: Asked, list: &mut List, rooms: Rooms, told: Told) -> Result<(), String> {
    ask_probe(random, asked, list, rooms, told)
        .and_then(|()| ask_host(random, asked, list, told))
        .map_err(|what| format!("{what}\nto be told {told:?}\n{asked:?}\n{}\n{rooms:?}", list.shown()))
}

/// The call for tests, with junk in both buffers.
fn ask_probe(random: &mut Random, asked: Asked, list: &mut List, rooms: Rooms, told: Told) -> Result<(), String> {
    let mut value = junk_values(random, rooms.value);
    let mut answer: Vec<u64> = (0..rooms.answer).map(|_| random.next()).collect();
    let guard = random.next();
    let mut lent_value = Lent::new(&value, Bits(guard));
    let mut lent_answer = Lent::new(&answer, guard);
    let got = ffi::cell(asked, &mut list.lent, &mut lent_value, &mut lent_answer);

    if rooms.enough() {
        value[0] = heat::value(told);
        answer[..4].copy_from_slice(&heat::answer(told));
    }
    list.lent.check("cell: list", list.words)?;
    lent_answer.check("cell: answer", &answer)?;
    lent_value.check("cell: value", &value)?;
    if got == 0 {
        Ok(())
    } else {
        Err(format!("cell: it always returns 0, and now {got}"))
    }
}

/// The host call, with junk in its value.
fn ask_host(random: &mut Random, asked: Asked, list: &mut List, told: Told) -> Result<(), String> {
    let value = junk_values(random, 1);
    let mut lent_value = Lent::new(&value, Bits(random.next()));
    let got = ffi::host_cell(asked, &mut list.lent, &mut lent_value);
    list.lent.check("host cell: list", list.words)?;
    if got != heat::host(told) {
        return Err(format!("host cell: expected {}, got {got}", heat::host(told)));
    }
    lent_value.check("host cell: value", &[heat::value(told)])
}

/// One cell of a list that is lent for it alone.
fn ask_once(random: &mut Random, question: &Question, rooms: Rooms, told: Told) -> Result<(), String> {
    let mut list = List::new(random, &question.list);
    ask(random, question.asked, &mut list, rooms, told)
}

fn some_rooms(random: &mut Random) -> Rooms {
    let value = match random.below(16) {
        0 => 0,
        1 => random.between(2, 5),
        _ => 1,
    };
    let answer = match random.below(16) {
        0 => random.below(4),
        1 => random.between(5, 9),
        _ => 4,
    };
    Rooms { value, answer }
}

/// The number of a refusal, or 0.
fn number(told: Told) -> u64 {
    told.map_or_else(|refusal| refusal.number, |_| 0)
}

/// One cell of an invented list.
fn one_cell(random: &mut Random) -> Result<Outcome, String> {
    let question = some_question(random);
    let rooms = some_rooms(random);
    let told = heat::cell(question.asked, &question.list);
    ask_once(random, &question, rooms, told)?;
    Ok(match (rooms.value, rooms.answer) {
        (0, 0..=3) => None.into(),
        (0, _) => Outcome { end: None, ways: vec![NO_VALUE] },
        (_, 0..=3) => Outcome { end: None, ways: vec![NO_ANSWER] },
        _ => Outcome { end: Some(number(told)), ways: ways(question.asked, &question.list) },
    })
}

/// The cells of a site that hold a value, in both orders, from the pairs that the paper lists and not from the words
/// of a list.
fn valued(findings: &Findings) -> BTreeMap<(u16, u16), Bits> {
    let number = |context: usize| context as u16;
    let both = findings.list.iter().flat_map(|pair| {
        let value = similarity(pair.shared as u16, pair.union as u16);
        let (lower, higher) = (number(pair.lower), number(pair.higher));
        [((lower, higher), value), ((higher, lower), value)]
    });
    both.collect()
}

/// The map of a site: from the list that the join leaves, no cell of two of its contexts is refused, a cell holds a
/// value exactly if its pair is listed, and both orders give the same.
fn whole_map(random: &mut Random, contexts: &[Vec<u16>], survey: &Survey, k: u16) -> Result<(), String> {
    let findings = survey.find(usize::from(k));
    let rooms = ample_rooms(random, k, findings.trail.len());
    let (offsets, codes) = tables(contexts);
    let join = Trial { tables: Tables { k, offsets, codes }, rooms, answer: 4 };
    let joined = join.call(random, &paper::searched(&findings, rooms.trail))?;
    let (words, found) = (joined.list.words(), joined.answer.words()[1] as usize);
    let valued = valued(&findings);
    let mut list = List::new(random, words);
    let number = contexts.len() as u16;
    for (first, second) in cells_below(number) {
        let told = Ok(valued.get(&(first, second)).map_or(Cell::Blank, |&bits| Cell::Value(bits)));
        let asked = Asked { contexts: number, entries: found, first, second };
        if heat::cell(asked, words) != told {
            return Err(format!("the site tells {told:?}, its list {:?}\n{asked:?}", heat::cell(asked, words)));
        }
        ask(random, asked, &mut list, EXACT, told)?;
    }
    other_counts(random, number, found, &mut list)?;
    other_codes(random, number, &valued, words)
}

/// Some cells of the same buffer with other counts: behind the entries found there are zeros, which are no entries.
fn other_counts(random: &mut Random, contexts: u16, found: usize, list: &mut List) -> Result<(), String> {
    let held = list.words.len() / ENTRY_WORDS;
    for entries in [random.below(found + 1), found + 1, held, held + 1] {
        let [first, second] = [(); 2].map(|()| random.below(usize::from(contexts) + 1) as u16);
        let asked = Asked { contexts, entries, first, second };
        ask(random, asked, list, EXACT, heat::cell(asked, list.words))?;
    }
    Ok(())
}

/// The cells that hold a value once more, with junk for the fifth word of each entry: nobody looks at it.
fn other_codes(
    random: &mut Random,
    contexts: u16,
    valued: &BTreeMap<(u16, u16), Bits>,
    words: &[u16],
) -> Result<(), String> {
    let entries = valued.len() / 2;
    let (mut words, junk) = (words.to_vec(), random.junk_words(entries));
    words.chunks_exact_mut(ENTRY_WORDS).zip(junk).for_each(|(entry, junk)| entry[ENTRY_WORDS - 1] = junk);
    let mut list = List::new(random, &words);
    for (&(first, second), &bits) in valued {
        let asked = Asked { contexts, entries, first, second };
        ask(random, asked, &mut list, EXACT, Ok(Cell::Value(bits)))?;
    }
    Ok(())
}

/// The whole map of a random site.
fn some_map(random: &mut Random, large: Option<usize>) -> Result<Outcome, String> {
    let contexts = some_site(random, large);
    let slices = slices(&contexts);
    let survey = Survey::new(&slices);
    let k = if large.is_some() { *random.pick(&[64, 64, 10, 1]) } else { some_k(random, survey.sharing()) };
    whole_map(random, &contexts, &survey, k)?;
    Ok(Outcome { end: Some(0), ways: vec![if large.is_some() { LARGE_MAP } else { MAP }] })
}

fn trial(choice: &Choice, number: u64) -> Result<Outcome, String> {
    let mut random = Random::new(seed_of(choice.seed, number));
    match large_kind(number, EVERY) {
        None if number % EVERY_SMALL != 0 => one_cell(&mut random),
        large => some_map(&mut random, large),
    }
}

/// The cells by name: in rooms that just fit, in longer ones, and in all that are too short.
fn named() -> Result<u64, String> {
    let mut random = Random::new(0);
    let cases = cases::cells();
    let rooms = [(1, 4), (3, 7), (1, 0), (1, 1), (1, 2), (1, 3), (0, 4), (0, 9), (0, 0)];
    for case in &cases {
        case.stated()?;
        let question = Question { asked: case.asked, list: case.list.clone() };
        for (value, answer) in rooms {
            ask_once(&mut random, &question, Rooms { value, answer }, case.told)
                .map_err(|what| format!("case '{}'\n{what}", case.name))?;
        }
    }
    Ok(cases.len() as u64)
}

/// Every list of one entry or two of small words.
fn every_list() -> Result<Tally, String> {
    let mut random = Random::new(0);
    let mut tally = Tally::default();
    for question in all_questions() {
        let told = heat::cell(question.asked, &question.list);
        ask_once(&mut random, &question, EXACT, told)?;
        tally.add(Some(number(told)));
    }
    Ok(tally)
}

/// Every similarity of up to 256 types, and of the most that an entry can tell.
fn every_similarity() -> Result<u64, String> {
    let mut random = Random::new(0);
    let small = (1..=256u16).flat_map(|union| (1..=union).map(move |shared| (shared, union)));
    let counts: Vec<(u16, u16)> = small.chain((1..=65_535).map(|shared| (shared, 65_535))).collect();
    let asked = Asked { contexts: 2, entries: 1, first: 1, second: 0 };
    for &(shared, union) in &counts {
        let question = Question { asked, list: vec![0, 1, shared, union, random.next() as u16] };
        ask_once(&mut random, &question, EXACT, Ok(Cell::Value(similarity(shared, union))))?;
    }
    Ok(counts.len() as u64)
}

/// The map of every site of up to three contexts over three codes, with each k up to one more than the pairs that
/// share a code.
fn every_site() -> Result<u64, String> {
    let mut random = Random::new(0);
    let sites: Vec<Contexts> = all_sites().into_iter().filter(|site| site.len() <= 3).collect();
    for site in &sites {
        let slices = slices(site);
        let survey = Survey::new(&slices);
        for k in 1..=survey.sharing() + 1 {
            whole_map(&mut random, site, &survey, k as u16)?;
        }
    }
    Ok(sites.len() as u64)
}

/// The cases by name, and those that are counted out.
fn cases_by_name(_: &Choice) -> Result<(), String> {
    println!("cell: {} cells by name agree", named()?);
    every_list()?.report("cell, every list of one or two small entries", &[0, 13, 17])?;
    println!("cell: {} similarities agree in every bit", every_similarity()?);
    println!("cell: the maps of every site of three contexts over three codes agree, {} in all", every_site()?);
    Ok(())
}
