//! `trials doubled`: the user's law. 'Give every type a second code and run it again. The ratio list must not move at
//! all.' The join of a site and the join of the doubled site are compared with one another, for every k up to one more
//! than the pairs there are, and each of them with the paper.

use std::collections::BTreeSet;

use super::join::{ample_rooms, Trial};
use super::{Choice, Kind};
use crate::cases;
use crate::damage::{all_sites, shown, Tables};
use crate::doubling::{can_be_doubled, doubled, doubled_entry, events_doubled, some_site};
use crate::ffi::JoinBuffers;
use crate::paper::{self, EntryWords, Rooms, Survey, ENTRY_WORDS};
use crate::random::{large_kind, seed_of, slices, tables, Contexts, Random};
use crate::sheet;
use crate::tally::Outcome;

pub const KIND: Kind = Kind {
    name: "doubled",
    gate: 6_024,
    owed: &[0],
    ways: &[],
    threads: 1,
    of_program: false,
    named: cases_by_name,
    trial,
};
/// One trial in so many is of a large site.
const EVERY: u64 = 502;
/// The greatest k.
const MOST: usize = 64;

/// A site with all that is known of it.
struct Site<'a> {
    offsets: Vec<u16>,
    codes: Vec<u16>,
    survey: Survey<'a>,
}

impl<'a> Site<'a> {
    fn new(contexts: &[Vec<u16>], slices: &'a [&'a [u16]]) -> Site<'a> {
        let (offsets, codes) = tables(contexts);
        Site { offsets, codes, survey: Survey::new(slices) }
    }

    /// The join of the site, in rooms that just fit or in ample ones, once it is found to be right.
    fn join(&self, random: &mut Random, k: usize, exact: bool) -> Result<JoinBuffers, String> {
        let findings = self.survey.find(k);
        let met = findings.trail.len();
        let rooms = if exact {
            Rooms { list: ENTRY_WORDS * k, work: 10_240, trail: 2 * met }
        } else {
            ample_rooms(random, k as u16, met)
        };
        let tables = Tables { k: k as u16, offsets: self.offsets.clone(), codes: self.codes.clone() };
        Trial { tables, rooms, answer: 4 }.call(random, &paper::searched(&findings, rooms.trail))
    }

    fn shown(&self, k: usize) -> String {
        shown(sheet::text(k as u16, &self.offsets, &self.codes).as_bytes())
    }
}

/// The law, for every k up to one more than the pairs there are.
fn keeps_the_law(random: &mut Random, contexts: &[Vec<u16>]) -> Result<(), String> {
    let twofold = doubled(contexts);
    let (one, two) = (slices(contexts), slices(&twofold));
    let (one, two) = (Site::new(contexts, &one), Site::new(&twofold, &two));
    let sizes: Vec<usize> = contexts.iter().map(Vec::len).collect();
    for k in 1..=MOST.min(one.survey.sharing() + 1) {
        // One of the two has exact rooms: what is lent must not matter.
        let exact = random.once_in(2);
        let (once, again) = (one.join(random, k, exact)?, two.join(random, k, !exact)?);
        same(&sizes, k, &once, &again)
            .map_err(|what| format!("k={k}: {what}\nsheet {}\ndoubled {}", one.shown(k), two.shown(k)))?;
    }
    Ok(())
}

/// The join of a site and the join of the doubled one must be the same but for what is doubled.
fn same(sizes: &[usize], k: usize, once: &JoinBuffers, again: &JoinBuffers) -> Result<(), String> {
    let &[_, found, events, met] = once.answer.words() else { panic!("an answer has four words") };
    let &[refused, found_again, events_again, met_again] = again.answer.words() else { panic!("as above") };
    differ("the refusal", 0, refused)?;
    differ("found", found, found_again)?;
    differ("met", met, met_again)?;
    let (found, met) = (found as usize, met as usize);
    let (list, list_again) = (entries(once, found), entries(again, found));
    let twice: Vec<EntryWords> = list.iter().copied().map(doubled_entry).collect();
    differ("the list", twice, list_again)?;
    differ("the trail", &once.trail.words()[..2 * met], &again.trail.words()[..2 * met])?;
    let cut_off = list.get(k - 1).map(|&[_, _, shared, union, _]| (usize::from(shared), usize::from(union)));
    differ("events", events_doubled(events, sizes, cut_off), events_again)
}

/// The entries that a join has found.
fn entries(joined: &JoinBuffers, found: usize) -> Vec<EntryWords> {
    let words = &joined.list.words()[..ENTRY_WORDS * found];
    words.chunks(ENTRY_WORDS).map(|words| words.try_into().expect("an entry")).collect()
}

fn differ<T: PartialEq + std::fmt::Debug>(name: &str, expected: T, got: T) -> Result<(), String> {
    if expected == got {
        Ok(())
    } else {
        Err(format!("{name} of the doubled site: by the law {expected:?}, by the join {got:?}"))
    }
}

fn trial(choice: &Choice, number: u64) -> Result<Outcome, String> {
    let mut random = Random::new(seed_of(choice.seed, number));
    let site = some_site(&mut random, large_kind(number, EVERY));
    keeps_the_law(&mut random, &site).map(|()| Some(0).into())
}

/// The sites of the joins by name that are accepted, each once.
fn named() -> Result<u64, String> {
    let mut random = Random::new(0);
    let mut tried: BTreeSet<Contexts> = BTreeSet::new();
    for case in cases::joins().iter().filter(|case| case.answer[0] == 0) {
        let site = paper::contexts(&case.offsets, &case.codes).into_iter().map(<[u16]>::to_vec).collect();
        let site = can_be_doubled(site);
        if tried.insert(site.clone()) {
            keeps_the_law(&mut random, &site).map_err(|what| format!("case '{}'\n{what}", case.name))?;
        }
    }
    Ok(tried.len() as u64)
}

/// Every site of up to four contexts over three codes.
fn every_site() -> Result<u64, String> {
    let mut random = Random::new(0);
    let sites = all_sites();
    for site in &sites {
        keeps_the_law(&mut random, site)?;
    }
    Ok(sites.len() as u64)
}

fn cases_by_name(_: &Choice) -> Result<(), String> {
    println!("doubled: {} sites by name keep the law", named()?);
    println!("doubled: every site of four contexts over three codes keeps the law, {} in all", every_site()?);
    Ok(())
}
