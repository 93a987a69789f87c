//! The ways that a join can go, told apart more finely than by its answer: where the first shared code of a listed pair
//! stands in its contexts, how entries moved while the list was made, and how long a list was lent.

use crate::damage::Tables;
use crate::paper::{self, After, EntryWords, Joined, Ratio, Rooms, ENTRY_WORDS};
use crate::ways::applying;

/// The ways to an answer that random joins have to go.
pub const WAYS: &[&str] = &[
    "first shared code, the first of both contexts",
    "first shared code, the first of the lower context alone",
    "first shared code, the first of the higher context alone",
    "first shared code, the first of neither",
    "first shared code, and another one is the last",
    "first shared code, and no other one",
    "first shared code 0",
    "first shared code 4095",
    "first shared codes that fall from an entry to the next",
    "first shared codes that fall from an entry to one as alike",
    "an entry before one that met earlier",
    "a pair among the first k that met, fallen off the end",
    "the list just fits",
    "a word behind a list that just fits",
    "6, a word is missing",
    "6, though there are four words for each entry",
];

/// Which of the ways a join goes, each once.
pub fn ways(tables: &Tables, rooms: Rooms, joined: &Joined) -> Vec<&'static str> {
    let needed = ENTRY_WORDS * usize::from(tables.k);
    match joined.answer[0] {
        0 => [ways_listed(tables, joined), ways_of_room(needed, rooms.list)].concat(),
        6 => ways_of_short_room(needed, usize::from(tables.k), rooms.list),
        _ => Vec::new(),
    }
}

fn ways_of_room(needed: usize, lent: usize) -> Vec<&'static str> {
    applying(&[("the list just fits", lent == needed), ("a word behind a list that just fits", lent == needed + 1)])
}

fn ways_of_short_room(needed: usize, k: usize, lent: usize) -> Vec<&'static str> {
    applying(&[
        ("6, a word is missing", lent + 1 == needed),
        ("6, though there are four words for each entry", lent + k == needed),
    ])
}

/// The words that an accepted join leaves, in groups of so many.
fn groups<const N: usize>(after: &After<u16>) -> Vec<[u16; N]> {
    let After::Holds(words) = after else { panic!("an accepted join fills its buffers") };
    words.chunks(N).map(|words| words.try_into().expect("whole groups")).collect()
}

fn ways_listed(tables: &Tables, joined: &Joined) -> Vec<&'static str> {
    let contexts = paper::contexts(&tables.offsets, &tables.codes);
    let list: Vec<EntryWords> = groups(&joined.list);
    let trail: Vec<[u16; 2]> = groups(&joined.trail);
    let of_pairs = list.iter().flat_map(|entry| ways_of_pair(&contexts, entry));
    let of_neighbours = list.windows(2).flat_map(|two| ways_of_neighbours(&trail, two[0], two[1]));
    let mut ways: Vec<&'static str> = of_pairs.chain(of_neighbours).collect();
    let listed = |pair: &[u16; 2]| list.iter().any(|entry| entry.starts_with(pair));
    if trail.iter().take(usize::from(tables.k)).any(|pair| !listed(pair)) {
        ways.push("a pair among the first k that met, fallen off the end");
    }
    ways.sort_unstable();
    ways.dedup();
    ways
}

/// Where the first shared code of a listed pair stands, and which one it is.
fn ways_of_pair(contexts: &[&[u16]], &[lower, higher, _, _, first_code]: &EntryWords) -> Vec<&'static str> {
    let (lower, higher) = (contexts[usize::from(lower)], contexts[usize::from(higher)]);
    let (first_of_lower, first_of_higher) = (lower[0] == first_code, higher[0] == first_code);
    let last = lower.iter().filter(|code| higher.contains(code)).max();
    applying(&[
        ("first shared code, the first of both contexts", first_of_lower && first_of_higher),
        ("first shared code, the first of the lower context alone", first_of_lower && !first_of_higher),
        ("first shared code, the first of the higher context alone", !first_of_lower && first_of_higher),
        ("first shared code, the first of neither", !first_of_lower && !first_of_higher),
        ("first shared code, and another one is the last", last != Some(&first_code)),
        ("first shared code, and no other one", last == Some(&first_code)),
        ("first shared code 0", first_code == 0),
        ("first shared code 4095", first_code == 4095),
    ])
}

/// How an entry stands to the one behind it.
fn ways_of_neighbours(trail: &[[u16; 2]], one: EntryWords, next: EntryWords) -> Vec<&'static str> {
    let similarity = |entry: EntryWords| Ratio { top: entry[2].into(), bottom: entry[3].into() };
    let met = |entry: EntryWords| trail.iter().position(|pair| entry.starts_with(pair));
    let falls = one[ENTRY_WORDS - 1] > next[ENTRY_WORDS - 1];
    applying(&[
        ("first shared codes that fall from an entry to the next", falls),
        (
            "first shared codes that fall from an entry to one as alike",
            falls && similarity(one).order(similarity(next)).is_eq(),
        ),
        ("an entry before one that met earlier", met(one) > met(next)),
    ])
}

#[cfg(test)]
mod tests {
    use super::*;
    use crate::random::{small_site, tables, Random, KINDS};

    fn ways_of(contexts: &[Vec<u16>], k: u16, list: usize) -> Vec<&'static str> {
        let (offsets, codes) = tables(contexts);
        let rooms = Rooms { list, work: 10_240, trail: 4_096 };
        let joined = paper::join(k, &offsets, &codes, rooms);
        ways(&Tables { k, offsets, codes }, rooms, &joined)
    }

    #[test]
    fn every_way_that_a_join_can_go_is_owed() {
        let mut random = Random::new(5);
        for trial in 0..3_000 {
            let site = small_site(&mut random, trial % KINDS);
            let k = random.between(1, 9);
            let gone = ways_of(&site, k as u16, random.between(4 * k - 1, 5 * k + 2));
            assert!(gone.iter().all(|way| WAYS.contains(way)), "{gone:?}");
        }
    }

    #[test]
    fn places_of_the_first_shared_code_are_told_apart() {
        let gone = |one: &[u16], other: &[u16]| ways_of(&[one.to_vec(), other.to_vec()], 1, 7)[..2].to_vec();
        let (alone, among) = ("first shared code, and no other one", "first shared code, and another one is the last");
        assert_eq!(gone(&[3, 4], &[3, 5]), [alone, "first shared code, the first of both contexts"]);
        assert_eq!(gone(&[3, 4], &[1, 3]), [alone, "first shared code, the first of the lower context alone"]);
        assert_eq!(gone(&[1, 3], &[3, 4]), [alone, "first shared code, the first of the higher context alone"]);
        assert_eq!(gone(&[1, 3, 4], &[2, 3, 4]), [among, "first shared code, the first of neither"]);
        assert_eq!(gone(&[0], &[0]), ["first shared code 0", alone]);
        assert_eq!(gone(&[0, 4095], &[4095]), ["first shared code 4095", alone]);
    }

    /// Pairs of contexts with codes of their own: they meet one after the other, each more alike than the one before.
    #[test]
    fn entries_that_move_are_told() {
        let site = [vec![11, 12, 13], vec![11, 14, 15], vec![1, 2, 3], vec![1, 2, 4]];
        let moved = "an entry before one that met earlier";
        let off = "a pair among the first k that met, fallen off the end";
        let falls = "first shared codes that fall from an entry to the next";
        let gone = |k: u16, way| ways_of(&site, k, 320).contains(&way);
        assert!(gone(2, moved) && !gone(1, moved));
        assert!(gone(1, off) && !gone(2, off));
        assert!(!gone(2, falls) && ways_of(&[vec![9], vec![9], vec![1], vec![1]], 2, 320).contains(&falls));
    }

    #[test]
    fn lengths_of_the_list_are_told_apart() {
        let gone = |list| ways_of(&[], 3, list);
        assert_eq!(gone(15), ["the list just fits"]);
        assert_eq!(gone(16), ["a word behind a list that just fits"]);
        assert_eq!(gone(14), ["6, a word is missing"]);
        assert_eq!(gone(12), ["6, though there are four words for each entry"]);
        assert_eq!(gone(13), [""; 0]);
        assert_eq!(gone(17), [""; 0]);
    }
}
