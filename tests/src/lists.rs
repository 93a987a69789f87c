//! Calls for a cell over invented lists: sound ones, and lists damaged in every way that the paper refuses and in some
//! that it does not mind.

use crate::heat::Asked;
use crate::paper::{EntryWords, ENTRY_WORDS};
use crate::random::Random;

/// A call for a cell: what is asked, and the words of the list buffer.
#[derive(Clone, Debug)]
pub struct Question {
    pub asked: Asked,
    pub list: Vec<u16>,
}

/// A number below the bound, often at its borders.
fn some_number(random: &mut Random, bound: u16) -> u16 {
    match random.below(6) {
        0 => 0,
        1 => bound - 1,
        2 => random.below(usize::from(bound.min(3))) as u16,
        _ => random.below(usize::from(bound)) as u16,
    }
}

/// A number that is not below the bound.
fn too_great(random: &mut Random, bound: u16) -> u16 {
    match random.below(4) {
        0 | 1 => bound,
        2 => random.between(usize::from(bound), 65_535) as u16,
        _ => 65_535,
    }
}

fn some_contexts(random: &mut Random) -> u16 {
    match random.below(16) {
        0 => 0,
        1 => 1,
        2..=8 => random.between(2, 6) as u16,
        9..=11 => random.between(3, 40) as u16,
        12 => random.between(255, 258) as u16,
        13 => random.between(2, 65_535) as u16,
        _ => *random.pick(&[32_767, 32_768, 65_534, 65_535]),
    }
}

/// Counts of shared types and of types in either context, as a list may have them.
fn some_counts(random: &mut Random) -> (u16, u16) {
    let union = match random.below(5) {
        0 => random.between(1, 65_535),
        1 => *random.pick(&[65_535, 65_534, 32_768, 101, 100, 3, 1]),
        _ => random.between(1, 14),
    };
    let shared = match random.below(5) {
        0 => union,
        1 => 1,
        2 => union.saturating_sub(1).max(1),
        _ => random.between(1, union),
    };
    (shared as u16, union as u16)
}

/// A word for the fifth place of an entry, where nobody looks: a code, or what is none.
fn some_fifth(random: &mut Random) -> u16 {
    match random.below(6) {
        0 => 0,
        1 => 65_535,
        2 => *random.pick(&[1, 4095, 4096]),
        3 => random.next() as u16,
        _ => random.below(4096) as u16,
    }
}

/// An entry that a list of so many contexts may have, if there are two of them at least.
fn sound_entry(random: &mut Random, contexts: u16) -> EntryWords {
    let one = some_number(random, contexts);
    let other = some_number(random, contexts);
    let other = if other == one { (one + 1) % contexts } else { other };
    let (shared, union) = some_counts(random);
    [one.min(other), one.max(other), shared, union, some_fifth(random)]
}

/// How many entries: few for the most part, and now and then more than two bytes can count.
fn some_length(random: &mut Random) -> usize {
    match random.below(800) {
        0 => random.between(65_530, 65_545),
        1 => random.between(16_380, 16_390),
        2..=20 => random.between(60, 300),
        21..=80 => 64,
        81..=130 => 0,
        131..=300 => random.between(2, 20),
        _ => random.between(1, 6),
    }
}

/// The entries of a sound list. In some the same few contexts come again and again.
fn sound_list(random: &mut Random, contexts: u16) -> Vec<EntryWords> {
    let most = if random.once_in(4) { contexts.min(3) } else { contexts };
    (0..some_length(random)).map(|_| sound_entry(random, most)).collect()
}

/// An index of a list that is not empty, often the first or the last.
fn some_index(random: &mut Random, length: usize) -> usize {
    match random.below(4) {
        0 => 0,
        1 => length - 1,
        _ => random.below(length),
    }
}

/// The ways to damage an entry. Some damaged entries are still sound: the paper decides, not the damage.
fn damage_entry(random: &mut Random, contexts: u16, entry: &mut EntryWords) {
    match random.below(12) {
        0 => entry[1] = entry[0],
        1 => entry[0] = entry[1],
        2 => entry.swap(0, 1),
        3 | 4 => entry[1] = too_great(random, contexts),
        5 => entry[0] = too_great(random, contexts),
        6 => entry[2] = 0,
        7 => {
            entry[3] = entry[3].min(65_534);
            entry[2] = entry[3] + 1;
        }
        8 => entry[2] = random.between(usize::from(entry[3]), 65_535) as u16,
        9 => entry[3] = 0,
        10 => *entry = [0; ENTRY_WORDS],
        _ => entry[random.below(ENTRY_WORDS)] = random.next() as u16,
    }
}

/// One entry damaged, or the contexts of one written over those of another, which keeps its counts.
fn damage_list(random: &mut Random, contexts: u16, entries: &mut [EntryWords]) {
    if entries.is_empty() {
        return;
    }
    let at = some_index(random, entries.len());
    if random.once_in(4) {
        let from = entries[random.below(entries.len())];
        entries[at][..2].copy_from_slice(&from[..2]);
    } else {
        damage_entry(random, contexts, &mut entries[at]);
    }
}

/// The least count of entries whose words cannot be counted in 64 bits. There they seem to be 4.
const LEAST_UNCOUNTED: usize = usize::MAX / ENTRY_WORDS + 1;

/// A count of entries for a buffer that holds so many: right for the most part, too small, or too great by little or
/// so much that the words of the entries cannot be counted in 64 bits, or that the count is right in its last bits.
fn some_count(random: &mut Random, held: usize) -> usize {
    match random.below(20) {
        0 | 1 => held + 1,
        2 => held + random.between(2, 9),
        3 => {
            let great = [1 << 16, 1 << 32, 1 << 62, 1 << 63, LEAST_UNCOUNTED, 2 * LEAST_UNCOUNTED - 1];
            random.pick(&great) + *random.pick(&[held, 0, 1])
        }
        4 => *random.pick(&[usize::MAX, usize::MAX - 1, usize::MAX / 2, LEAST_UNCOUNTED - 1]),
        5..=8 => random.below(held + 1),
        _ => held,
    }
}

/// Words behind the entries: none, less than an entry, or some that look like entries or not.
fn some_rest(random: &mut Random) -> Vec<u16> {
    let length = match random.below(6) {
        0 => random.between(1, ENTRY_WORDS - 1),
        1 => random.between(ENTRY_WORDS, 20),
        _ => 0,
    };
    random.junk_words(length)
}

/// The two context numbers: those of an entry for the most part, counted or not, in either order.
fn some_cell(random: &mut Random, contexts: u16, entries: &[EntryWords]) -> (u16, u16) {
    let below = |random: &mut Random| if contexts == 0 { 0 } else { some_number(random, contexts) };
    match random.below(20) {
        0 => (too_great(random, contexts), below(random)),
        1 => (below(random), too_great(random, contexts)),
        2 => (too_great(random, contexts), too_great(random, contexts)),
        3 | 4 => {
            let number = below(random);
            (number, number)
        }
        5 | 6 => (below(random), below(random)),
        _ if entries.is_empty() => (below(random), below(random)),
        which => {
            let [lower, higher, ..] = entries[some_index(random, entries.len())];
            if which % 2 == 0 {
                (lower, higher)
            } else {
                (higher, lower)
            }
        }
    }
}

/// A call for a cell of an invented list, damaged up to three times. The cell is mostly one that the list named before
/// it was damaged.
pub fn some_question(random: &mut Random) -> Question {
    let contexts = some_contexts(random);
    // With fewer than two contexts no entry is sound; those of two are then there to be refused, if they are counted.
    let mut entries = sound_list(random, contexts.max(2));
    if contexts < 2 && random.once_in(2) {
        entries.clear();
    }
    let (first, second) = some_cell(random, contexts, &entries);
    let damages = if random.once_in(2) { 0 } else { random.between(1, 3) };
    for _ in 0..damages {
        damage_list(random, contexts, &mut entries);
    }
    let list = [entries.concat(), some_rest(random)].concat();
    let count = some_count(random, list.len() / ENTRY_WORDS);
    // Where words stand behind the entries it is mostly the entries that are counted.
    let count = if random.once_in(4) { count } else { count.min(entries.len()) };
    Question { asked: Asked { contexts, entries: count, first, second }, list }
}

/// The words of an entry: the four that count, each 0 to 2, by its number of 0 to 80, and the fifth.
fn small_entry(number: u16, fifth: u16) -> EntryWords {
    [number / 27, number / 9 % 3, number / 3 % 3, number % 3, fifth]
}

/// All cells of two numbers below the bound.
pub fn cells_below(bound: u16) -> impl Iterator<Item = (u16, u16)> {
    (0..bound).flat_map(move |first| (0..bound).map(move |second| (first, second)))
}

/// All calls with a list of one such entry: with up to three contexts, any count about 1, and all numbers about them.
/// The fifth word is small, or as great as can be.
fn questions_of_one() -> impl Iterator<Item = Question> {
    let counts = (0..=3).flat_map(|contexts| (0..=2).map(move |entries| (contexts, entries)));
    counts.flat_map(|(contexts, entries)| {
        cells_below(4).flat_map(move |(first, second)| {
            let asked = Asked { contexts, entries, first, second };
            let list = |number: u16| small_entry(number / 3, [0, 1, 65_535][usize::from(number % 3)]).to_vec();
            (0..81 * 3).map(move |number| Question { asked, list: list(number) })
        })
    })
}

/// All calls with a list of two such entries, both counted, for the cells of two and of three contexts. The fifth word
/// of each is the number of the other.
fn questions_of_two() -> impl Iterator<Item = Question> {
    [2, 3].into_iter().flat_map(|contexts| {
        cells_below(contexts).flat_map(move |(first, second)| {
            let asked = Asked { contexts, entries: 2, first, second };
            let list = |one: u16, other: u16| [small_entry(one, other), small_entry(other, one)].concat();
            (0..81 * 81).map(move |number| Question { asked, list: list(number / 81, number % 81) })
        })
    })
}

/// All calls with lists of one or two entries of small words.
pub fn all_questions() -> impl Iterator<Item = Question> {
    questions_of_one().chain(questions_of_two())
}
