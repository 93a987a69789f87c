//! Cases with a name: the paper's examples and limits, and the worked examples of the decisions. Each states its
//! outcome in full, written down by hand, so that the brute-force paper is itself under trial here.

use crate::heat::{self, Asked, Bits, Cell, Told};
use crate::paper::{self, refuse, After, Answer, EntryWords, Rooms};
use crate::random::{tables, Contexts};
use crate::sheet;

/// A join by name. After an acceptance the list and the trail hold exactly these words, and zeros behind.
pub struct JoinCase {
    pub name: String,
    pub k: u16,
    pub offsets: Vec<u16>,
    pub codes: Vec<u16>,
    pub rooms: Rooms,
    pub answer: Answer,
    pub list: Vec<u16>,
    pub trail: Vec<u16>,
}

impl JoinCase {
    /// Whether the brute-force paper gives what the case states.
    pub fn stated(&self) -> Result<(), String> {
        let joined = paper::join(self.k, &self.offsets, &self.codes, self.rooms);
        let state = |words: &[u16]| match self.answer[0] {
            0 => After::Holds(words.to_vec()),
            8 => After::Holds(Vec::new()),
            _ => After::Unchanged,
        };
        let given = (joined.answer, joined.list, joined.trail, joined.work);
        let owed = (self.answer, state(&self.list), state(&self.trail), state(&[]));
        if given == owed {
            Ok(())
        } else {
            Err(format!("'{}': {owed:?} is stated, {given:?} is found", self.name))
        }
    }
}

const AMPLE: Rooms = Rooms { list: 320, work: 10_240, trail: 4_096 };

fn case(
    name: &str,
    k: u16,
    offsets: &[u16],
    codes: &[u16],
    rooms: Rooms,
    answer: Answer,
    list: &[u16],
    trail: &[u16],
) -> JoinCase {
    JoinCase {
        name: name.to_string(),
        k,
        offsets: offsets.to_vec(),
        codes: codes.to_vec(),
        rooms,
        answer,
        list: list.to_vec(),
        trail: trail.to_vec(),
    }
}

fn site(name: &str, k: u16, contexts: &[&[u16]], answer: Answer, list: &[u16], trail: &[u16]) -> JoinCase {
    let contexts: Vec<Vec<u16>> = contexts.iter().map(|context| context.to_vec()).collect();
    let (offsets, codes) = tables(&contexts);
    case(name, k, &offsets, &codes, AMPLE, answer, list, trail)
}

const THREE: &[&[u16]] = &[&[2, 3, 4, 5], &[1, 2, 3, 4, 5], &[1, 2, 3, 4]];
/// The list of the sheet Three with k=1: one entry, of three contexts.
const ONE_PAIR: &[u16] = &[0, 1, 4, 5, 2];
/// Its list with k=3.
const THREE_PAIRS: &[u16] = &[0, 1, 4, 5, 2, 1, 2, 4, 5, 1, 0, 2, 3, 5, 2];

/// P1 to P12.
fn examples() -> Vec<JoinCase> {
    vec![
        site("P1", 1, &[&[1, 2, 3, 4], &[2, 3, 4, 5]], [0, 1, 4, 1], &[0, 1, 3, 5, 2], &[0, 1]),
        site("P2, two empty contexts", 1, &[&[], &[]], [0, 0, 0, 0], &[], &[]),
        site("P2, {} and {7}", 1, &[&[], &[7]], [0, 0, 1, 0], &[], &[]),
        site("P3", 1, &[&[7], &[7]], [0, 1, 2, 1], &[0, 1, 1, 1, 7], &[0, 1]),
        site("P4", 1, &[&[1, 2], &[2, 3]], [0, 1, 4, 1], &[0, 1, 1, 3, 2], &[0, 1]),
        site("P5", 1, THREE, [0, 1, 4, 2], &[0, 1, 4, 5, 2], &[1, 2, 0, 1]),
        site("P6", 2, THREE, [0, 2, 4, 2], &[0, 1, 4, 5, 2, 1, 2, 4, 5, 1], &[1, 2, 0, 1]),
        site("P7", 3, THREE, [0, 3, 7, 3], THREE_PAIRS, &[1, 2, 0, 1, 0, 2]),
        site("P8", 4, THREE, [0, 3, 13, 3], THREE_PAIRS, &[1, 2, 0, 1, 0, 2]),
        site("P9", 1, &[], [0, 0, 0, 0], &[], &[]),
        case("P10", 1, &[0, 2], &[5, 5], AMPLE, [5, 1, 0, 0], &[], &[]),
        case("P11", 1, &[0, 1, 2], &[9, 3], AMPLE, [0, 0, 2, 0], &[], &[]),
        case("P12", 0, &[], &[], AMPLE, [1, 0, 0, 0], &[], &[]),
    ]
}

/// The limits that are run only, and their neighbours.
fn limits() -> Vec<JoinCase> {
    let three: Vec<Vec<u16>> = THREE.iter().map(|context| context.to_vec()).collect();
    let (offsets, codes) = tables(&three);
    let trail = [1, 2, 0, 1, 0, 2];
    let rooms = |list, work, trail| Rooms { list, work, trail };
    let p5 = |name: &str, rooms| case(name, 1, &offsets, &codes, rooms, [0, 1, 4, 2], ONE_PAIR, &[1, 2, 0, 1]);
    let p5_refused = |name: &str, rooms, number| case(name, 1, &offsets, &codes, rooms, [number, 0, 0, 0], &[], &[]);
    let all: Vec<u16> = (0..4096).collect();
    let one_more: Vec<u16> = (0..4097).map(|i| i % 4096).collect();
    vec![
        case("k 64", 64, &offsets, &codes, AMPLE, [0, 3, 13, 3], THREE_PAIRS, &trail),
        case("k 65", 65, &offsets, &codes, rooms(325, 10_240, 4_096), [1, 0, 0, 0], &[], &[]),
        site("code 4095", 1, &[&[4095], &[4095]], [0, 1, 2, 1], &[0, 1, 1, 1, 4095], &[0, 1]),
        site("code 4096", 1, &[&[4095], &[4096]], [4, 1, 0, 0], &[], &[]),
        case("256 contexts", 1, &[0; 257], &[], AMPLE, [0, 0, 0, 0], &[], &[]),
        case("257 contexts", 1, &[0; 258], &[], AMPLE, [2, 0, 0, 0], &[], &[]),
        case("4096 codes", 1, &[0, 4096], &all, AMPLE, [0, 0, 4096, 0], &[], &[]),
        case("4097 codes", 1, &[0, 4096, 4097], &one_more, AMPLE, [2, 0, 0, 0], &[], &[]),
        p5_refused("P5 with trail room for one pair", rooms(5, 10_240, 2), 8),
        p5_refused("P5 with trail room for one pair and an odd word", rooms(5, 10_240, 3), 8),
        p5("P5 with trail room for two pairs", rooms(5, 10_240, 4)),
        p5("P5 with an odd word behind two pairs", rooms(5, 10_240, 5)),
        p5_refused("P5 with no trail room", rooms(5, 10_240, 0), 8),
        p5_refused("P5 with a list one word short", rooms(4, 10_240, 4), 6),
        p5_refused("P5 with no list", rooms(0, 10_240, 4), 6),
        p5_refused("P5 with a work area one word short", rooms(5, 10_239, 4), 7),
        p5_refused("P5 with all three rooms short", rooms(4, 10_239, 2), 6),
        p5_refused("P5 with work area and trail short", rooms(5, 10_239, 2), 7),
        p5("P5 with long buffers", rooms(1_000, 20_000, 70_001)),
        // No pair is met, so that no trail room is enough.
        case("P11 with no trail room", 1, &[0, 1, 2], &[9, 3], rooms(5, 10_240, 0), [0, 0, 2, 0], &[], &[]),
        // The list must hold the k asked for, not the pairs found.
        case(
            "k 3 with no pair and list room for two",
            3,
            &[0, 1, 2],
            &[9, 3],
            rooms(14, 10_240, 0),
            [6, 0, 0, 0],
            &[],
            &[],
        ),
    ]
}

/// Three with every k, in a list that just fits, a word more, and a word less; and in one of 4k words, which was enough
/// before an entry had a fifth. The numbers are the request's own.
fn lists_about_the_limit() -> Vec<JoinCase> {
    let about = |k: u16| {
        let words = usize::from(k);
        let lengths = [("4k", 4 * words), ("5k - 1", 5 * words - 1), ("5k", 5 * words), ("5k + 1", 5 * words + 1)];
        lengths.map(|(name, length)| three_in_list(&format!("k {k} with a list of {name} words"), k, length))
    };
    (1..=64).flat_map(about).collect()
}

/// Three with this k, in a list of so many words: P5 to P8, or 6.
fn three_in_list(name: &str, k: u16, length: usize) -> JoinCase {
    let (answer, list, trail): (Answer, &[u16], &[u16]) = match k {
        _ if length < 5 * usize::from(k) => ([6, 0, 0, 0], &[], &[]),
        1 => ([0, 1, 4, 2], ONE_PAIR, &[1, 2, 0, 1]),
        2 => ([0, 2, 4, 2], &THREE_PAIRS[..10], &[1, 2, 0, 1]),
        3 => ([0, 3, 7, 3], THREE_PAIRS, &[1, 2, 0, 1, 0, 2]),
        _ => ([0, 3, 13, 3], THREE_PAIRS, &[1, 2, 0, 1, 0, 2]),
    };
    JoinCase { rooms: Rooms { list: length, ..AMPLE }, ..site(name, k, THREE, answer, list, trail) }
}

/// Offsets and codes that are refused, by the decisions on places.
fn refused_tables() -> Vec<JoinCase> {
    let refused = |name: &str, offsets: &[u16], codes: &[u16], number, place| {
        case(name, 1, offsets, codes, AMPLE, [number, place, 0, 0], &[], &[])
    };
    vec![
        refused("no offsets", &[], &[], 2, 0),
        refused("one offset, not 0", &[7], &[], 3, 0),
        refused("one offset, with codes lent", &[0], &[1, 2], 3, 0),
        refused("an offset beyond the codes in the middle", &[0, 9, 3], &[1, 2, 3], 3, 2),
        refused("last offset above the codes length", &[0, 4], &[1, 2, 3], 3, 1),
        refused("last offset below the codes length", &[0, 2], &[1, 2, 3], 3, 1),
        refused("first offset not 0 and a fall", &[2, 1], &[1], 3, 0),
        refused("an equal code before a code above 4095", &[0, 3], &[5, 5, 4096], 5, 1),
        refused("a code above 4095 before an equal one", &[0, 3], &[4096, 4096, 3], 4, 0),
        refused("a falling code in a second context", &[0, 2, 4], &[1, 2, 9, 8], 5, 3),
        refused("offsets before codes", &[0, 1], &[4096, 4096], 3, 1),
    ]
}

/// The slips that have been seen.
fn slips() -> Vec<JoinCase> {
    // 99/100 between 0 and 1; 100/101 between 2 and 3. Rounded to two decimals both are 0.99.
    let hundred: Vec<u16> = (0..100).collect();
    let ninety_nine: Vec<u16> = (1..100).collect();
    let hundred_and_one: Vec<u16> = (200..301).collect();
    let its_hundred: Vec<u16> = (201..301).collect();
    let close: &[&[u16]] = &[&hundred, &ninety_nine, &hundred_and_one, &its_hundred];
    vec![
        // Cut-off 100/101: one event of each of 0, 1 and 3, and two of context 2.
        site("99/100 against 100/101, k=1", 1, close, [0, 1, 5, 1], &[2, 3, 100, 101, 201], &[2, 3]),
        // Cut-off 99/100: two events of each of 0, 2 and 3, and one of context 1.
        site(
            "99/100 against 100/101, k=2",
            2,
            close,
            [0, 2, 7, 2],
            &[2, 3, 100, 101, 201, 0, 1, 99, 100, 1],
            &[2, 3, 0, 1],
        ),
        // Three equal pairs and one place on the list: stopping at an equal ceiling would lose nothing here, but met
        // counts all three.
        site("three equal contexts, k=1", 1, &[&[7], &[7], &[7]], [0, 1, 3, 3], &[0, 1, 1, 1, 7], &[0, 1, 0, 2, 1, 2]),
        // Both pairs are equal. The list takes the smaller lower context first, the trail the pair that is met first.
        site(
            "a tie goes by the lower context",
            1,
            &[&[1], &[2], &[2], &[1]],
            [0, 1, 4, 2],
            &[0, 3, 1, 1, 1],
            &[1, 2, 0, 3],
        ),
        site(
            "a tie then goes by the higher context",
            2,
            &[&[1], &[1], &[1]],
            [0, 2, 3, 3],
            &[0, 1, 1, 1, 1, 0, 2, 1, 1, 1],
            &[0, 1, 0, 2, 1, 2],
        ),
        site(
            "a pair with four shared codes is met once",
            2,
            &[&[1, 2, 3, 4], &[1, 2, 3, 4]],
            [0, 1, 8, 1],
            &[0, 1, 4, 4, 1],
            &[0, 1],
        ),
        site("k=64 and nothing shared", 64, &[&[1], &[2], &[3], &[]], [0, 0, 3, 0], &[], &[]),
    ]
}

/// The first shared code of two contexts, wherever it stands in them. They meet once and are listed, at k=1.
fn first_codes() -> Vec<JoinCase> {
    let two = |name: &str, one: &[u16], other: &[u16], events, entry: EntryWords| {
        site(name, 1, &[one, other], [0, 1, events, 1], &entry, &[0, 1])
    };
    let all_but_0: Vec<u16> = (1..4096).collect();
    vec![
        two("equal contexts", &[3, 8, 9], &[3, 8, 9], 2, [0, 1, 3, 3, 3]),
        two("the first code of one is the last of the other", &[5, 6, 7], &[1, 2, 5], 6, [0, 1, 1, 5, 5]),
        two("the last code of one is the first of the other", &[1, 2, 5], &[5, 6, 7], 6, [0, 1, 1, 5, 5]),
        two("first shared code 0", &[0, 4], &[0, 9], 4, [0, 1, 1, 3, 0]),
        two("first shared code 0, and others behind it", &[0, 1, 2], &[0, 1, 2], 2, [0, 1, 3, 3, 0]),
        two("first shared code 0, and no other code", &[0], &[0], 2, [0, 1, 1, 1, 0]),
        two("code 0 in the lower context alone", &[0, 4], &[4], 3, [0, 1, 1, 2, 4]),
        two("code 0 in the higher context alone", &[4], &[0, 4], 3, [0, 1, 1, 2, 4]),
        two("first shared code 4095", &[0, 4094, 4095], &[1, 4095], 5, [0, 1, 1, 4, 4095]),
        two("first shared code 4094, and 4095 behind it", &[4094, 4095], &[4094, 4095], 2, [0, 1, 2, 2, 4094]),
        two("first shared code 4095, behind 4094 others", &all_but_0, &[4095], 4096, [0, 1, 1, 4095, 4095]),
        two("first shared code 255, then 256", &[255, 256], &[254, 255, 256], 3, [0, 1, 2, 3, 255]),
        two("first shared code 256", &[255, 256], &[256, 257], 4, [0, 1, 1, 3, 256]),
        two("shared behind smaller ones", &[1, 3, 10, 20, 30], &[2, 4, 5, 10, 20, 30], 8, [0, 1, 3, 8, 10]),
        two("shared with another between", &[2, 7, 9], &[1, 7, 8, 9], 5, [0, 1, 2, 5, 7]),
        two("a code more in front of the lower context", &[1, 2, 3, 4, 5], &[2, 3, 4, 5], 3, [0, 1, 4, 5, 2]),
    ]
}

/// Entries of equal similarity: the list goes by context numbers, whatever their first shared codes are.
fn equal_but_for_codes() -> Vec<JoinCase> {
    let apart: &[&[u16]] = &[&[9], &[9], &[1], &[1]];
    // 0 and 2 meet first, at 5; then 0 and 1, at 9, and go before them.
    let fork: &[&[u16]] = &[&[5, 9], &[7, 9], &[5, 8]];
    vec![
        site("falling first codes, k=2", 2, apart, [0, 2, 4, 2], &[0, 1, 1, 1, 9, 2, 3, 1, 1, 1], &[0, 1, 2, 3]),
        site("falling first codes, k=1", 1, apart, [0, 1, 4, 2], &[0, 1, 1, 1, 9], &[0, 1, 2, 3]),
        site("the later of two goes in front", 2, fork, [0, 2, 6, 2], &[0, 1, 1, 3, 9, 0, 2, 1, 3, 5], &[0, 2, 0, 1]),
        site("the later of two takes the place", 1, fork, [0, 1, 6, 2], &[0, 1, 1, 3, 9], &[0, 2, 0, 1]),
    ]
}

/// Entries that move while the list is made: the first shared code goes with its pair. Two contexts of a pair have a
/// code of their own each and then 1, 2 or 3 codes in common, from 10, 20 or 30 on. They meet in the order of their
/// numbers, all at a ceiling of 3/4.
fn moved_entries() -> Vec<JoinCase> {
    let (poor, other_poor): (&[u16], &[u16]) = (&[1, 10, 11, 12], &[2, 10, 13, 14]);
    let (fair, other_fair): (&[u16], &[u16]) = (&[3, 20, 21, 22], &[4, 20, 21, 23]);
    let (good, other_good): (&[u16], &[u16]) = (&[5, 30, 31, 32], &[6, 30, 31, 32]);
    let rising: &[&[u16]] = &[poor, other_poor, fair, other_fair, good, other_good];
    let mixed: &[&[u16]] = &[good, other_good, poor, other_poor, fair, other_fair];
    let rising_list = [4, 5, 3, 5, 30, 2, 3, 2, 6, 20, 0, 1, 1, 7, 10];
    let mixed_list = [0, 1, 3, 5, 30, 4, 5, 2, 6, 20, 2, 3, 1, 7, 10];
    let trail = [0, 1, 2, 3, 4, 5];
    vec![
        site("each goes in front", 3, rising, [0, 3, 24, 3], &rising_list, &trail),
        site("each goes in front, and the first falls off", 2, rising, [0, 2, 18, 3], &rising_list[..10], &trail),
        site("each takes the one place", 1, rising, [0, 1, 12, 3], &rising_list[..5], &trail),
        site("the last goes between", 3, mixed, [0, 3, 24, 3], &mixed_list, &trail),
        site("the last goes between, and the second falls off", 2, mixed, [0, 2, 18, 3], &mixed_list[..10], &trail),
        site("the first keeps the one place", 1, mixed, [0, 1, 12, 3], &mixed_list[..5], &trail),
        sixty_five_pairs(),
    ]
}

/// 65 pairs, of which 64 are asked for. Pair i, counted from 0, is the i-th to meet, and more alike than all before it,
/// 1 of 66 - i: so it goes in front, all others move, and the last of the 65 makes the first fall off. Each pair has
/// codes of its own.
fn sixty_five_pairs() -> JoinCase {
    let first_code = |i: u16| (0..i).map(|j| 66 - j).sum::<u16>();
    let pair = |i: u16| [vec![first_code(i)], (first_code(i)..first_code(i + 1)).collect()];
    let contexts: Contexts = (0..65).flat_map(pair).collect();
    let entry = |i: u16| [2 * i, 2 * i + 1, 1, 66 - i, first_code(i)];
    let list: Vec<u16> = (1..65).rev().flat_map(entry).collect();
    let trail: Vec<u16> = (0..130).collect();
    let (offsets, codes) = tables(&contexts);
    // Cut-off 1/65: all events but the last one of the context with 66 codes.
    let answer = [0, 64, codes.len() as u64 - 1, 65];
    case("65 pairs, each goes in front", 64, &offsets, &codes, AMPLE, answer, &list, &trail)
}

/// All joins by name.
pub fn joins() -> Vec<JoinCase> {
    let as_before = [examples(), limits(), refused_tables(), slips()];
    let of_codes = [lists_about_the_limit(), first_codes(), equal_but_for_codes(), moved_entries()];
    as_before.into_iter().chain(of_codes).flatten().collect()
}

/// A sheet by name, with the lengths of the lent tables, and the reader's answer.
pub struct ReadCase {
    pub name: String,
    pub sheet: Vec<u8>,
    pub offsets: usize,
    pub codes: usize,
    pub answer: Answer,
}

impl ReadCase {
    /// Whether the reader by definition gives what the case states.
    pub fn stated(&self) -> Result<(), String> {
        let given = sheet::reading(&self.sheet, self.offsets, self.codes).answer;
        if given == self.answer {
            Ok(())
        } else {
            Err(format!("'{}': {:?} is stated, {given:?} is found", self.name, self.answer))
        }
    }
}

/// A sheet of exactly `length` bytes, well-formed, with 256 contexts and 4096 codes in all: the first codes rise in
/// four digits from 1000, the last have five digits.
pub fn sheet_of_length(length: usize) -> Vec<u8> {
    let longest = 17 + 256 * 3 + 3840 + 4096 * 5;
    let short = longest - length;
    assert!(short <= 4096, "a sheet of 256 contexts and 4096 codes is longer");
    let mut text = String::from("k=1\ncontexts=256\n");
    for context in 0..256 {
        let code = |i: usize| {
            let index = 16 * context + i;
            if index < short {
                1000 + i
            } else {
                10_000 + i
            }
        };
        let words: Vec<String> = (0..16).map(|i| code(i).to_string()).collect();
        text.push_str(&format!("c={}\n", words.join(" ")));
    }
    assert_eq!(text.len(), length);
    text.into_bytes()
}

/// The worked examples of the decisions on refusals 9, 10 and 11.
pub fn readings() -> Vec<ReadCase> {
    let mut cases = Vec::new();
    let mut lent = |name: &str, sheet: &[u8], offsets: usize, codes: usize, answer: Answer| {
        cases.push(ReadCase { name: name.to_string(), sheet: sheet.to_vec(), offsets, codes, answer });
    };
    let no = |number, place| [number, place, 0, 0];
    let yes = |k, contexts, codes| [0, k, contexts, codes];
    let one_line = |line: &str| format!("k=1\ncontexts=1\n{line}").into_bytes();

    lent("N1 contexts=300", b"k=1\ncontexts=300\n", 257, 4096, no(11, 13));
    lent("N1 contexts=300, more lent", b"k=1\ncontexts=300\n", 400, 4096, no(11, 13));

    lent("N2 k=65536x", b"k=65536x", 257, 4096, no(10, 2));
    lent("N2 k=65536 and the end", b"k=65536", 257, 4096, no(10, 2));
    lent("N2 k=65535x", b"k=65535x", 257, 4096, no(9, 7));
    lent("N2 k=6553 and the end", b"k=6553", 257, 4096, no(9, 6));
    lent("N2 contexts=257x", b"k=1\ncontexts=257x", 257, 4096, no(11, 13));
    lent("N2 contexts=257 and the end", b"k=1\ncontexts=257", 257, 4096, no(11, 13));
    lent("N2 contexts=1x, offsets 1", b"k=1\ncontexts=1x", 1, 4096, no(11, 13));
    lent("N2 c=1 2x, codes 1", &one_line("c=1 2x"), 257, 1, no(11, 19));
    lent("N2 c=1 65536x", &one_line("c=1 65536x"), 257, 4096, no(10, 19));

    lent("N3 k=099999", b"k=099999\n", 257, 4096, no(9, 3));
    lent("N3 contexts=0300", b"k=1\ncontexts=0300\n", 257, 4096, no(9, 14));
    lent("N3 contexts=00, offsets 0", b"k=1\ncontexts=00\n", 0, 4096, no(11, 13));
    lent("N3 c=1 07, codes 1", &one_line("c=1 07\n"), 257, 1, no(11, 19));
    lent("N3 c=1 07, codes 2", &one_line("c=1 07\n"), 257, 2, no(9, 20));

    let hundred_nines = [b"k=".as_slice(), &[b'9'; 100]].concat();
    lent("N5 a hundred nines", &hundred_nines, 257, 4096, no(10, 2));
    lent(
        "N5 a hundred nines in a whole sheet",
        &[&hundred_nines, b"\ncontexts=0\n".as_slice()].concat(),
        257,
        4096,
        no(10, 2),
    );
    lent("N5 2^64 + 1", b"k=18446744073709551617", 257, 4096, no(10, 2));
    lent("N5 2^64 + 1 in a whole sheet", b"k=18446744073709551617\ncontexts=0\n", 257, 4096, no(10, 2));
    lent("N5 2^32 + 1", b"k=4294967297", 257, 4096, no(10, 2));
    lent("N5 2^32 + 1 in a whole sheet", b"k=4294967297\ncontexts=0\n", 257, 4096, no(10, 2));
    lent("N5 2^16 + 1 in a whole sheet", b"k=65537\ncontexts=0\n", 257, 4096, no(10, 2));
    lent("N5 contexts 2^64", b"k=1\ncontexts=18446744073709551616\n", 257, 4096, no(10, 13));
    lent("N5 a code of 2^64", &one_line("c=18446744073709551616\n"), 257, 4096, no(10, 17));

    lent("N6 k=65535", b"k=65535\ncontexts=0\n", 257, 4096, yes(65_535, 0, 0));
    lent("N6 k=65536", b"k=65536\ncontexts=0\n", 257, 4096, no(10, 2));
    lent("N6 k=0", b"k=0\ncontexts=0\n", 257, 4096, yes(0, 0, 0));

    lent("N7 contexts=65536", b"k=1\ncontexts=65536\n", 257, 4096, no(10, 13));
    lent("N7 contexts=65535", b"k=1\ncontexts=65535\n", 257, 4096, no(11, 13));
    lent("N7 c=1 65536, codes 1", &one_line("c=1 65536\n"), 257, 1, no(10, 19));
    lent("N7 c=1 2 65536, codes 1", &one_line("c=1 2 65536\n"), 257, 1, no(11, 19));
    lent("N7 c=65536 2, codes 1", &one_line("c=65536 2\n"), 257, 1, no(10, 17));

    lent("N8 99999", b"99999", 257, 4096, no(9, 0));
    lent("N8 99999 behind the last line", b"k=1\ncontexts=0\n99999\n", 257, 4096, no(9, 15));
    lent("N8 x=99999", b"x=99999", 257, 4096, no(9, 0));

    lent("N10 c=1 and a space, codes 1", &one_line("c=1 \n"), 257, 1, no(9, 19));
    lent("N10 c=1, a space and the end, codes 1", &one_line("c=1 "), 257, 1, no(9, 19));
    lent("N10 c=1 x, codes 1", &one_line("c=1 x"), 257, 1, no(9, 19));
    lent("N10 c= alone, codes 0", &one_line("c=\n"), 257, 0, yes(1, 1, 0));

    lent("N11 contexts=0, offsets 0", b"k=1\ncontexts=0\n", 0, 4096, no(11, 13));
    lent("N11 contexts= and byte 10, offsets 0", b"k=1\ncontexts=\n", 0, 4096, no(9, 13));
    lent("N11 contexts= and the end, offsets 0", b"k=1\ncontexts=", 0, 4096, no(9, 13));
    lent("N11 k=x, offsets 0", b"k=x\ncontexts=0\n", 0, 4096, no(9, 2));
    lent("N11 k=65536, offsets 0", b"k=65536\ncontexts=0\n", 0, 4096, no(10, 2));

    lent("N12 too few lines", b"k=1\ncontexts=2\nc=\n", 257, 4096, no(9, 18));
    lent("N12 too many lines", b"k=1\ncontexts=1\nc=\nc=1\n", 257, 4096, no(9, 18));
    lent("N12 an empty line too many", b"k=1\ncontexts=0\n\n", 257, 4096, no(9, 15));

    lent("N13 k=x and the end", b"k=x", 257, 4096, no(9, 2));
    lent("N13 k=1 and the end", b"k=1", 257, 4096, no(9, 3));
    lent("N13 c=1, a space and the end", &one_line("c=1 "), 257, 4096, no(9, 19));
    lent("N13 c=1, a space and byte 10", &one_line("c=1 \n"), 257, 4096, no(9, 19));
    lent("N13 con and the end", b"k=1\ncon", 257, 4096, no(9, 7));
    lent("N13 con and byte 10", b"k=1\ncon\n", 257, 4096, no(9, 7));
    lent("N13 a last line without byte 10", &one_line("c=1 2"), 257, 4096, no(9, 20));

    lent("N14 CR", b"k=1\r\n", 257, 4096, no(9, 3));
    lent("N14 CR in a whole sheet", b"k=1\r\ncontexts=0\r\n", 257, 4096, no(9, 3));
    lent("N14 plus", b"k=+1", 257, 4096, no(9, 2));
    lent("N14 minus", b"k=-1", 257, 4096, no(9, 2));
    lent("N14 tab", &one_line("c=1\t2\n"), 257, 4096, no(9, 18));
    lent("N14 byte order mark", b"\xEF\xBB\xBFk=1\ncontexts=0\n", 257, 4096, no(9, 0));
    lent("N14 a byte above 127", b"k=1\ncontexts=\xB2\n", 257, 4096, no(9, 13));
    lent("N14 NUL", b"k=1\ncontexts=0\n\0", 257, 4096, no(9, 15));

    lent("N15 empty sheet", b"", 257, 4096, no(9, 0));
    lent("N15 empty sheet, nothing lent", b"", 0, 0, no(9, 0));

    let of_lines = |contexts: usize| format!("k=1\ncontexts={contexts}\n{}", "c=\n".repeat(contexts)).into_bytes();
    lent("N16 256 contexts", &of_lines(256), 257, 4096, yes(1, 256, 0));
    lent("N16 256 contexts, more lent", &of_lines(256), 300, 4100, yes(1, 256, 0));
    lent("N16 256 contexts, one less lent", &of_lines(256), 256, 4096, no(11, 13));
    lent("N16 257 contexts, more lent", &of_lines(257), 300, 5000, no(11, 13));
    let of_codes = |codes: usize| one_line(&format!("c={}\n", vec!["7"; codes].join(" ")));
    lent("N16 4096 codes", &of_codes(4096), 257, 4096, yes(1, 1, 4096));
    lent("N16 4096 codes, more lent", &of_codes(4096), 257, 5000, yes(1, 1, 4096));
    lent("N16 4097 codes", &of_codes(4097), 257, 4096, no(11, 17 + 2 * 4096));
    lent("N16 4097 codes, more lent", &of_codes(4097), 257, 5000, no(11, 17 + 2 * 4096));

    let even = sheet_of_length(25_105);
    lent("N17 25,105 bytes", &even, 257, 4096, yes(1, 256, 4096));
    let codes = vec!["65535"; 4096].join(" ");
    let longest = format!("k=65535\ncontexts=256\nc={codes}\n{}", "c=\n".repeat(255));
    assert_eq!(longest.len(), 25_364);
    lent("N17 25,364 bytes, the longest", longest.as_bytes(), 257, 4096, yes(65_535, 256, 4096));

    lent("N18 c=65535 4", &one_line("c=65535 4\n"), 257, 4096, yes(1, 1, 2));
    cases
}

/// A sheet by name, for the program and the host call: what the program prints.
pub struct ListingCase {
    pub name: String,
    pub sheet: Vec<u8>,
    pub printed: String,
}

impl ListingCase {
    /// Whether the listing by brute force is what the case states.
    pub fn stated(&self) -> Result<(), String> {
        let given = sheet::printed(&sheet::listing(&self.sheet));
        if given == self.printed {
            Ok(())
        } else {
            Err(format!("'{}': {:?} is stated, {given:?} is found", self.name, self.printed))
        }
    }
}

/// The longest sheet that is accepted: all codes have four digits, and few contexts have any.
pub fn longest_accepted() -> Vec<u8> {
    let codes = |from: u16, to: u16| (from..to).map(|code| code.to_string()).collect::<Vec<String>>().join(" ");
    let (one, two) = (codes(1000, 4096), codes(1000, 2000));
    let text = format!("k=64\ncontexts=256\nc={one}\nc={two}\n{}", "c=\n".repeat(254));
    assert_eq!(text.len(), 21_264);
    text.into_bytes()
}

/// Contexts of one code each, in groups of these sizes: each group has its own code.
pub fn groups(k: u16, sizes: &[usize]) -> Vec<u8> {
    let mut lines = String::new();
    for (code, &size) in sizes.iter().enumerate() {
        lines.push_str(&format!("c={code}\n").repeat(size));
    }
    format!("k={k}\ncontexts={}\n{lines}", sizes.iter().sum::<usize>()).into_bytes()
}

pub fn listings() -> Vec<ListingCase> {
    let mut cases = Vec::new();
    let mut case = |name: &str, sheet: &[u8], printed: &str| {
        cases.push(ListingCase { name: name.to_string(), sheet: sheet.to_vec(), printed: printed.to_string() });
    };
    let three = |k: u16| format!("k={k}\ncontexts=3\nc=2 3 4 5\nc=1 2 3 4 5\nc=1 2 3 4\n").into_bytes();
    let all_three = "pair=0 1 4 5 2\npair=1 2 4 5 1\npair=0 2 3 5 2\n";
    case("Three", &three(1), "k=1\nfound=1\nevents=4\nmet=2\npair=0 1 4 5 2\n");
    case("Three, k=2", &three(2), "k=2\nfound=2\nevents=4\nmet=2\npair=0 1 4 5 2\npair=1 2 4 5 1\n");
    case("Three, k=3", &three(3), &format!("k=3\nfound=3\nevents=7\nmet=3\n{all_three}"));
    case("Three, k=4", &three(4), &format!("k=4\nfound=3\nevents=13\nmet=3\n{all_three}"));
    case("Three, k=0", &three(0), "refused=1 0\n");
    // 256 words of list would hold 51 entries.
    case("Three, k=51", &three(51), &format!("k=51\nfound=3\nevents=13\nmet=3\n{all_three}"));
    case("Three, k=52", &three(52), &format!("k=52\nfound=3\nevents=13\nmet=3\n{all_three}"));
    case("Three, k=64", &three(64), &format!("k=64\nfound=3\nevents=13\nmet=3\n{all_three}"));
    case("Three, k=65", &three(65), "refused=1 0\n");
    case("first shared code 0", b"k=1\ncontexts=2\nc=0\nc=0\n", "k=1\nfound=1\nevents=2\nmet=1\npair=0 1 1 1 0\n");
    let late = b"k=1\ncontexts=2\nc=0 4095\nc=1 4095\n";
    case("first shared code 4095", late, "k=1\nfound=1\nevents=4\nmet=1\npair=0 1 1 3 4095\n");
    case("no contexts", b"k=1\ncontexts=0\n", "k=1\nfound=0\nevents=0\nmet=0\n");
    case("P11", b"k=1\ncontexts=2\nc=9\nc=3\n", "k=1\nfound=0\nevents=2\nmet=0\n");
    case("P10", b"k=1\ncontexts=1\nc=5 5\n", "refused=5 1\n");
    case("refused=5 7", b"k=1\ncontexts=1\nc=1 2 3 4 5 6 7 7\n", "refused=5 7\n");
    case("code 4095", b"k=1\ncontexts=1\nc=4095\n", "k=1\nfound=0\nevents=1\nmet=0\n");
    case("code 4096", b"k=1\ncontexts=1\nc=4095 4096\n", "refused=4 1\n");
    case("empty input", b"", "refused=9 0\n");
    case("k=65536", b"k=65536\ncontexts=0\n", "refused=10 2\n");
    case("257 contexts", b"k=1\ncontexts=257\n", "refused=11 13\n");
    case("24,576 bytes of x", &[b'x'; 24_576], "refused=9 0\n");
    case("24,577 bytes of x", &[b'x'; 24_577], "refused=11 24576\n");
    case("100,000 bytes of x", &[b'x'; 100_000], "refused=11 24576\n");
    case("a sheet of 24,576 bytes", &sheet_of_length(24_576), "refused=4 529\n");
    case("a sheet of 24,577 bytes", &sheet_of_length(24_577), "refused=11 24576\n");
    let longest = longest_accepted();
    case("N30 21,264 bytes", &longest, "k=64\nfound=1\nevents=4096\nmet=1\npair=0 1 1000 3096 1000\n");
    // 2016 pairs, and 28 + 3 + 1 make 2048: all meet at the first event.
    let of_0: String = (1..64).map(|i| format!("pair=0 {i} 1 1 0\n")).collect();
    let pairs = format!("{of_0}pair=1 2 1 1 0\n");
    case("2048 pairs met", &groups(64, &[64, 8, 3, 2]), &format!("k=64\nfound=64\nevents=77\nmet=2048\n{pairs}"));
    case("2049 pairs met", &groups(64, &[64, 8, 3, 2, 2]), "refused=8 0\n");
    case("2080 pairs met", &groups(1, &[65]), "refused=8 0\n");
    let (sheet, lines) = long_lines();
    case("64 long lines", &sheet, &format!("k=64\nfound=64\nevents=12\nmet=66\n{lines}"));
    cases
}

/// A sheet whose listing has long lines, and 64 of these lines: the last 12 of 256 contexts have the same hundred
/// codes, those of the greatest numbers.
fn long_lines() -> (Vec<u8>, String) {
    let codes: Vec<String> = (3996..4096).map(|code: u16| code.to_string()).collect();
    let line = format!("c={}\n", codes.join(" "));
    let sheet = format!("k=64\ncontexts=256\n{}{}", "c=\n".repeat(244), line.repeat(12));
    let pairs = (244..256).flat_map(|lower| (lower + 1..256).map(move |higher| (lower, higher)));
    let lines = pairs.take(64).map(|(lower, higher)| format!("pair={lower} {higher} 100 100 3996\n"));
    (sheet.into_bytes(), lines.collect())
}

/// A cell of the heat map by name: what is asked, the words of the list buffer, and what is to be told.
pub struct CellCase {
    pub name: String,
    pub asked: Asked,
    pub list: Vec<u16>,
    pub told: Told,
}

impl CellCase {
    /// Whether the map by brute force tells what the case states.
    pub fn stated(&self) -> Result<(), String> {
        let given = heat::cell(self.asked, &self.list);
        if given == self.told {
            Ok(())
        } else {
            Err(format!("'{}': {:?} is stated, {given:?} is found", self.name, self.told))
        }
    }
}

const BLANK: Told = Ok(Cell::Blank);

/// A similarity, by the bits of its f64.
fn bits(bits: u64) -> Told {
    Ok(Cell::Value(Bits(bits)))
}

fn no(number: u64, place: usize) -> Told {
    Err(refuse(number, place))
}

/// The cell of these two contexts, of so many contexts, from so many entries of the list.
fn cell(name: &str, contexts: u16, list: &[u16], entries: usize, cell: (u16, u16), told: Told) -> CellCase {
    let asked = Asked { contexts, entries, first: cell.0, second: cell.1 };
    CellCase { name: name.to_string(), asked, list: list.to_vec(), told }
}

fn cells_of_three() -> Vec<CellCase> {
    let four_of_five = bits(0x3fe9_9999_9999_999a);
    let three_of_five = bits(0x3fe3_3333_3333_3333);
    let zeros_behind = [ONE_PAIR, &[0; 10]].concat();
    vec![
        cell("Three, 0 and 1", 3, ONE_PAIR, 1, (0, 1), four_of_five),
        cell("Three, 1 and 0", 3, ONE_PAIR, 1, (1, 0), four_of_five),
        cell("Three, 0 and 2 are not listed", 3, ONE_PAIR, 1, (0, 2), BLANK),
        cell("Three, 2 and 0 are not listed", 3, ONE_PAIR, 1, (2, 0), BLANK),
        cell("Three, 1 and 2 are not listed", 3, ONE_PAIR, 1, (1, 2), BLANK),
        cell("Three, 2 and 1 are not listed", 3, ONE_PAIR, 1, (2, 1), BLANK),
        cell("Three, 0 against itself", 3, ONE_PAIR, 1, (0, 0), BLANK),
        cell("Three, 1 against itself", 3, ONE_PAIR, 1, (1, 1), BLANK),
        cell("Three, 2 against itself", 3, ONE_PAIR, 1, (2, 2), BLANK),
        cell("Three, no entry counted", 3, ONE_PAIR, 0, (0, 1), BLANK),
        cell("Three, zeros behind the entry", 3, &zeros_behind, 1, (1, 0), four_of_five),
        cell("Three, a zero entry counted", 3, &zeros_behind, 2, (1, 0), no(17, 1)),
        cell("Three, k=3, 0 and 2", 3, THREE_PAIRS, 3, (0, 2), three_of_five),
        cell("Three, k=3, 2 and 1", 3, THREE_PAIRS, 3, (2, 1), four_of_five),
        cell("Three, k=3, the third pair not counted", 3, THREE_PAIRS, 2, (0, 2), BLANK),
        cell("Three, k=3, 2 against itself", 3, THREE_PAIRS, 3, (2, 2), BLANK),
    ]
}

/// The ten pairs of the practice cemetery, which has eleven contexts.
fn cells_of_the_cemetery() -> Vec<CellCase> {
    let pairs = [
        [6, 9, 4, 6, 103],
        [2, 3, 9, 14, 102],
        [0, 1, 9, 15, 101],
        [3, 4, 6, 10, 107],
        [2, 4, 6, 13, 107],
        [1, 10, 5, 11, 101],
        [2, 8, 7, 16, 102],
        [0, 7, 6, 14, 101],
        [0, 10, 5, 13, 101],
        [1, 7, 4, 14, 101],
    ];
    let cell = |name: &str, contexts, told| cell(name, 11, &pairs.concat(), 10, contexts, told);
    vec![
        cell("cemetery, 6 and 9, the first pair", (6, 9), bits(0x3fe5_5555_5555_5555)),
        cell("cemetery, 3 and 2", (3, 2), bits(0x3fe4_9249_2492_4925)),
        cell("cemetery, 0 and 1: 9 of 15", (0, 1), bits(0x3fe3_3333_3333_3333)),
        cell("cemetery, 4 and 3: 6 of 10 are as much", (4, 3), bits(0x3fe3_3333_3333_3333)),
        cell("cemetery, 2 and 8: 7 of 16", (2, 8), bits(0x3fdc_0000_0000_0000)),
        cell("cemetery, 10 and 0", (10, 0), bits(0x3fd8_9d89_d89d_89d9)),
        cell("cemetery, 7 and 1, the last pair", (7, 1), bits(0x3fd2_4924_9249_2492)),
        cell("cemetery, 5 has no listed pair", (5, 10), BLANK),
        cell("cemetery, 10 against itself", (10, 10), BLANK),
        cell("cemetery, 11 is no context", (11, 10), no(13, 0)),
    ]
}

fn similarities() -> Vec<CellCase> {
    let cell = |name: &str, shared, union, told| cell(name, 2, &[0, 1, shared, union, 2], 1, (0, 1), told);
    vec![
        cell("1 of 1", 1, 1, bits(0x3ff0_0000_0000_0000)),
        cell("65535 of 65535", 65_535, 65_535, bits(0x3ff0_0000_0000_0000)),
        cell("1 of 2", 1, 2, bits(0x3fe0_0000_0000_0000)),
        cell("1 of 3, rounded down", 1, 3, bits(0x3fd5_5555_5555_5555)),
        cell("2 of 3, rounded down", 2, 3, bits(0x3fe5_5555_5555_5555)),
        cell("5 of 7, rounded up", 5, 7, bits(0x3fe6_db6d_b6db_6db7)),
        cell("99 of 100", 99, 100, bits(0x3fef_ae14_7ae1_47ae)),
        cell("100 of 101, which is more", 100, 101, bits(0x3fef_aee4_1e6a_7498)),
        cell("1 of 65535", 1, 65_535, bits(0x3ef0_0010_0010_0010)),
        cell("65533 of 65534", 65_533, 65_534, bits(0x3fef_ffdf_ffbf_ff80)),
        cell("65534 of 65535, which is more", 65_534, 65_535, bits(0x3fef_ffdf_ffdf_ffe0)),
    ]
}

/// Refusal 13, and the greatest numbers that are none.
fn context_numbers() -> Vec<CellCase> {
    let four_of_five = bits(0x3fe9_9999_9999_999a);
    let far = [65_533, 65_534, 4, 5, 2];
    vec![
        cell("no contexts", 0, &[], 0, (0, 0), no(13, 0)),
        cell("no contexts, and a bad list", 0, ONE_PAIR, 2, (0, 0), no(13, 0)),
        cell("one context", 1, &[], 0, (0, 0), BLANK),
        cell("one context, and a second number", 1, &[], 0, (0, 1), no(13, 1)),
        cell("one context, and a first number", 1, &[], 0, (1, 0), no(13, 0)),
        cell("one context, and an entry", 1, ONE_PAIR, 1, (0, 0), no(17, 0)),
        cell("the first number equals the contexts", 3, ONE_PAIR, 1, (3, 0), no(13, 0)),
        cell("the second number equals the contexts", 3, ONE_PAIR, 1, (0, 3), no(13, 1)),
        cell("both numbers equal the contexts", 3, ONE_PAIR, 1, (3, 3), no(13, 0)),
        cell("both numbers are far too great", 3, ONE_PAIR, 1, (65_535, 40_000), no(13, 0)),
        cell("a first number too great before a count too great", 3, ONE_PAIR, 2, (3, 0), no(13, 0)),
        cell("a second number too great before a count too great", 3, ONE_PAIR, 2, (0, 3), no(13, 1)),
        cell("a second number too great before a bad entry", 3, &[1, 1, 4, 5, 2], 1, (0, 3), no(13, 1)),
        cell("65535 contexts, the last two", 65_535, &far, 1, (65_534, 65_533), four_of_five),
        cell("65535 contexts, a first number of 65535", 65_535, &far, 1, (65_535, 0), no(13, 0)),
        cell("65535 contexts, a second number of 65535", 65_535, &far, 1, (0, 65_535), no(13, 1)),
        // More contexts than a sheet may have are none too many for a list.
        cell("300 contexts", 300, &[0, 299, 4, 5, 2], 1, (299, 0), four_of_five),
    ]
}

/// Refusal 17 for the count of entries.
fn counts_of_entries() -> Vec<CellCase> {
    let four_of_five = bits(0x3fe9_9999_9999_999a);
    let odd = [THREE_PAIRS, &[0, 1, 2, 3]].concat();
    let of_pair = |name: &str, entries| cell(name, 3, ONE_PAIR, entries, (0, 1), no(17, 0));
    vec![
        cell("as many entries as the buffer holds", 3, THREE_PAIRS, 3, (0, 1), four_of_five),
        cell("one entry more than the buffer holds", 3, THREE_PAIRS, 4, (0, 1), no(17, 0)),
        cell("four words behind three entries", 3, &odd, 3, (0, 1), four_of_five),
        cell("four words behind three entries are no fourth", 3, &odd, 4, (0, 1), no(17, 0)),
        cell("a word behind three entries", 3, &odd[..16], 3, (0, 1), four_of_five),
        cell("a word behind three entries is no fourth", 3, &odd[..16], 4, (0, 1), no(17, 0)),
        cell("the third entry lacks a word", 3, &THREE_PAIRS[..14], 3, (0, 1), no(17, 0)),
        cell("the third entry lacks a word, two counted", 3, &THREE_PAIRS[..14], 2, (0, 1), four_of_five),
        cell("a buffer of four words, none counted", 3, &ONE_PAIR[..4], 0, (0, 1), BLANK),
        cell("a buffer of four words, one counted", 3, &ONE_PAIR[..4], 1, (0, 1), no(17, 0)),
        cell("no buffer, none counted", 3, &[], 0, (0, 1), BLANK),
        cell("no buffer, one counted", 3, &[], 1, (0, 1), no(17, 0)),
        cell("no buffer, a context against itself, one counted", 3, &[], 1, (2, 2), no(17, 0)),
        of_pair("the greatest count", usize::MAX),
        of_pair("the greatest count whose words 64 bits can tell", 3_689_348_814_741_910_323),
        of_pair("a count whose words are 4 in 64 bits", 3_689_348_814_741_910_324),
        of_pair("a count whose words are 3 in 64 bits", 7_378_697_629_483_820_647),
        of_pair("a count whose words are 2 in 64 bits", 11_068_046_444_225_730_970),
        of_pair("a count whose words are 1 in 64 bits", 14_757_395_258_967_641_293),
        cell("a count whose words are 9 in 64 bits", 3, THREE_PAIRS, 3_689_348_814_741_910_325, (0, 1), no(17, 0)),
        cell("a count whose words are 14 in 64 bits", 3, THREE_PAIRS, 3_689_348_814_741_910_326, (0, 1), no(17, 0)),
        of_pair("a count that is 0 if it is taken four times in 64 bits", 1 << 62),
        of_pair("a count that is 4 if it is taken four times in 64 bits", (1 << 62) + 1),
        of_pair("a count that is 1 in 32 bits", (1 << 32) + 1),
        of_pair("a count that is 1 in 16 bits", (1 << 16) + 1),
        cell("a count too great before a bad entry", 3, &[0, 1, 4, 5, 2, 2, 1, 4, 5, 1], 3, (0, 1), no(17, 0)),
    ]
}

/// A buffer holds a fifth of its words, rounded down: of 5n - 1, 5n and 5n + 1 words, for some n, and of lengths that
/// would hold more if an entry had four words.
fn lengths_of_lists() -> Vec<CellCase> {
    let four_of_five = bits(0x3fe9_9999_9999_999a);
    let about = |(length, held): (usize, usize)| {
        let list: Vec<u16> = ONE_PAIR.iter().copied().cycle().take(length).collect();
        let told = if held == 0 { BLANK } else { four_of_five };
        [
            cell(&format!("{length} words, {held} counted"), 3, &list, held, (1, 0), told),
            cell(&format!("{length} words, one more than {held} counted"), 3, &list, held + 1, (1, 0), no(17, 0)),
        ]
    };
    let whole = [1, 2, 3, 51, 52, 64].into_iter().flat_map(|n| [(5 * n - 1, n - 1), (5 * n, n), (5 * n + 1, n)]);
    let by_four = [(8, 1), (12, 2), (16, 3), (20, 4), (24, 4)];
    whole.chain(by_four).flat_map(about).collect()
}

/// The fifth word has no say: whatever stands there, an entry is as sound, and its cell the same.
fn fifth_words() -> Vec<CellCase> {
    let four_of_five = bits(0x3fe9_9999_9999_999a);
    let about = |fifth: u16| {
        let cell = |name: &str, entry: [u16; 4], contexts, told| {
            let list = [&entry[..], &[fifth], &[1, 2, 1, 1, fifth]].concat();
            cell(&format!("a fifth word of {fifth}, {name}"), 3, &list, 2, contexts, told)
        };
        [
            cell("a value", [0, 1, 4, 5], (0, 1), four_of_five),
            cell("a value, the other way", [0, 1, 4, 5], (1, 0), four_of_five),
            cell("the entry behind it", [0, 1, 4, 5], (2, 1), bits(0x3ff0_0000_0000_0000)),
            cell("not listed", [0, 1, 4, 5], (0, 2), BLANK),
            cell("a context against itself", [0, 1, 4, 5], (1, 1), BLANK),
            cell("an entry of one context", [1, 1, 4, 5], (0, 1), no(17, 0)),
            cell("a higher context that equals the contexts", [1, 3, 4, 5], (0, 1), no(17, 0)),
            cell("nothing shared", [0, 1, 0, 5], (0, 1), no(17, 0)),
            cell("shared above the union", [0, 1, 6, 5], (0, 1), no(17, 0)),
        ]
    };
    [0, 1, 2, 3, 5, 4095, 4096, 65_535].into_iter().flat_map(about).collect()
}

/// Refusal 17 for one entry alone, and entries that are just right.
fn single_entries() -> Vec<CellCase> {
    let cell = |name: &str, entry: EntryWords, told| cell(name, 3, &entry, 1, (1, 2), told);
    vec![
        cell("an entry of one context", [1, 1, 4, 5, 2], no(17, 0)),
        cell("an entry whose contexts fall", [2, 1, 4, 5, 2], no(17, 0)),
        cell("a higher context one below the contexts", [1, 2, 4, 5, 2], bits(0x3fe9_9999_9999_999a)),
        cell("a higher context that equals the contexts", [1, 3, 4, 5, 2], no(17, 0)),
        cell("a higher context far too great", [1, 65_535, 4, 5, 2], no(17, 0)),
        cell("both contexts too great, and rising", [3, 4, 4, 5, 2], no(17, 0)),
        cell("a lower context too great", [3, 2, 4, 5, 2], no(17, 0)),
        cell("nothing shared", [1, 2, 0, 5, 2], no(17, 0)),
        cell("nothing shared, nothing there", [1, 2, 0, 0, 2], no(17, 0)),
        cell("shared equals the union", [1, 2, 5, 5, 2], bits(0x3ff0_0000_0000_0000)),
        cell("shared one above the union", [1, 2, 6, 5, 2], no(17, 0)),
        cell("shared above a union of 0", [1, 2, 1, 0, 2], no(17, 0)),
        cell("shared far above the union", [1, 2, 65_535, 1, 2], no(17, 0)),
        cell("an entry of zeros", [0; 5], no(17, 0)),
        cell("an entry of the greatest words", [65_535; 5], no(17, 0)),
    ]
}

/// Several entries: where a bad one stands, and which of two counts.
fn several_entries() -> Vec<CellCase> {
    let four_of_five = bits(0x3fe9_9999_9999_999a);
    let third = bits(0x3fd5_5555_5555_5555);
    let good = [0, 1, 4, 5, 2];
    let many = |last: EntryWords| [vec![good; 70_000], vec![last]].concat();
    let cell = |name: &str, entries: &[EntryWords], count, contexts, told| {
        cell(name, 3, &entries.concat(), count, contexts, told)
    };
    vec![
        cell("bad before the one looked for", &[[1, 2, 0, 5, 1], good], 2, (0, 1), no(17, 0)),
        cell("bad behind the one looked for", &[good, [1, 2, 0, 5, 1]], 2, (0, 1), no(17, 1)),
        cell("bad behind the one looked for, falling", &[good, [2, 0, 4, 5, 1]], 2, (1, 0), no(17, 1)),
        cell("bad behind the count", &[good, [1, 2, 0, 5, 1]], 1, (0, 1), four_of_five),
        cell("a context against itself, bad behind", &[good, [1, 2, 6, 5, 1]], 2, (0, 0), no(17, 1)),
        cell("a context against itself, bad behind the count", &[good, [1, 2, 6, 5, 1]], 1, (0, 0), BLANK),
        cell("a context against itself, and an entry of it", &[good, [2, 2, 4, 5, 1]], 2, (2, 2), no(17, 1)),
        cell("not listed, bad behind", &[good, good, [1, 3, 4, 5, 1]], 3, (0, 2), no(17, 2)),
        cell("two bad ones, the earlier counts", &[good, [1, 1, 4, 5, 1], [0; 5]], 3, (0, 1), no(17, 1)),
        cell("two bad ones, by another cause first", &[[1, 2, 6, 5, 1], [2, 1, 4, 5, 1]], 2, (0, 1), no(17, 0)),
        cell("one pair twice", &[good, [0, 1, 1, 3, 1]], 2, (0, 1), four_of_five),
        cell("one pair twice, asked the other way", &[good, [0, 1, 1, 3, 1]], 2, (1, 0), four_of_five),
        cell("one pair twice, the smaller one first", &[[0, 1, 1, 3, 1], good], 2, (0, 1), third),
        cell("one pair twice, behind another", &[[1, 2, 1, 1, 1], good, [0, 1, 1, 3, 1]], 3, (0, 1), four_of_five),
        cell("one pair twice, alike but for the fifth word", &[good, [0, 1, 4, 5, 1]], 2, (0, 1), four_of_five),
        cell("one pair twice, the later one bad", &[good, [0, 1, 6, 5, 1]], 2, (0, 1), no(17, 1)),
        // Numbers of entries that are small in two bytes.
        cell("the pair behind 70,000 others", &many([1, 2, 4, 5, 1]), 70_001, (1, 2), four_of_five),
        cell("a bad entry behind 70,000 others", &many([1, 2, 0, 5, 1]), 70_001, (0, 1), no(17, 70_000)),
        cell("a bad entry behind 70,000 that are counted", &many([1, 2, 0, 5, 1]), 70_000, (0, 1), four_of_five),
    ]
}

/// All cells by name.
pub fn cells() -> Vec<CellCase> {
    let lists = [cells_of_three(), cells_of_the_cemetery(), similarities()];
    let refused = [context_numbers(), counts_of_entries(), single_entries(), several_entries()];
    let of_words = [lengths_of_lists(), fifth_words()];
    lists.into_iter().chain(refused).chain(of_words).flatten().collect()
}

#[cfg(test)]
mod tests {
    use super::*;

    /// A list that has lost its cases would agree with everything.
    #[test]
    fn there_are_cases_by_name() {
        assert!(joins().len() >= 335 && readings().len() >= 76 && listings().len() >= 30);
        assert!(cells().len() >= 232);
    }

    #[test]
    fn the_paper_by_brute_force_gives_every_named_join() {
        for case in joins() {
            case.stated().unwrap();
        }
    }

    #[test]
    fn the_reader_by_definition_gives_every_named_reading() {
        for case in readings() {
            case.stated().unwrap();
        }
    }

    #[test]
    fn the_listing_gives_every_named_listing() {
        for case in listings() {
            case.stated().unwrap();
        }
    }

    #[test]
    fn the_map_by_brute_force_tells_every_named_cell() {
        for case in cells() {
            case.stated().unwrap();
        }
    }
}
