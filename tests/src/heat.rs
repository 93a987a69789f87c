//! The heat map, by brute force: all faults of a call are gathered and the least one counts; all entries that name the
//! cell are gathered and the earliest one counts. A similarity is worked out in whole numbers, so that the machine's
//! own division is under trial too.

use std::fmt::{self, Debug, Formatter};

use crate::paper::{refuse, Refusal, ENTRY_WORDS};

/// The bits of an f64. As bits, 0 and -0 differ, and what is no number is the same as itself.
#[derive(Clone, Copy, PartialEq, Eq)]
#[repr(transparent)]
pub struct Bits(pub u64);

impl Debug for Bits {
    fn fmt(&self, formatter: &mut Formatter) -> fmt::Result {
        write!(formatter, "{:#018x} ({:?})", self.0, f64::from_bits(self.0))
    }
}

/// What is asked of a list: which cell, of how many contexts, from how many entries.
#[derive(Clone, Copy, Debug, PartialEq, Eq)]
pub struct Asked {
    pub contexts: u16,
    pub entries: usize,
    pub first: u16,
    pub second: u16,
}

/// What a cell holds: nothing, or a similarity.
#[derive(Clone, Copy, Debug, PartialEq, Eq)]
pub enum Cell {
    Blank,
    Value(Bits),
}

/// A cell, or why there is none.
pub type Told = Result<Cell, Refusal>;

/// The f64 that is nearest to `shared` / `union`, the even one of two that are as near.
pub fn similarity(shared: u16, union: u16) -> Bits {
    assert!(0 < shared && shared <= union, "no two contexts have such counts");
    let (top, bottom) = (u128::from(shared), u128::from(union));
    // The quotient of `top` times 2 to the power `scale` has 53 bits; it is 1 at most, so that 52 is the least scale.
    let scale = (52..).find(|&scale| top << scale >= bottom << 52).expect("a greater scale makes it greater");
    let (whole, rest) = ((top << scale) / bottom, (top << scale) % bottom);
    let up = 2 * rest > bottom || (2 * rest == bottom && whole % 2 == 1);
    let rounded = whole as u64 + u64::from(up);
    // A first bit that the form leaves out, and 52 others. Rounded up to 54 bits they carry into the exponent.
    Bits(((1023 + 52 - scale as u64) << 52) + (rounded - (1 << 52)))
}

/// An entry of a list. The map does not look at its fifth word.
#[derive(Clone, Copy, Debug)]
pub struct Entry {
    pub lower: u16,
    pub higher: u16,
    pub shared: u16,
    pub union: u16,
    pub fifth: u16,
}

/// Why an entry is one that no list has.
#[derive(Clone, Copy, Debug, PartialEq, Eq)]
pub enum Cause {
    SameContext,
    Falling,
    TooGreat,
    NothingShared,
    AboveUnion,
}

impl Entry {
    /// Every cause that applies.
    pub fn causes(&self, contexts: u16) -> Vec<Cause> {
        let all = [
            (self.lower == self.higher, Cause::SameContext),
            (self.lower > self.higher, Cause::Falling),
            (self.lower.max(self.higher) >= contexts, Cause::TooGreat),
            (self.shared == 0, Cause::NothingShared),
            (self.shared > self.union, Cause::AboveUnion),
        ];
        all.into_iter().filter(|(applies, _)| *applies).map(|(_, cause)| cause).collect()
    }

    /// Whether it is of these two contexts, in either order.
    fn names(&self, first: u16, second: u16) -> bool {
        [(first, second), (second, first)].contains(&(self.lower, self.higher))
    }

    pub fn similarity(&self) -> Bits {
        similarity(self.shared, self.union)
    }
}

/// All whole entries of a buffer.
fn entries(list: &[u16]) -> Vec<Entry> {
    let entry = |words: &[u16]| match *words {
        [lower, higher, shared, union, fifth] => Entry { lower, higher, shared, union, fifth },
        _ => panic!("an entry has five words"),
    };
    list.chunks_exact(ENTRY_WORDS).map(entry).collect()
}

/// What is wrong with a call. The order of these is the order in which they count.
#[derive(Clone, Copy, Debug, PartialEq, Eq, PartialOrd, Ord)]
pub enum Fault {
    First,
    Second,
    Count,
    Entry(usize),
}

impl Fault {
    fn refusal(self) -> Refusal {
        match self {
            Fault::First => refuse(13, 0),
            Fault::Second => refuse(13, 1),
            Fault::Count => refuse(17, 0),
            Fault::Entry(index) => refuse(17, index),
        }
    }
}

/// A call, and all that can be said about it.
pub struct Call {
    pub asked: Asked,
    /// The entries that are counted, as far as the buffer has them.
    pub counted: Vec<Entry>,
    /// The whole entries behind those.
    pub behind: Vec<Entry>,
    pub faults: Vec<Fault>,
}

impl Call {
    pub fn new(asked: Asked, list: &[u16]) -> Call {
        let mut counted = entries(list);
        let held = counted.len();
        let behind = counted.split_off(asked.entries.min(held));
        let mut faults: Vec<Fault> = (0..counted.len())
            .filter(|&index| !counted[index].causes(asked.contexts).is_empty())
            .map(Fault::Entry)
            .collect();
        if asked.entries > held {
            faults.push(Fault::Count);
        }
        for (number, fault) in [(asked.second, Fault::Second), (asked.first, Fault::First)] {
            if number >= asked.contexts {
                faults.push(fault);
            }
        }
        Call { asked, counted, behind, faults }
    }

    /// The counted entries that are of the two contexts, with their indices.
    pub fn naming(&self) -> Vec<(usize, Entry)> {
        let Asked { first, second, .. } = self.asked;
        self.counted.iter().copied().enumerate().filter(|(_, entry)| entry.names(first, second)).collect()
    }

    pub fn told(&self) -> Told {
        if let Some(fault) = self.faults.iter().min() {
            return Err(fault.refusal());
        }
        if self.asked.first == self.asked.second {
            return Ok(Cell::Blank);
        }
        let earliest = self.naming().into_iter().min_by_key(|(index, _)| *index);
        Ok(earliest.map_or(Cell::Blank, |(_, entry)| Cell::Value(entry.similarity())))
    }
}

/// The cell that a call has to tell, or its refusal.
pub fn cell(asked: Asked, list: &[u16]) -> Told {
    Call::new(asked, list).told()
}

/// What the call for tests answers.
pub fn answer(told: Told) -> [u64; 4] {
    match told {
        Ok(Cell::Blank) => [0, 0, 0, 0],
        Ok(Cell::Value(_)) => [0, 1, 0, 0],
        Err(refusal) => [refusal.number, refusal.place, 0, 0],
    }
}

/// What the host call gives.
pub fn host(told: Told) -> u64 {
    match told {
        Ok(Cell::Blank) => 0,
        Ok(Cell::Value(_)) => 1,
        Err(refusal) => 1_000_000 + refusal.number,
    }
}

/// What both leave in the first word of `value`: 0.0 where there is no similarity.
pub fn value(told: Told) -> Bits {
    match told {
        Ok(Cell::Value(bits)) => bits,
        _ => Bits(0),
    }
}

#[cfg(test)]
mod tests {
    use super::*;
    use crate::random::Random;

    fn divided(shared: u16, union: u16) -> Bits {
        Bits((f64::from(shared) / f64::from(union)).to_bits())
    }

    /// Each bit, from the definition: no f64 beside it is as near, or one that is has an odd last bit.
    fn is_nearest(shared: u16, union: u16) -> bool {
        // A value is its 53 bits, divided by 2 to the power `scale`. For the distance both sides are multiplied by
        // `union` and by 2 to the power 80, so that they are whole numbers; the least similarity needs a scale of 68.
        let distance = |bits: u64| {
            let scale = 1023 + 52 - (bits >> 52);
            let whole = u128::from((bits & ((1 << 52) - 1)) + (1 << 52));
            ((whole * u128::from(union)) << (80 - scale)).abs_diff(u128::from(shared) << 80)
        };
        let Bits(bits) = similarity(shared, union);
        [bits - 1, bits + 1].into_iter().all(|beside| match distance(bits).cmp(&distance(beside)) {
            std::cmp::Ordering::Less => true,
            std::cmp::Ordering::Equal => bits % 2 == 0,
            std::cmp::Ordering::Greater => false,
        })
    }

    #[test]
    fn known_similarities() {
        assert_eq!(similarity(1, 1), Bits(0x3ff0_0000_0000_0000));
        assert_eq!(similarity(65_535, 65_535), Bits(0x3ff0_0000_0000_0000));
        assert_eq!(similarity(1, 2), Bits(0x3fe0_0000_0000_0000));
        assert_eq!(similarity(1, 3), Bits(0x3fd5_5555_5555_5555));
        assert_eq!(similarity(4, 5), Bits(0x3fe9_9999_9999_999a));
        assert_eq!(similarity(99, 100), Bits(0x3fef_ae14_7ae1_47ae));
        assert_eq!(similarity(1, 32_768), Bits(0x3f00_0000_0000_0000));
    }

    #[test]
    fn similarities_are_those_of_the_machine_and_the_nearest() {
        let mut random = Random::new(13);
        let small = (1..=300u16).flat_map(|union| (1..=union).map(move |shared| (shared, union)));
        let longest = (1..=65_535).map(|shared| (shared, 65_535));
        let some = (0..300_000).map(|_| {
            let union = random.between(1, 65_535);
            (random.between(1, union) as u16, union as u16)
        });
        for (shared, union) in small.chain(longest).chain(some.collect::<Vec<_>>()) {
            assert_eq!(similarity(shared, union), divided(shared, union), "{shared}/{union}");
            assert!(is_nearest(shared, union), "{shared}/{union}");
        }
    }

    #[test]
    fn close_similarities_differ() {
        assert_ne!(similarity(99, 100), similarity(100, 101));
        assert_ne!(similarity(65_533, 65_534), similarity(65_534, 65_535));
    }

    #[test]
    fn faults_count_in_their_order() {
        let asked = |contexts, entries, first, second| Asked { contexts, entries, first, second };
        let bad = [0, 1, 4, 5, 0, 1, 1, 0, 0, 0, 2, 1, 7, 5, 0];
        let no = |number, place| Err(refuse(number, place));
        assert_eq!(cell(asked(3, 9, 3, 3), &bad), no(13, 0));
        assert_eq!(cell(asked(3, 9, 0, 3), &bad), no(13, 1));
        assert_eq!(cell(asked(3, 4, 0, 1), &bad), no(17, 0));
        assert_eq!(cell(asked(3, 3, 0, 1), &bad), no(17, 1));
        assert_eq!(cell(asked(3, 3, 0, 1), &bad[5..]), no(17, 0));
        assert_eq!(cell(asked(3, 1, 0, 1), &bad), Ok(Cell::Value(similarity(4, 5))));
        assert_eq!(cell(asked(3, 0, 0, 1), &bad), Ok(Cell::Blank));
    }

    #[test]
    fn the_fifth_word_is_not_looked_at() {
        let asked = Asked { contexts: 2, entries: 1, first: 1, second: 0 };
        for fifth in 0..=65_535 {
            assert_eq!(cell(asked, &[0, 1, 4, 5, fifth]), Ok(Cell::Value(similarity(4, 5))), "{fifth}");
            assert_eq!(cell(asked, &[0, 1, 6, 5, fifth]), Err(refuse(17, 0)), "{fifth}");
        }
    }

    #[test]
    fn five_words_are_an_entry() {
        let list = [0, 1, 4, 5, 2].repeat(9);
        for (length, held) in [(0, 0), (4, 0), (5, 1), (6, 1), (9, 1), (10, 2), (11, 2), (40, 8), (44, 8), (45, 9)] {
            let told = |entries| cell(Asked { contexts: 2, entries, first: 1, second: 1 }, &list[..length]);
            assert_eq!((told(held), told(held + 1)), (Ok(Cell::Blank), Err(refuse(17, 0))), "{length} words");
        }
    }
}
