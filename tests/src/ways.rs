//! The ways that a call for a cell can go, told apart more finely than by its answer: so that a long run can be asked
//! whether it has gone all of them.

use crate::heat::{Asked, Bits, Call, Cause, Fault};
use crate::paper::ENTRY_WORDS;

/// The ways to an answer that random calls have to go. A bad entry counts for its cause if it has no other one, so that
/// no cause is tried only in the shadow of another.
pub const WAYS: &[&str] = &[
    "blank, a context against itself",
    "blank, not listed",
    "value",
    "value, the higher context asked first",
    "value, the earlier of two entries that differ",
    "value, the fifth word is 0",
    "value, the fifth word is a code",
    "value, the fifth word is no code",
    "answered, a bad entry behind the counted ones",
    "answered, less than an entry behind all that are counted",
    "13 at 0",
    "13 at 0, both numbers too great",
    "13 at 0, and a bad list",
    "13 at 1",
    "13 at 1, and a bad list",
    "17 for the count",
    "17 for the count, and a bad entry",
    "17 for the count, whose words are too many for 64 bits",
    "17 for the count, a word is missing",
    "17 for the count, though there are four words for each entry",
    "17 at 0, contexts equal",
    "17 at 0, contexts falling",
    "17 at 0, a context too great",
    "17 at 0, nothing shared",
    "17 at 0, shared above union",
    "17 at 0, several causes",
    "17 later, contexts equal",
    "17 later, contexts falling",
    "17 later, a context too great",
    "17 later, nothing shared",
    "17 later, shared above union",
    "17 later, several causes",
    "17, another bad entry behind",
    "17, a context against itself",
    "17, behind the entry looked for",
    NO_ANSWER,
    NO_VALUE,
    MAP,
    LARGE_MAP,
];

/// Nothing is done where the answer is short, or where there is no word for the value.
pub const NO_ANSWER: &str = "nothing done, no room for the answer";
pub const NO_VALUE: &str = "nothing done, no room for the value";
/// Trials that ask for every cell of a site.
pub const MAP: &str = "the whole map of a small site";
pub const LARGE_MAP: &str = "the whole map of a large site";

/// Which of the ways a call goes.
pub fn ways(asked: Asked, list: &[u16]) -> Vec<&'static str> {
    let call = Call::new(asked, list);
    match call.faults.iter().min() {
        None => [call.ways_answered(), call.ways_unseen(list.len())].concat(),
        Some(Fault::Entry(index)) => call.ways_of_entry(*index),
        Some(Fault::Count) => call.ways_of_count(list.len()),
        Some(_) => call.ways_of_number(),
    }
}

/// The words that apply.
pub fn applying(words: &[(&'static str, bool)]) -> Vec<&'static str> {
    words.iter().filter(|(_, applies)| *applies).map(|(word, _)| *word).collect()
}

impl Call {
    fn ways_answered(&self) -> Vec<&'static str> {
        let Asked { contexts, first, second, .. } = self.asked;
        let naming = self.naming();
        let listed = !naming.is_empty();
        let similarities: Vec<Bits> = naming.iter().map(|(_, entry)| entry.similarity()).collect();
        let differ = similarities.first() != similarities.last();
        let bad_behind = self.behind.iter().any(|entry| !entry.causes(contexts).is_empty());
        applying(&[
            ("blank, a context against itself", first == second),
            ("blank, not listed", first != second && !listed),
            ("value", listed),
            ("value, the higher context asked first", listed && first > second),
            ("value, the earlier of two entries that differ", differ),
            ("answered, a bad entry behind the counted ones", bad_behind),
        ])
    }

    /// What has no say: the fifth word of the entry that gives the value, and words that are no whole entry.
    fn ways_unseen(&self, words: usize) -> Vec<&'static str> {
        let fifth = self.naming().first().map(|(_, entry)| entry.fifth);
        let odd_words = self.behind.is_empty() && words % ENTRY_WORDS != 0;
        applying(&[
            ("value, the fifth word is 0", fifth == Some(0)),
            ("value, the fifth word is a code", fifth.is_some_and(|fifth| (1..=4095).contains(&fifth))),
            ("value, the fifth word is no code", fifth.is_some_and(|fifth| fifth > 4095)),
            ("answered, less than an entry behind all that are counted", odd_words),
        ])
    }

    fn ways_of_number(&self) -> Vec<&'static str> {
        let (first, second) = (self.faults.contains(&Fault::First), self.faults.contains(&Fault::Second));
        let bad_list = self.faults.iter().any(|fault| matches!(fault, Fault::Count | Fault::Entry(_)));
        applying(&[
            ("13 at 0", first),
            ("13 at 0, both numbers too great", first && second),
            ("13 at 0, and a bad list", first && bad_list),
            ("13 at 1", !first),
            ("13 at 1, and a bad list", !first && bad_list),
        ])
    }

    fn ways_of_count(&self, words: usize) -> Vec<&'static str> {
        let bad_entry = self.faults.iter().any(|fault| matches!(fault, Fault::Entry(_)));
        let needed = self.asked.entries.checked_mul(ENTRY_WORDS);
        let without_fifth = self.asked.entries.checked_mul(ENTRY_WORDS - 1);
        applying(&[
            ("17 for the count", true),
            ("17 for the count, and a bad entry", bad_entry),
            ("17 for the count, whose words are too many for 64 bits", needed.is_none()),
            ("17 for the count, a word is missing", needed == Some(words + 1)),
            (
                "17 for the count, though there are four words for each entry",
                without_fifth.is_some_and(|needed| needed <= words),
            ),
        ])
    }

    fn ways_of_entry(&self, index: usize) -> Vec<&'static str> {
        let Asked { contexts, first, second, .. } = self.asked;
        let causes = self.counted[index].causes(contexts);
        let way = match (causes.as_slice(), index) {
            ([Cause::SameContext], 0) => "17 at 0, contexts equal",
            ([Cause::Falling], 0) => "17 at 0, contexts falling",
            ([Cause::TooGreat], 0) => "17 at 0, a context too great",
            ([Cause::NothingShared], 0) => "17 at 0, nothing shared",
            ([Cause::AboveUnion], 0) => "17 at 0, shared above union",
            (_, 0) => "17 at 0, several causes",
            ([Cause::SameContext], _) => "17 later, contexts equal",
            ([Cause::Falling], _) => "17 later, contexts falling",
            ([Cause::TooGreat], _) => "17 later, a context too great",
            ([Cause::NothingShared], _) => "17 later, nothing shared",
            ([Cause::AboveUnion], _) => "17 later, shared above union",
            _ => "17 later, several causes",
        };
        applying(&[
            (way, true),
            ("17, another bad entry behind", self.faults.len() > 1),
            ("17, a context against itself", first == second),
            ("17, behind the entry looked for", self.naming().iter().any(|&(found, _)| found < index)),
        ])
    }
}

#[cfg(test)]
mod tests {
    use super::*;
    use crate::random::Random;

    #[test]
    fn every_way_that_a_call_can_go_is_owed() {
        let mut random = Random::new(17);
        for _ in 0..20_000 {
            let list: Vec<u16> = (0..random.below(17)).map(|_| random.below(4) as u16).collect();
            let [contexts, first, second] = [(); 3].map(|()| random.below(4) as u16);
            let entries = if random.once_in(9) { usize::MAX } else { random.below(5) };
            let ways = ways(Asked { contexts, entries, first, second }, &list);
            assert!(!ways.is_empty() && ways.iter().all(|way| WAYS.contains(way)), "{ways:?}");
        }
    }
}
