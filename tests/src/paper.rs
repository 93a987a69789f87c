//! The paper, by brute force: every pair is looked at, every claim about a pair is counted out from its
//! definition, and the order is made by sorting. There is no event loop here, no index and no cut-off.

use std::cmp::Ordering;

/// The words of an entry of a list: lower context, higher context, shared, union, and the first shared code.
pub const ENTRY_WORDS: usize = 5;

/// An entry of a list, in words.
pub type EntryWords = [u16; ENTRY_WORDS];

/// A refusal: its number and its place.
#[derive(Clone, Copy, Debug, PartialEq, Eq, PartialOrd, Ord)]
pub struct Refusal {
    pub number: u64,
    pub place: u64,
}

pub fn refuse(number: u64, place: usize) -> Refusal {
    Refusal { number, place: place as u64 }
}

/// A fraction. The part below the line is never 0.
#[derive(Clone, Copy, Debug)]
pub struct Ratio {
    pub top: u64,
    pub bottom: u64,
}

impl Ratio {
    /// Fractions are compared by their cross products.
    pub fn order(self, other: Ratio) -> Ordering {
        (u128::from(self.top) * u128::from(other.bottom)).cmp(&(u128::from(other.top) * u128::from(self.bottom)))
    }

    pub fn at_least(self, other: Ratio) -> bool {
        self.order(other) != Ordering::Less
    }
}

/// An event: one place of one context, known by its ceiling, which no other place of the context has.
#[derive(Clone, Copy, Debug)]
pub struct Event {
    pub context: usize,
    pub ceiling: Ratio,
}

impl Event {
    /// The event at this place of the context. Places count from 1.
    pub fn new(contexts: &[&[u16]], context: usize, place: usize) -> Event {
        let size = contexts[context].len();
        assert!(1 <= place && place <= size, "no such place");
        Event { context, ceiling: Ratio { top: (size - place + 1) as u64, bottom: size as u64 } }
    }

    /// Events go by falling ceiling, then rising context number.
    pub fn order(&self, other: &Event) -> Ordering {
        other.ceiling.order(self.ceiling).then(self.context.cmp(&other.context))
    }
}

/// A pair of two different contexts that share a code.
#[derive(Clone, Copy, Debug)]
pub struct Pair {
    pub lower: usize,
    pub higher: usize,
    pub shared: usize,
    pub union: usize,
    /// The first shared code: the smallest that both contexts have.
    pub first_code: u16,
    /// The two events at the pair's first shared code, in the order of events.
    pub earlier: Event,
    pub later: Event,
}

impl Pair {
    pub fn similarity(&self) -> Ratio {
        Ratio { top: self.shared as u64, bottom: self.union as u64 }
    }

    /// The lower of the two ceilings at the first shared code.
    pub fn ceiling(&self) -> Ratio {
        let (one, other) = (self.earlier.ceiling, self.later.ceiling);
        if one.order(other) == Ordering::Less {
            one
        } else {
            other
        }
    }

    /// Greater similarity first, then the smaller lower context, then the smaller higher one. The first shared code has
    /// no say.
    pub fn rank(&self, other: &Pair) -> Ordering {
        other
            .similarity()
            .order(self.similarity())
            .then(self.lower.cmp(&other.lower))
            .then(self.higher.cmp(&other.higher))
    }

    /// The trail goes by the later event, then by the earlier one.
    pub fn on_trail(&self, other: &Pair) -> Ordering {
        self.later.order(&other.later).then(self.earlier.order(&other.earlier))
    }
}

/// Refusals 1 to 5, in their order: what the join and the writer both ask of the tables.
pub fn judge(k: u16, offsets: &[u16], codes: &[u16]) -> Result<(), Refusal> {
    if k == 0 || k > 64 {
        return Err(refuse(1, 0));
    }
    if offsets.is_empty() || offsets.len() > 257 || codes.len() > 4096 {
        return Err(refuse(2, 0));
    }
    // Every offset index that is wrong in one way or another; the earliest counts.
    let mut wrong: Vec<usize> = Vec::new();
    if offsets[0] != 0 {
        wrong.push(0);
    }
    if usize::from(offsets[offsets.len() - 1]) != codes.len() {
        wrong.push(offsets.len() - 1);
    }
    wrong.extend((1..offsets.len()).filter(|&i| offsets[i] < offsets[i - 1]));
    if let Some(&earliest) = wrong.iter().min() {
        return Err(refuse(3, earliest));
    }
    // Every code that is wrong, with its index first; the earliest counts, and 4 before 5 at one index.
    let mut faults: Vec<(usize, u64)> = Vec::new();
    faults.extend((0..codes.len()).filter(|&i| codes[i] > 4095).map(|i| (i, 4)));
    for ends in offsets.windows(2) {
        let (from, to) = (usize::from(ends[0]), usize::from(ends[1]));
        faults.extend((from..to).filter(|&i| i > from && codes[i] <= codes[i - 1]).map(|i| (i, 5)));
    }
    match faults.iter().min() {
        Some(&(index, number)) => Err(refuse(number, index)),
        None => Ok(()),
    }
}

/// The contexts of sound tables.
pub fn contexts<'a>(offsets: &[u16], codes: &'a [u16]) -> Vec<&'a [u16]> {
    offsets.windows(2).map(|ends| &codes[usize::from(ends[0])..usize::from(ends[1])]).collect()
}

/// The pair of these two contexts, if they share a code.
pub fn pair(contexts: &[&[u16]], lower: usize, higher: usize) -> Option<Pair> {
    let (one, other) = (contexts[lower], contexts[higher]);
    let common: Vec<u16> = one.iter().copied().filter(|code| other.contains(code)).collect();
    let first_code = *common.iter().min()?;
    let place_in = |context: &[u16]| 1 + context.iter().position(|&code| code == first_code).expect("it is shared");
    let mut events = [Event::new(contexts, lower, place_in(one)), Event::new(contexts, higher, place_in(other))];
    events.sort_by(Event::order);
    let shared = common.len();
    let union = one.len() + other.len() - shared;
    Some(Pair { lower, higher, shared, union, first_code, earlier: events[0], later: events[1] })
}

/// What the paper says of a site: the list, the trail and the number of events.
pub struct Findings {
    pub list: Vec<Pair>,
    pub trail: Vec<Pair>,
    pub events: usize,
}

/// All pairs of a site that share a code. They are looked for once; then the findings for each k are counted out.
pub struct Survey<'a> {
    contexts: &'a [&'a [u16]],
    /// In the order of the list.
    ranked: Vec<Pair>,
    /// In the order of the trail.
    trailed: Vec<Pair>,
}

impl<'a> Survey<'a> {
    /// The survey of contexts that have passed refusals 1 to 5.
    pub fn new(contexts: &'a [&'a [u16]]) -> Survey<'a> {
        let numbers = 0..contexts.len();
        let mut ranked: Vec<Pair> = numbers
            .flat_map(|lower| (lower + 1..contexts.len()).filter_map(move |higher| pair(contexts, lower, higher)))
            .collect();
        let mut trailed = ranked.clone();
        ranked.sort_by(Pair::rank);
        trailed.sort_by(Pair::on_trail);
        Survey { contexts, ranked, trailed }
    }

    /// How many pairs share a code at all.
    pub fn sharing(&self) -> usize {
        self.ranked.len()
    }

    /// The findings for this k.
    pub fn find(&self, k: usize) -> Findings {
        let list: Vec<Pair> = self.ranked.iter().copied().take(k).collect();
        // The similarity of the k-th listed pair, if k are found.
        let least = if list.len() == k { Some(list[k - 1].similarity()) } else { None };
        let reaches = |ceiling: Ratio| least.map_or(true, |least| ceiling.at_least(least));

        let mut events = 0;
        for (context, codes) in self.contexts.iter().enumerate() {
            let places = 1..=codes.len();
            events += places.filter(|&place| reaches(Event::new(self.contexts, context, place).ceiling)).count();
        }
        let trail: Vec<Pair> = self.trailed.iter().copied().filter(|pair| reaches(pair.ceiling())).collect();
        assert!(list.len() <= trail.len(), "no pair is more similar than its ceiling");
        Findings { list, trail, events }
    }
}

/// The findings for one k.
pub fn find(k: usize, contexts: &[&[u16]]) -> Findings {
    Survey::new(contexts).find(k)
}

/// The four words of an answer.
pub type Answer = [u64; 4];

pub fn refused(refusal: Refusal) -> Answer {
    [refusal.number, refusal.place, 0, 0]
}

/// What has become of a lent buffer: nothing, or these words from its start and zeros to its end.
#[derive(Clone, Debug, PartialEq, Eq)]
pub enum After<T> {
    Unchanged,
    Holds(Vec<T>),
}

impl<T: Copy + Default> After<T> {
    /// The whole buffer, given what it held before.
    pub fn words(&self, before: &[T]) -> Vec<T> {
        match self {
            After::Unchanged => before.to_vec(),
            After::Holds(words) => {
                assert!(words.len() <= before.len(), "what fits is no longer than its buffer");
                let mut whole = words.clone();
                whole.resize(before.len(), T::default());
                whole
            }
        }
    }
}

/// The lengths of the three buffers lent to the join.
#[derive(Clone, Copy, Debug, PartialEq, Eq)]
pub struct Rooms {
    pub list: usize,
    pub work: usize,
    pub trail: usize,
}

/// The whole outcome of a join.
pub struct Joined {
    pub answer: Answer,
    pub list: After<u16>,
    pub work: After<u16>,
    pub trail: After<u16>,
}

impl Joined {
    fn untouched(refusal: Refusal) -> Joined {
        Joined { answer: refused(refusal), list: After::Unchanged, work: After::Unchanged, trail: After::Unchanged }
    }
}

fn word(number: usize) -> u16 {
    u16::try_from(number).expect("all counts of a site fit a table word")
}

/// The words of the list: lower, higher, shared, union and the first shared code for each entry.
pub fn list_words(list: &[Pair]) -> Vec<u16> {
    list.iter().flat_map(entry_words).collect()
}

pub fn entry_words(pair: &Pair) -> EntryWords {
    [word(pair.lower), word(pair.higher), word(pair.shared), word(pair.union), pair.first_code]
}

/// The words of the trail: lower, higher for each pair.
pub fn trail_words(trail: &[Pair]) -> Vec<u16> {
    trail.iter().flat_map(|p| [word(p.lower), word(p.higher)]).collect()
}

/// The join, with refusals 1 to 8 in their order.
pub fn join(k: u16, offsets: &[u16], codes: &[u16], rooms: Rooms) -> Joined {
    if let Err(refusal) = judge(k, offsets, codes) {
        return Joined::untouched(refusal);
    }
    if rooms.list < ENTRY_WORDS * usize::from(k) {
        return Joined::untouched(refuse(6, 0));
    }
    if rooms.work < 10_240 {
        return Joined::untouched(refuse(7, 0));
    }
    searched(&find(usize::from(k), &contexts(offsets, codes)), rooms.trail)
}

/// The outcome of a search that has found this, with so many words of trail.
pub fn searched(findings: &Findings, trail: usize) -> Joined {
    // An odd last word is no room.
    if findings.trail.len() > trail / 2 {
        let zeroed = || After::Holds(Vec::new());
        return Joined { answer: refused(refuse(8, 0)), list: zeroed(), work: zeroed(), trail: zeroed() };
    }
    Joined {
        answer: [0, findings.list.len() as u64, findings.events as u64, findings.trail.len() as u64],
        list: After::Holds(list_words(&findings.list)),
        work: After::Holds(Vec::new()),
        trail: After::Holds(trail_words(&findings.trail)),
    }
}

#[cfg(test)]
mod tests {
    use super::*;

    fn both(one: &[u16], other: &[u16]) -> Option<Pair> {
        pair(&[one, other], 0, 1)
    }

    fn fraction(ratio: Ratio) -> (u64, u64) {
        (ratio.top, ratio.bottom)
    }

    #[test]
    fn single_pairs_of_the_paper() {
        let p1 = both(&[1, 2, 3, 4], &[2, 3, 4, 5]).unwrap();
        assert_eq!((fraction(p1.similarity()), fraction(p1.ceiling()), p1.first_code), ((3, 5), (3, 4), 2));
        assert!(both(&[], &[]).is_none());
        assert!(both(&[], &[7]).is_none());
        let p3 = both(&[7], &[7]).unwrap();
        assert_eq!((fraction(p3.similarity()), fraction(p3.ceiling()), p3.first_code), ((1, 1), (1, 1), 7));
        let p4 = both(&[1, 2], &[2, 3]).unwrap();
        assert_eq!((fraction(p4.similarity()), fraction(p4.ceiling()), p4.first_code), ((1, 3), (1, 2), 2));
    }

    /// All contexts over the codes 0 to 6: both have the first shared code, and no smaller one is in both.
    #[test]
    fn no_code_below_the_first_shared_one_is_in_both() {
        let subset = |bits: u16| (0..7).filter(|code| bits >> code & 1 == 1).collect::<Vec<u16>>();
        for (one, other) in (0..128).flat_map(|one| (0..128).map(move |other| (subset(one), subset(other)))) {
            let in_both = |code: u16| one.contains(&code) && other.contains(&code);
            match both(&one, &other) {
                Some(pair) => assert!(in_both(pair.first_code) && !(0..pair.first_code).any(in_both)),
                None => assert!(!(0..7).any(in_both)),
            }
        }
    }

    /// Two pairs that are as alike: the list goes by their contexts, also where their first shared codes fall.
    #[test]
    fn the_order_of_the_list_does_not_look_at_codes() {
        let contexts: [&[u16]; 4] = [&[9], &[9], &[1], &[1]];
        let (one, other) = (pair(&contexts, 0, 1).unwrap(), pair(&contexts, 2, 3).unwrap());
        assert_eq!((one.rank(&other), one.first_code, other.first_code), (Ordering::Less, 9, 1));
        assert_eq!(list_words(&find(2, &contexts).list), [0, 1, 1, 1, 9, 2, 3, 1, 1, 1]);
    }

    /// The list must hold five words for each pair that is asked for.
    #[test]
    fn a_list_under_five_words_a_pair_is_refused() {
        let number = |k: u16, list| join(k, &[0], &[], Rooms { list, work: 10_240, trail: 0 }).answer[0];
        for (k, least) in [(1, 5), (2, 10), (51, 255), (52, 260), (64, 320)] {
            assert_eq!([least - 1, least, least + 1].map(|list| number(k, list)), [6, 0, 0], "k={k}");
        }
    }

    #[test]
    fn close_fractions_differ() {
        let (one, other) = (Ratio { top: 99, bottom: 100 }, Ratio { top: 100, bottom: 101 });
        assert_eq!(one.order(other), Ordering::Less);
        assert!(other.at_least(one) && !one.at_least(other));
        assert_eq!(Ratio { top: 2, bottom: 4 }.order(Ratio { top: 3, bottom: 6 }), Ordering::Equal);
    }

    #[test]
    fn offsets_are_judged_by_the_earliest_wrong_index() {
        let place = |offsets: &[u16], codes: &[u16]| judge(1, offsets, codes);
        assert_eq!(place(&[7], &[]), Err(refuse(3, 0)));
        assert_eq!(place(&[0], &[1]), Err(refuse(3, 0)));
        assert_eq!(place(&[0, 9, 3], &[1, 2, 3]), Err(refuse(3, 2)));
        assert_eq!(place(&[0, 2, 1, 3], &[1, 2, 3]), Err(refuse(3, 2)));
        assert_eq!(place(&[0, 2, 2], &[1, 2, 3]), Err(refuse(3, 2)));
        assert_eq!(place(&[1, 0], &[]), Err(refuse(3, 0)));
        assert_eq!(place(&[0, 0], &[]), Ok(()));
    }

    #[test]
    fn codes_are_judged_by_the_earliest_wrong_index() {
        assert_eq!(judge(1, &[0, 3], &[1, 4096, 4096]), Err(refuse(4, 1)));
        assert_eq!(judge(1, &[0, 3], &[5, 5, 4096]), Err(refuse(5, 1)));
        assert_eq!(judge(1, &[0, 1, 2], &[9, 3]), Ok(()));
        assert_eq!(judge(1, &[0, 1, 1, 2], &[9, 9]), Ok(()));
    }
}
