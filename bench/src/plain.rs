//! The join in plain Rust, twice: every pair by merging, and topk-join with a heap and postings, both
//! as they are written at first. Both check their tables, and both leave the lent buffers as the
//! join does: zeros behind the data, and the work area zero. The tuned programs share the pieces.

use std::cmp::Ordering;
use std::collections::binary_heap::PeekMut;
use std::collections::BinaryHeap;

/// The words of an entry of a list.
pub const ENTRY_WORDS: usize = 5;

/// What is lent to a join.
pub struct Buffers {
    pub list: Vec<u16>,
    pub work: Vec<u16>,
    pub trail: Vec<u16>,
}

impl Buffers {
    /// Holds the list and nothing else, as an all-pairs leaves it.
    pub fn hold_list(&mut self, best: &Best) {
        best.write(&mut self.list);
        self.work.fill(0);
        self.trail.fill(0);
    }

    /// Holds the list, and the trail that is already written; nothing after a refusal.
    pub fn hold(&mut self, outcome: &Outcome, best: &Best) {
        self.work.fill(0);
        match outcome {
            Ok(counts) => {
                best.write(&mut self.list);
                self.trail[2 * counts.met..].fill(0);
            }
            Err(_) => {
                self.list.fill(0);
                self.trail.fill(0);
            }
        }
    }
}

#[derive(Clone, Copy, Debug, PartialEq)]
pub struct Counts {
    pub found: usize,
    pub events: usize,
    pub met: usize,
}

/// The counts, or the number of a refusal.
pub type Outcome = Result<Counts, u64>;

/// Refuses a k out of range, and tables that cannot be joined.
pub fn check(k: u16, offsets: &[u16], codes: &[u16]) -> Result<(), u64> {
    if !(1..=64).contains(&k) {
        return Err(1);
    }
    if !sound(offsets, codes) {
        return Err(2);
    }
    Ok(())
}

/// The tables can be joined: what refusals 2 to 5 ask, without their places.
fn sound(offsets: &[u16], codes: &[u16]) -> bool {
    let sizes = (1..=257).contains(&offsets.len()) && codes.len() <= 4096;
    sizes
        && offsets[0] == 0
        && offsets[offsets.len() - 1] as usize == codes.len()
        && offsets.windows(2).all(|ends| {
            ends[0] <= ends[1]
                && codes.get(ends[0] as usize..ends[1] as usize).is_some_and(|context| {
                    context.windows(2).all(|two| two[0] < two[1])
                        && context.last().is_none_or(|&last| last < 4096)
                })
        })
}

pub fn context<'a>(offsets: &[u16], codes: &'a [u16], i: usize) -> &'a [u16] {
    &codes[offsets[i] as usize..offsets[i + 1] as usize]
}

/// How many codes two rising contexts share. No step of the merge branches.
pub fn shared(xs: &[u16], ys: &[u16]) -> u16 {
    let (mut i, mut j, mut n) = (0, 0, 0);
    while i < xs.len() && j < ys.len() {
        let (x, y) = (xs[i], ys[j]);
        n += u16::from(x == y);
        i += usize::from(x <= y);
        j += usize::from(y <= x);
    }
    n
}

/// The first code that two rising contexts share. They do share one.
pub fn first_shared(xs: &[u16], ys: &[u16]) -> u16 {
    let (mut i, mut j) = (0, 0);
    while xs[i] != ys[j] {
        let (x, y) = (xs[i], ys[j]);
        i += usize::from(x < y);
        j += usize::from(y < x);
    }
    xs[i]
}

#[derive(Clone, Copy)]
pub struct Entry {
    pub lower: u16,
    pub higher: u16,
    pub shared: u16,
    pub union: u16,
    /// The first code that the two contexts share.
    pub first: u16,
}

impl Entry {
    /// The entry of two contexts with so many codes together, of which they share so many.
    pub fn of(a: usize, b: usize, codes: usize, shared: u16, first: u16) -> Entry {
        Entry { lower: a.min(b) as u16, higher: a.max(b) as u16, shared, union: codes as u16 - shared, first }
    }

    pub fn before(&self, other: &Entry) -> bool {
        let mine = u32::from(self.shared) * u32::from(other.union);
        let theirs = u32::from(other.shared) * u32::from(self.union);
        mine > theirs || (mine == theirs && (self.lower, self.higher) < (other.lower, other.higher))
    }
}

/// The best entries so far, the best first, at most k.
pub struct Best {
    k: usize,
    entries: Vec<Entry>,
}

impl Best {
    pub fn new() -> Best {
        Best { k: 0, entries: Vec::with_capacity(64) }
    }

    pub fn start(&mut self, k: u16) {
        self.k = usize::from(k);
        self.entries.clear();
    }

    pub fn found(&self) -> usize {
        self.entries.len()
    }

    /// The k-th entry, if there are k.
    pub fn kth(&self) -> Option<&Entry> {
        self.entries.get(self.k - 1)
    }

    /// Whether an entry goes on the list: there are fewer than k, or the k-th does not go before it.
    fn wants(&self, entry: &Entry) -> bool {
        !self.kth().is_some_and(|last| last.before(entry))
    }

    fn add(&mut self, entry: Entry) {
        if self.wants(&entry) {
            self.insert(entry);
        }
    }

    /// Adds an entry that goes before the k-th, if there are k.
    pub fn insert(&mut self, entry: Entry) {
        let at = self.entries.partition_point(|e| e.before(&entry));
        self.entries.truncate(self.k - 1);
        self.entries.insert(at, entry);
    }

    fn write(&self, list: &mut [u16]) {
        let (front, behind) = list.split_at_mut(ENTRY_WORDS * self.entries.len());
        for (words, e) in front.chunks_exact_mut(ENTRY_WORDS).zip(&self.entries) {
            words.copy_from_slice(&[e.lower, e.higher, e.shared, e.union, e.first]);
        }
        behind.fill(0);
    }
}

/// Every pair, by merging. It gives the list alone: no events and no trail.
pub struct AllPairs {
    best: Best,
}

impl AllPairs {
    pub fn new() -> AllPairs {
        AllPairs { best: Best::new() }
    }

    pub fn join(&mut self, k: u16, offsets: &[u16], codes: &[u16], to: &mut Buffers) -> Option<usize> {
        check(k, offsets, codes).ok()?;
        self.best.start(k);
        for higher in 1..offsets.len() - 1 {
            let ys = context(offsets, codes, higher);
            for lower in 0..higher {
                let xs = context(offsets, codes, lower);
                let shared = shared(xs, ys);
                if shared == 0 {
                    continue;
                }
                // a count does not tell which code is the first: it is looked for in the few that are kept
                let entry = Entry::of(lower, higher, xs.len() + ys.len(), shared, 0);
                if self.best.wants(&entry) {
                    self.best.insert(Entry { first: first_shared(xs, ys), ..entry });
                }
            }
        }
        to.hold_list(&self.best);
        Some(self.best.found())
    }
}

/// A context's next event: `left` of its `size` codes are from that place on.
#[derive(Clone, Copy, PartialEq, Eq)]
struct Event {
    left: u16,
    size: u16,
    context: u16,
}

impl Ord for Event {
    /// The greater event is done first: the higher ceiling, then the smaller context number.
    fn cmp(&self, other: &Event) -> Ordering {
        let mine = u32::from(self.left) * u32::from(other.size);
        let theirs = u32::from(other.left) * u32::from(self.size);
        mine.cmp(&theirs).then(other.context.cmp(&self.context))
    }
}

impl PartialOrd for Event {
    fn partial_cmp(&self, other: &Event) -> Option<Ordering> {
        Some(self.cmp(other))
    }
}

/// A code's posting list: a part of one table, as long as the code has contexts.
#[derive(Clone, Copy, Default)]
struct Postings {
    owners: u16,
    start: u16,
    len: u16,
}

/// A posting: an event done, by its context and the place behind it.
#[derive(Clone, Copy, Default)]
struct Posting {
    context: u16,
    behind: u16,
}

/// topk-join, which starts empty and stops only below the k-th similarity. It keeps its tables
/// from call to call.
pub struct TopkJoin {
    heap: BinaryHeap<Event>,
    by_code: Vec<Postings>,
    postings: Vec<Posting>,
    seen: Vec<u64>,
    best: Best,
}

impl TopkJoin {
    pub fn new() -> TopkJoin {
        TopkJoin {
            heap: BinaryHeap::with_capacity(256),
            by_code: vec![Postings::default(); 4096],
            postings: vec![Posting::default(); 4096],
            seen: Vec::with_capacity(1024),
            best: Best::new(),
        }
    }

    pub fn join(&mut self, k: u16, offsets: &[u16], codes: &[u16], to: &mut Buffers) -> Outcome {
        check(k, offsets, codes)?;
        self.start(k, offsets, codes);
        let outcome = self.search(offsets, codes, &mut to.trail);
        to.hold(&outcome, &self.best);
        outcome
    }

    fn start(&mut self, k: u16, offsets: &[u16], codes: &[u16]) {
        self.best.start(k);
        let contexts = offsets.len() - 1;
        self.seen.clear();
        self.seen.resize((contexts * contexts).div_ceil(64), 0);
        self.heap.clear();
        self.heap.extend(offsets.windows(2).enumerate().filter(|(_, ends)| ends[0] < ends[1]).map(
            |(i, ends)| Event { left: ends[1] - ends[0], size: ends[1] - ends[0], context: i as u16 },
        ));
        self.lay_postings(codes);
    }

    /// Gives each code an empty posting list, with room for as many postings as it has contexts.
    fn lay_postings(&mut self, codes: &[u16]) {
        for &code in codes {
            self.by_code[code as usize] = Postings::default();
        }
        for &code in codes {
            self.by_code[code as usize].owners += 1;
        }
        let mut start = 0;
        for &code in codes {
            let list = &mut self.by_code[code as usize];
            if list.owners > 0 {
                list.start = start;
                start += list.owners;
                list.owners = 0;
            }
        }
    }

    fn search(&mut self, offsets: &[u16], codes: &[u16], trail: &mut [u16]) -> Outcome {
        let contexts = offsets.len() - 1;
        let room = trail.len() / 2;
        let (mut events, mut met) = (0, 0);
        while let Some(mut next) = self.heap.peek_mut() {
            let event = *next;
            if let Some(kth) = self.best.kth() {
                if u32::from(event.left) * u32::from(kth.union) < u32::from(kth.shared) * u32::from(event.size) {
                    break;
                }
            }
            let xs = context(offsets, codes, event.context as usize);
            let place = (event.size - event.left) as usize;
            let list = &mut self.by_code[xs[place] as usize];
            let (start, len) = (list.start as usize, list.len as usize);
            for posting in &self.postings[start..start + len] {
                let lower = event.context.min(posting.context);
                let higher = event.context.max(posting.context);
                let bit = lower as usize * contexts + higher as usize;
                if self.seen[bit / 64] >> (bit % 64) & 1 == 1 {
                    continue;
                }
                self.seen[bit / 64] |= 1 << (bit % 64);
                if met == room {
                    return Err(8);
                }
                trail[2 * met..2 * met + 2].copy_from_slice(&[lower, higher]);
                met += 1;
                let ys = context(offsets, codes, posting.context as usize);
                let shared = 1 + shared(&xs[place + 1..], &ys[posting.behind as usize..]);
                let union = (xs.len() + ys.len()) as u16 - shared;
                self.best.add(Entry { lower, higher, shared, union, first: xs[place] });
            }
            self.postings[start + len] = Posting { context: event.context, behind: place as u16 + 1 };
            list.len += 1;
            events += 1;
            if event.left == 1 {
                PeekMut::pop(next);
            } else {
                next.left -= 1;
            }
        }
        Ok(Counts { found: self.best.found(), events, met })
    }
}
