//! Stronger programs in Rust: topk-join with its heap, its set of pairs and its k-th entry tuned, and
//! every pair by a set of bits or by counting over postings. They check their tables and leave the
//! lent buffers as the plain ones do.

use std::collections::binary_heap::PeekMut;
use std::collections::BinaryHeap;
use std::ops::Range;

use crate::plain::{self, check, context, first_shared, Best, Buffers, Counts, Entry, Outcome};

/// The merge, as a function of its own in the program too, or else its loop shares the registers
/// with the one around it.
#[inline(never)]
fn shared(xs: &[u16], ys: &[u16]) -> u16 {
    plain::shared(xs, ys)
}

/// Stands for the k-th entry while there are fewer: a pair that shares a code goes before it, a
/// pair that shares none does not.
const NONE: Entry = Entry { lower: 0, higher: 0, shared: 0, union: 1, first: 0 };

/// The best entries with the k-th beside them, since it alone turns nearly every pair away.
struct Leaders {
    best: Best,
    kth: Entry,
}

impl Leaders {
    fn new() -> Leaders {
        Leaders { best: Best::new(), kth: NONE }
    }

    fn start(&mut self, k: u16) {
        self.best.start(k);
        self.kth = NONE;
    }

    fn add(&mut self, entry: Entry) {
        if self.wants(&entry) {
            self.insert(entry);
        }
    }

    fn wants(&self, entry: &Entry) -> bool {
        !self.kth.before(entry)
    }

    #[cold]
    fn insert(&mut self, entry: Entry) {
        self.best.insert(entry);
        self.kth = self.best.kth().copied().unwrap_or(NONE);
    }
}

/// The codes of one context as bits.
struct Bits([u64; 64]);

impl Bits {
    fn of(context: &[u16]) -> Bits {
        let mut bits = [0; 64];
        for &code in context {
            bits[usize::from(code / 64) % 64] |= 1 << (code % 64);
        }
        Bits(bits)
    }

    /// 1 if the code is among them, or else 0.
    fn test(&self, code: u16) -> u64 {
        self.0[usize::from(code / 64) % 64] >> (code % 64) & 1
    }

    /// How many codes of a context are among them: one test a code.
    fn shared(&self, context: &[u16]) -> u16 {
        context.iter().map(|&code| self.test(code)).sum::<u64>() as u16
    }

    /// The first code of a context that is among them, if any is.
    fn first(&self, context: &[u16]) -> u16 {
        context.iter().copied().find(|&code| self.test(code) == 1).unwrap_or(0)
    }
}

/// A code's posting list: where it stands in the one table.
#[derive(Clone, Copy, Default)]
struct Postings {
    start: u16,
    end: u16,
}

impl Postings {
    fn places(self) -> Range<usize> {
        usize::from(self.start)..usize::from(self.end)
    }
}

/// Gives each code an empty posting list, with room for as many postings as it has contexts.
fn lay_postings(by_code: &mut [Postings], codes: &[u16]) {
    let types = codes.iter().max().map_or(0, |&most| usize::from(most) + 1);
    let by_code = &mut by_code[..types];
    by_code.fill(Postings::default());
    for &code in codes {
        by_code[usize::from(code)].end += 1;
    }
    let mut start = 0;
    for list in by_code {
        let owners = list.end;
        *list = Postings { start, end: start };
        start += owners;
    }
}

/// How many codes each context shares with the one at hand, and which of them share any.
struct Tally {
    shared: [u16; 256],
    touched: [u8; 256],
    len: usize,
}

impl Tally {
    /// Counts one more code of each of these contexts. A context is written behind the touched ones
    /// in any case, and stays there if it is new.
    fn count(&mut self, contexts: &[u8]) {
        for &there in contexts {
            let shared = &mut self.shared[usize::from(there)];
            self.touched[self.len % 256] = there;
            self.len += usize::from(*shared == 0);
            *shared += 1;
        }
    }

    /// Hands each context that shares any code over with its count, and is empty again.
    fn drain(&mut self, mut each: impl FnMut(usize, u16)) {
        for &there in &self.touched[..self.len] {
            let there = usize::from(there);
            each(there, std::mem::take(&mut self.shared[there]));
        }
        self.len = 0;
    }
}

/// Every pair, by bits or by postings. It gives the list alone: no events and no trail. It keeps its
/// tables from call to call.
pub struct TunedPairs {
    by_code: Vec<Postings>,
    /// The postings: the contexts so far that have the code.
    owners: Vec<u8>,
    tally: Tally,
    leaders: Leaders,
}

impl TunedPairs {
    pub fn new() -> TunedPairs {
        TunedPairs {
            by_code: vec![Postings::default(); 4096],
            owners: vec![0; 4096],
            tally: Tally { shared: [0; 256], touched: [0; 256], len: 0 },
            leaders: Leaders::new(),
        }
    }

    /// Marks the codes of each context once, and tests those of every earlier one.
    pub fn by_bits(&mut self, k: u16, offsets: &[u16], codes: &[u16], to: &mut Buffers) -> Option<usize> {
        check(k, offsets, codes).ok()?;
        self.leaders.start(k);
        for higher in 1..offsets.len() - 1 {
            let ys = context(offsets, codes, higher);
            // an empty context is in no pair; with another one it would not even have a union
            if ys.is_empty() {
                continue;
            }
            let bits = Bits::of(ys);
            for lower in 0..higher {
                let xs = context(offsets, codes, lower);
                let entry = Entry::of(lower, higher, xs.len() + ys.len(), bits.shared(xs), 0);
                // counting does not tell which code is the first: it is looked for in the few that are kept
                if self.leaders.wants(&entry) {
                    self.leaders.insert(Entry { first: bits.first(xs), ..entry });
                }
            }
        }
        to.hold_list(&self.leaders.best);
        Some(self.leaders.best.found())
    }

    /// Counts for each context the codes of every earlier one that it meets in its postings, so that
    /// a pair that shares none costs nothing.
    pub fn by_postings(&mut self, k: u16, offsets: &[u16], codes: &[u16], to: &mut Buffers) -> Option<usize> {
        check(k, offsets, codes).ok()?;
        self.leaders.start(k);
        lay_postings(&mut self.by_code, codes);
        for higher in 0..offsets.len() - 1 {
            let ys = context(offsets, codes, higher);
            self.pass(higher, ys);
            self.tally.drain(|lower, shared| {
                let xs = context(offsets, codes, lower);
                let entry = Entry::of(lower, higher, xs.len() + ys.len(), shared, 0);
                if self.leaders.wants(&entry) {
                    self.leaders.insert(Entry { first: first_shared(xs, ys), ..entry });
                }
            });
        }
        to.hold_list(&self.leaders.best);
        Some(self.leaders.best.found())
    }

    /// Counts the earlier owners of each code of a context, and adds the context to them.
    fn pass(&mut self, here: usize, codes: &[u16]) {
        for &code in codes {
            let list = &mut self.by_code[usize::from(code)];
            self.tally.count(&self.owners[list.places()]);
            self.owners[usize::from(list.end)] = here as u8;
            list.end += 1;
        }
    }
}

/// A context's next event as one number, the greater the earlier it is done: first its ceiling,
/// then 255 less the context, then how many of the codes are left.
#[derive(Clone, Copy, PartialEq, Eq, PartialOrd, Ord)]
struct Event(u64);

impl Event {
    /// Of sizes to 4,096, two ceilings differ by at least one part in 2^24, or not at all; so
    /// rounding down to such parts keeps their order.
    fn of(context: usize, size: usize, left: usize) -> Event {
        let ceiling = ((left as u64) << 24) / size as u64;
        Event(ceiling << 32 | (255 - context as u64) << 16 | left as u64)
    }

    fn context(self) -> usize {
        255 - (self.0 >> 16 & 255) as usize
    }

    fn left(self) -> usize {
        (self.0 & 0xffff) as usize
    }
}

/// A posting: an event done, by its context and the place behind it.
#[derive(Clone, Copy, Default)]
struct Posting {
    context: u16,
    behind: u16,
}

/// The pairs that have met, both ways round: a row of bits for each context.
struct Seen {
    rows: Vec<[u64; 4]>,
}

impl Seen {
    fn start(&mut self, contexts: usize) {
        self.rows.clear();
        self.rows.resize(contexts, [0; 4]);
    }

    fn has(&self, a: usize, b: usize) -> bool {
        self.rows[a][b / 64 % 4] >> (b % 64) & 1 == 1
    }

    fn note(&mut self, a: usize, b: usize) {
        self.rows[a][b / 64 % 4] |= 1 << (b % 64);
        self.rows[b][a / 64 % 4] |= 1 << (a % 64);
    }
}

/// topk-join tuned, which starts empty and stops only below the k-th similarity. It keeps its tables
/// from call to call.
pub struct TunedJoin {
    heap: BinaryHeap<Event>,
    by_code: Vec<Postings>,
    postings: Vec<Posting>,
    seen: Seen,
    leaders: Leaders,
}

impl TunedJoin {
    pub fn new() -> TunedJoin {
        TunedJoin {
            heap: BinaryHeap::with_capacity(256),
            by_code: vec![Postings::default(); 4096],
            postings: vec![Posting::default(); 4096],
            seen: Seen { rows: Vec::with_capacity(256) },
            leaders: Leaders::new(),
        }
    }

    pub fn join(&mut self, k: u16, offsets: &[u16], codes: &[u16], to: &mut Buffers) -> Outcome {
        check(k, offsets, codes)?;
        self.start(k, offsets, codes);
        let outcome = self.search(offsets, codes, &mut to.trail);
        to.hold(&outcome, &self.leaders.best);
        outcome
    }

    fn start(&mut self, k: u16, offsets: &[u16], codes: &[u16]) {
        self.leaders.start(k);
        self.seen.start(offsets.len() - 1);
        self.heap.clear();
        let sizes = offsets.windows(2).map(|ends| usize::from(ends[1] - ends[0])).enumerate();
        self.heap.extend(sizes.filter(|&(_, size)| size > 0).map(|(i, size)| Event::of(i, size, size)));
        lay_postings(&mut self.by_code, codes);
    }

    fn search(&mut self, offsets: &[u16], codes: &[u16], trail: &mut [u16]) -> Outcome {
        let (mut events, mut met) = (0, 0);
        while let Some(mut next) = self.heap.peek_mut() {
            let (here, left) = (next.context(), next.left());
            let xs = context(offsets, codes, here);
            let kth = self.leaders.kth;
            if left * usize::from(kth.union) < usize::from(kth.shared) * xs.len() {
                break;
            }
            let place = xs.len() - left;
            let list = &mut self.by_code[usize::from(xs[place])];
            for posting in &self.postings[list.places()] {
                let there = usize::from(posting.context);
                if self.seen.has(here, there) {
                    continue;
                }
                self.seen.note(here, there);
                let ys = context(offsets, codes, there);
                let shared = 1 + shared(&xs[place + 1..], &ys[usize::from(posting.behind)..]);
                let entry = Entry::of(here, there, xs.len() + ys.len(), shared, xs[place]);
                let Some(room) = trail.get_mut(2 * met..2 * met + 2) else {
                    return Err(8);
                };
                room.copy_from_slice(&[entry.lower, entry.higher]);
                met += 1;
                self.leaders.add(entry);
            }
            self.postings[usize::from(list.end)] = Posting { context: here as u16, behind: place as u16 + 1 };
            list.end += 1;
            events += 1;
            if left == 1 {
                PeekMut::pop(next);
            } else {
                *next = Event::of(here, xs.len(), left - 1);
            }
        }
        Ok(Counts { found: self.leaders.best.found(), events, met })
    }
}

#[cfg(test)]
mod tests {
    use super::*;
    use crate::sites::Random;

    #[test]
    fn events_are_in_order() {
        let mut random = Random(2);
        for _ in 0..100_000 {
            let mut draw = |context: u64| {
                let size = 4096 - random.below(64) * random.below(64);
                let left = if random.below(2) == 0 { size - random.below(size.min(8)) } else { 1 + random.below(size) };
                (context as usize, size as usize, left as usize)
            };
            let (a, b) = (draw(3), draw(200));
            let (one, two) = (Event::of(a.0, a.1, a.2), Event::of(b.0, b.1, b.2));
            // at the same ceiling the smaller context goes first
            assert_eq!(one > two, a.2 * b.1 >= b.2 * a.1, "{a:?} {b:?}");
            assert_eq!((one.context(), one.left(), two.context(), two.left()), (a.0, a.2, b.0, b.2));
        }
    }
}
