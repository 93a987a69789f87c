//! Every program beside the answer by the definitions.

use crate::plain::{context, AllPairs, Buffers, Counts, Outcome, TopkJoin, ENTRY_WORDS};
use crate::sites::{Random, Site};
use crate::tuned::{TunedJoin, TunedPairs};

type Topk = Box<dyn FnMut(u16, &Site, &mut Buffers) -> Outcome>;
type Pairs = Box<dyn FnMut(u16, &Site, &mut Buffers) -> Option<usize>>;

/// Both topk-joins, each with tables that it keeps from call to call.
fn topk_joins() -> [(&'static str, Topk); 2] {
    let (mut plain, mut tuned) = (TopkJoin::new(), TunedJoin::new());
    [
        ("plain", Box::new(move |k, site, to| plain.join(k, &site.offsets, &site.codes, to))),
        ("tuned", Box::new(move |k, site, to| tuned.join(k, &site.offsets, &site.codes, to))),
    ]
}

/// The three all-pairs, likewise.
fn all_pairs() -> [(&'static str, Pairs); 3] {
    let (mut merging, mut bits, mut postings) = (AllPairs::new(), TunedPairs::new(), TunedPairs::new());
    [
        ("by merging", Box::new(move |k, site, to| merging.join(k, &site.offsets, &site.codes, to))),
        ("by bits", Box::new(move |k, site, to| bits.by_bits(k, &site.offsets, &site.codes, to))),
        ("by postings", Box::new(move |k, site, to| postings.by_postings(k, &site.offsets, &site.codes, to))),
    ]
}

/// With room for every pair of 14 contexts.
fn buffers(k: u16) -> Buffers {
    Buffers { list: vec![7; ENTRY_WORDS * k as usize], work: vec![7; 10240], trail: vec![7; 2 * 91] }
}

/// The words, with zeros behind them.
fn holds(buffer: &[u16], words: &[u16]) -> bool {
    buffer.starts_with(words) && buffer[words.len()..].iter().all(|&word| word == 0)
}

fn three() -> Site {
    Site::of(&[vec![2, 3, 4, 5], vec![1, 2, 3, 4, 5], vec![1, 2, 3, 4]])
}

#[test]
fn three_contexts() {
    let list = [0, 1, 4, 5, 2, 1, 2, 4, 5, 1, 0, 2, 3, 5, 2];
    let cases: [(u16, usize, usize, &[u16]); 4] = [
        (1, 1, 4, &[1, 2, 0, 1]),
        (2, 2, 4, &[1, 2, 0, 1]),
        (3, 3, 7, &[1, 2, 0, 1, 0, 2]),
        (4, 3, 13, &[1, 2, 0, 1, 0, 2]),
    ];
    for (k, found, events, trail) in cases {
        for (name, mut join) in topk_joins() {
            let mut to = buffers(k);
            let outcome = join(k, &three(), &mut to);
            assert_eq!(outcome, Ok(Counts { found, events, met: trail.len() / 2 }), "{name}, k {k}");
            assert!(holds(&to.trail, trail) && holds(&to.work, &[]), "{name}, k {k}");
            assert!(holds(&to.list, &list[..5 * found]), "{name}, k {k}");
        }
        for (name, mut join) in all_pairs() {
            let mut to = buffers(k);
            assert_eq!(join(k, &three(), &mut to), Some(found), "{name}, k {k}");
            assert!(holds(&to.list, &list[..5 * found]), "{name}, k {k}");
        }
    }
}

#[test]
fn no_room_on_the_trail() {
    for (name, mut join) in topk_joins() {
        let mut to = buffers(1);
        to.trail.truncate(3);
        assert_eq!(join(1, &three(), &mut to), Err(8), "{name}");
        assert!(to.list.iter().chain(&to.trail).chain(&to.work).all(|&word| word == 0), "{name}");
    }
}

#[test]
fn refusals() {
    let falling = Site::of(&[vec![1, 2], vec![4, 3]]);
    let cases = [(0, three(), 1), (65, three(), 1), (1, falling, 2), (1, Site::of(&[vec![4096]]), 2)];
    for (k, site, number) in cases {
        for (name, mut join) in topk_joins() {
            assert_eq!(join(k, &site, &mut buffers(64)), Err(number), "{name}");
        }
        for (name, mut join) in all_pairs() {
            assert_eq!(join(k, &site, &mut buffers(64)), None, "{name}");
        }
    }
}

/// The answer by the paper's definitions, with no search: list, events and trail.
fn defined(k: usize, site: &Site) -> (Vec<u16>, usize, Vec<u16>) {
    let contexts = site.offsets.len() - 1;
    let of = |i: usize| context(&site.offsets, &site.codes, i);
    let above = |a: (usize, usize), b: (usize, usize)| (b.0 * a.1).cmp(&(a.0 * b.1));
    let mut pairs = Vec::new();
    for lower in 0..contexts {
        for higher in lower + 1..contexts {
            let common: Vec<u16> = of(lower).iter().copied().filter(|c| of(higher).contains(c)).collect();
            if let Some(first) = common.iter().min() {
                let event = |i: usize| {
                    let place = of(i).iter().position(|c| c == first).unwrap();
                    (of(i).len() - place, of(i).len(), i)
                };
                let union = of(lower).len() + of(higher).len() - common.len();
                pairs.push((lower, higher, common.len(), union, event(lower), event(higher), *first as usize));
            }
        }
    }
    pairs.sort_by(|a, b| above((a.2, a.3), (b.2, b.3)).then((a.0, a.1).cmp(&(b.0, b.1))));
    let cut = pairs.get(k - 1).map(|p| (p.2, p.3));
    let reaches = |left: usize, size: usize| cut.is_none_or(|s| left * s.1 >= s.0 * size);
    let events = (0..contexts)
        .map(|i| (1..=of(i).len()).filter(|&left| reaches(left, of(i).len())).count())
        .sum();
    let order = |a: &(usize, usize, usize), b: &(usize, usize, usize)| {
        above((a.0, a.1), (b.0, b.1)).then(a.2.cmp(&b.2))
    };
    let mut met: Vec<_> = pairs
        .iter()
        .filter(|p| reaches(p.4 .0, p.4 .1) && reaches(p.5 .0, p.5 .1))
        .map(|p| {
            let (first, second) = if order(&p.4, &p.5).is_lt() { (p.4, p.5) } else { (p.5, p.4) };
            (second, first, p.0, p.1)
        })
        .collect();
    met.sort_by(|a, b| order(&a.0, &b.0).then(order(&a.1, &b.1)));
    let list = pairs.iter().take(k).flat_map(|p| [p.0, p.1, p.2, p.3, p.6].map(|w| w as u16)).collect();
    (list, events, met.iter().flat_map(|p| [p.2 as u16, p.3 as u16]).collect())
}

/// To 13 contexts, some of them empty.
fn drawn(random: &mut Random) -> Site {
    let types = 1 + random.below(30);
    let contexts: Vec<Vec<u16>> = (0..random.below(14))
        .map(|_| {
            let rate = random.below(8);
            (0..types as u16).filter(|_| random.below(8) < rate).collect()
        })
        .collect();
    Site::of(&contexts)
}

#[test]
fn random_sites() {
    let mut random = Random(1);
    let (mut topk_joins, mut all_pairs) = (topk_joins(), all_pairs());
    for _ in 0..3000 {
        let site = drawn(&mut random);
        let k = 1 + random.below(64).min(random.below(64)) as u16;
        let (list, events, trail) = defined(k as usize, &site);
        let counts = Counts { found: list.len() / ENTRY_WORDS, events, met: trail.len() / 2 };
        for (name, join) in &mut topk_joins {
            let mut to = buffers(k);
            assert_eq!(join(k, &site, &mut to), Ok(counts), "{name}");
            assert!(holds(&to.list, &list), "{name}: list");
            assert!(holds(&to.trail, &trail), "{name}: trail");
            assert!(holds(&to.work, &[]), "{name}: work area");
        }
        for (name, join) in &mut all_pairs {
            let mut to = buffers(k);
            assert_eq!(join(k, &site, &mut to), Some(counts.found), "{name}");
            assert!(holds(&to.list, &list), "{name}: list");
            assert!(holds(&to.trail, &[]) && holds(&to.work, &[]), "{name}: zeros");
        }
    }
}
