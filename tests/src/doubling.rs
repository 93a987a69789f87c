//! The user's law: give every type a second code, and the ratios do not move. Each code c becomes 2c and 2c + 1, so
//! that every context has twice as many types, and every pair shares twice as many. The first code that a pair shares
//! is then 2c: the smaller of the two that its first shared code c has become.

use crate::paper::EntryWords;
use crate::random::{self, Contexts, Random};

/// What a site may have so that it can be doubled within the limits of the join.
pub const MOST_CODES: usize = 2_048;
const GREATEST_CODE: u16 = 2_047;

/// The site with a second code for every type.
pub fn doubled(site: &[Vec<u16>]) -> Contexts {
    site.iter().map(|context| context.iter().flat_map(|&code| [2 * code, 2 * code + 1]).collect()).collect()
}

/// An entry of the list of the doubled site, from that of the site itself: the same contexts, twice as many shared and
/// in the union, and the first of the two codes that the first shared code has become.
pub fn doubled_entry([lower, higher, shared, union, first_code]: EntryWords) -> EntryWords {
    [lower, higher, 2 * shared, 2 * union, 2 * first_code]
}

/// All types of a site, rising.
fn types(site: &[Vec<u16>]) -> Vec<u16> {
    let mut types: Vec<u16> = site.concat();
    types.sort_unstable();
    types.dedup();
    types
}

/// The site with its types numbered anew from 0, in the same order.
fn renumbered(site: &[Vec<u16>]) -> Contexts {
    let types = types(site);
    let number = |code: &u16| types.binary_search(code).expect("a type of the site") as u16;
    site.iter().map(|context| context.iter().map(number).collect()).collect()
}

/// The site without every other type.
fn thinned(site: &[Vec<u16>]) -> Contexts {
    let kept: Vec<u16> = types(site).into_iter().step_by(2).collect();
    let keep = |context: &Vec<u16>| context.iter().copied().filter(|code| kept.binary_search(code).is_ok()).collect();
    site.iter().map(keep).collect()
}

/// The site up to its 2,048th code; the contexts behind it are left empty.
fn cut(site: &[Vec<u16>]) -> Contexts {
    let mut left = MOST_CODES;
    let mut take = |context: &Vec<u16>| {
        let taken = context[..context.len().min(left)].to_vec();
        left -= taken.len();
        taken
    };
    site.iter().map(&mut take).collect()
}

/// The site as it is if it can be doubled, or else one much like it that can.
pub fn can_be_doubled(mut site: Contexts) -> Contexts {
    if site.concat().len() > MOST_CODES {
        site = cut(&thinned(&site));
    }
    if site.concat().iter().any(|&code| code > GREATEST_CODE) {
        site = renumbered(&site);
    }
    site
}

/// A site to be doubled: of this large kind, or a small one.
pub fn some_site(random: &mut Random, large: Option<usize>) -> Contexts {
    can_be_doubled(random::some_site(random, large))
}

/// The number of events of the doubled site, from that of the site itself, the sizes of its contexts, and the
/// similarity of the k-th listed pair as (shared, union), if k are found.
///
/// Place i of a context becomes the places 2i - 1, whose ceiling is the same, and 2i, whose ceiling is lower by half a
/// type. So each event becomes two, but for the last one of a context: where its ceiling reaches the cut-off with less
/// than half a type to spare, the second of its two does not. With no cut-off all places are events.
pub fn events_doubled(events: u64, sizes: &[usize], cut_off: Option<(usize, usize)>) -> u64 {
    let Some((shared, union)) = cut_off else { return 2 * events };
    let scarce = |size: usize| {
        let over = shared * size % union;
        size > 0 && (over == 0 || 2 * over > union)
    };
    2 * events - sizes.iter().filter(|&&size| scarce(size)).count() as u64
}

#[cfg(test)]
mod tests {
    use super::*;
    use crate::paper::{self, entry_words, Survey};
    use crate::random::{large_site, small_site, KINDS};
    use crate::random::{slices, tables, LARGE_KINDS};

    #[test]
    fn each_type_gets_a_second_code() {
        assert_eq!(doubled(&[vec![1, 3], vec![], vec![0, 2047]]), [vec![2, 3, 6, 7], vec![], vec![0, 1, 4094, 4095]]);
    }

    #[test]
    fn a_site_that_cannot_be_doubled_is_made_smaller() {
        let small = vec![vec![4, 2047], vec![], vec![4]];
        assert_eq!(can_be_doubled(small.clone()), small);
        assert_eq!(can_be_doubled(vec![vec![9, 2048], vec![7], vec![9]]), [vec![1, 2], vec![0], vec![1]]);
        let one = can_be_doubled(vec![vec![], (0..4096).collect()]);
        assert_eq!(one, [vec![], (0..2048).collect::<Vec<u16>>()]);
        // 2,080 of 4,160 codes are left by every other type, and 32 of them are too many.
        let many = can_be_doubled(vec![(0..32).collect(); 130]);
        assert_eq!((many.concat().len(), many[127].len(), many[128].len()), (2048, 16, 0));
    }

    /// A law of pairs is not tried by sites that have none.
    #[test]
    fn most_sites_have_pairs_to_move() {
        let mut random = Random::new(1);
        let sites: Vec<Contexts> = (0..600).map(|_| some_site(&mut random, None)).collect();
        let pairs = |least: usize| sites.iter().filter(|site| Survey::new(&slices(site)).sharing() >= least).count();
        assert!(pairs(1) > 400 && pairs(2) > 300 && pairs(20) > 50, "{} {} {}", pairs(1), pairs(2), pairs(20));
        for kind in 0..LARGE_KINDS {
            let site = some_site(&mut random, Some(kind));
            assert!(kind == 5 || Survey::new(&slices(&site)).sharing() > 0, "large kind {kind}");
        }
    }

    #[test]
    fn every_site_fits_the_join_when_doubled() {
        let mut random = Random::new(2);
        for kind in 0..LARGE_KINDS {
            let site = can_be_doubled(large_site(&mut random, kind));
            let (offsets, codes) = tables(&doubled(&site));
            assert_eq!(paper::judge(1, &offsets, &codes), Ok(()), "large kind {kind}");
        }
    }

    /// The sheet of the lesson's first example. Cut-off 4/5 leaves 1, 2 and 1 events of contexts with 4, 5 and 4 types;
    /// doubled 2 of 8, 3 of 10 and 2 of 8, as 7/8 and 8/10 reach it, and 6/8 and 7/10 do not.
    #[test]
    fn events_of_the_first_example_are_counted_by_hand() {
        assert_eq!(events_doubled(4, &[4, 5, 4], Some((4, 5))), 7);
        assert_eq!(events_doubled(13, &[4, 5, 4], None), 26);
    }

    /// Contexts 0 and 1 of that sheet share 2, 3, 4 and 5 of 5 types; doubled, the first of them is 4.
    #[test]
    fn an_entry_of_the_first_example_is_doubled_by_hand() {
        assert_eq!(doubled_entry([0, 1, 4, 5, 2]), [0, 1, 8, 10, 4]);
        assert_eq!(doubled_entry([0, 255, 1, 4095, 2047]), [0, 255, 2, 8190, 4094]);
        assert_eq!(doubled_entry([3, 4, 1, 1, 0]), [3, 4, 2, 2, 0]);
    }

    fn found(pairs: &[paper::Pair]) -> Vec<EntryWords> {
        pairs.iter().map(entry_words).collect()
    }

    fn twice(pairs: &[paper::Pair]) -> Vec<EntryWords> {
        found(pairs).into_iter().map(doubled_entry).collect()
    }

    /// The paper itself keeps the law, for every k up to one more than the pairs there are.
    fn keeps_the_law(site: &[Vec<u16>], ks: impl Fn(usize) -> Vec<usize>) {
        let twofold = doubled(site);
        let (one, two) = (slices(site), slices(&twofold));
        let (one_survey, two_survey) = (Survey::new(&one), Survey::new(&two));
        let sizes: Vec<usize> = site.iter().map(Vec::len).collect();
        for k in ks(one_survey.sharing()) {
            let (once, again) = (one_survey.find(k), two_survey.find(k));
            assert_eq!(found(&again.list), twice(&once.list), "the list of {site:?} at k={k}");
            assert_eq!(found(&again.trail), twice(&once.trail), "the trail of {site:?} at k={k}");
            let cut_off = once.list.get(k - 1).map(|pair| (pair.shared, pair.union));
            let events = events_doubled(once.events as u64, &sizes, cut_off);
            assert_eq!(again.events as u64, events, "the events of {site:?} at k={k}");
        }
    }

    #[test]
    fn the_paper_keeps_the_law_on_small_sites() {
        let mut random = Random::new(3);
        for trial in 0..6_000 {
            let site = can_be_doubled(small_site(&mut random, trial % KINDS));
            keeps_the_law(&site, |sharing| (1..=(sharing + 1).min(64)).collect());
        }
    }

    #[test]
    fn the_paper_keeps_the_law_on_large_sites() {
        let mut random = Random::new(4);
        for kind in 0..LARGE_KINDS {
            let site = can_be_doubled(large_site(&mut random, kind));
            keeps_the_law(&site, |sharing| [1, 2, 10, 64].into_iter().filter(|&k| k <= sharing + 1).collect());
        }
    }
}
