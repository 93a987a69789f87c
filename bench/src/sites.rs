//! The workloads: tables drawn at random from fixed seeds.

pub struct Workload {
    pub contexts: usize,
    pub codes: usize,
    pub types: u64,
    /// A few types are common and most are rare; else all are alike.
    pub skewed: bool,
}

pub const WORKLOADS: [Workload; 6] = [
    even(30, 8, 60),
    even(100, 15, 200),
    even(256, 16, 500),
    even(256, 16, 4000),
    even(20, 200, 1000),
    Workload { contexts: 256, codes: 16, types: 2000, skewed: true },
];

/// The third workload, and its first contexts alone.
pub const GROWTH: [Workload; 5] =
    [even(16, 16, 500), even(32, 16, 500), even(64, 16, 500), even(128, 16, 500), even(256, 16, 500)];

const fn even(contexts: usize, codes: usize, types: u64) -> Workload {
    Workload { contexts, codes, types, skewed: false }
}

pub struct Site {
    pub offsets: Vec<u16>,
    pub codes: Vec<u16>,
}

/// SplitMix64: small, and the same everywhere.
pub struct Random(pub u64);

impl Random {
    pub fn below(&mut self, n: u64) -> u64 {
        self.0 = self.0.wrapping_add(0x9e37_79b9_7f4a_7c15);
        let mut z = self.0;
        z = (z ^ (z >> 30)).wrapping_mul(0xbf58_476d_1ce4_e5b9);
        z = (z ^ (z >> 27)).wrapping_mul(0x94d0_49bb_1331_11eb);
        (z ^ (z >> 31)) % n
    }
}

/// For each rank from 1 on 1,000,000 / rank^1.2, rounded down. It is worked out in whole numbers, so
/// that every machine has the same: the largest w of which w^5 rank^6 is at most 10^30.
fn weights(ranks: u64) -> Vec<u64> {
    let mut weight = 1_000_000u128;
    let of_rank = |rank: u64| {
        while weight.pow(5) * u128::from(rank).pow(6) > 10u128.pow(30) {
            weight -= 1;
        }
        weight as u64
    };
    (1..=ranks).map(of_rank).collect()
}

/// The type of a rank among so many: the ranks are spread over the types, so that the order of the
/// codes says nothing of how common they are. 1,009 and 2,000 have no common factor, so no two ranks
/// have one type.
fn type_of(rank: u64, types: u64) -> u16 {
    (rank * 1009 % types) as u16
}

/// Draws types: evenly, or by the weights of their ranks.
struct Urn {
    types: u64,
    /// For each rank the weights up to it; empty if all are alike.
    sums: Vec<u64>,
}

impl Urn {
    fn of(workload: &Workload) -> Urn {
        let ranks = if workload.skewed { workload.types } else { 0 };
        let mut sum = 0;
        let add = |weight: u64| {
            sum += weight;
            sum
        };
        Urn { types: workload.types, sums: weights(ranks).into_iter().map(add).collect() }
    }

    fn draw(&self, random: &mut Random) -> u16 {
        let Some(&all) = self.sums.last() else {
            return random.below(self.types) as u16;
        };
        let at = random.below(all);
        let below = self.sums.partition_point(|&sum| sum <= at);
        type_of(below as u64 + 1, self.types)
    }
}

/// Adds codes to a context until it has enough.
fn fill(context: &mut Vec<u16>, codes: usize, urn: &Urn, random: &mut Random) {
    while context.len() < codes {
        let code = urn.draw(random);
        if !context.contains(&code) {
            context.push(code);
        }
    }
    context.sort_unstable();
}

impl Workload {
    pub fn name(&self) -> String {
        let skewed = if self.skewed { ", skewed" } else { "" };
        format!("{} x {} of {}{skewed}", self.contexts, self.codes, self.types)
    }

    /// Every code drawn from all types. With `alike`, one context of four is a copy of an earlier
    /// one of which a quarter of the codes are drawn anew.
    pub fn site(&self, alike: bool) -> Site {
        let urn = Urn::of(self);
        let mut random = Random(0x5a2a_4d6b + self.types);
        let mut contexts: Vec<Vec<u16>> = Vec::new();
        for i in 0..self.contexts {
            let mut context = Vec::new();
            if alike && i > 0 && random.below(4) == 0 {
                context.clone_from(&contexts[random.below(i as u64) as usize]);
                for _ in 0..self.codes / 4 {
                    context.swap_remove(random.below(context.len() as u64) as usize);
                }
            }
            fill(&mut context, self.codes, &urn, &mut random);
            contexts.push(context);
        }
        Site::of(&contexts)
    }
}

impl Site {
    pub fn of(contexts: &[Vec<u16>]) -> Site {
        let mut site = Site { offsets: vec![0], codes: Vec::new() };
        for context in contexts {
            site.codes.extend_from_slice(context);
            site.offsets.push(site.codes.len() as u16);
        }
        site
    }

    /// The site as a sheet.
    pub fn sheet(&self, k: u16) -> Vec<u8> {
        let mut text = format!("k={k}\ncontexts={}\n", self.offsets.len() - 1);
        for ends in self.offsets.windows(2) {
            let codes: Vec<String> =
                self.codes[ends[0] as usize..ends[1] as usize].iter().map(u16::to_string).collect();
            text += &format!("c={}\n", codes.join(" "));
        }
        text.into_bytes()
    }
}

#[cfg(test)]
mod tests {
    use super::*;

    fn skewed() -> &'static Workload {
        WORKLOADS.iter().find(|workload| workload.skewed).unwrap()
    }

    fn contexts(site: &Site) -> Vec<&[u16]> {
        site.offsets.windows(2).map(|ends| &site.codes[ends[0] as usize..ends[1] as usize]).collect()
    }

    /// How many contexts have the type of a rank.
    fn owners(site: &Site, rank: u64) -> usize {
        let code = type_of(rank, skewed().types);
        contexts(site).iter().filter(|context| context.contains(&code)).count()
    }

    fn checksum(site: &Site) -> u64 {
        site.codes.iter().fold(0, |sum, &code| (31 * sum + u64::from(code)) % 1_000_000_007)
    }

    #[test]
    fn every_site_is_well_formed() {
        for workload in WORKLOADS.iter().chain(&GROWTH) {
            for alike in [false, true] {
                let site = workload.site(alike);
                assert_eq!(site.offsets.len(), workload.contexts + 1);
                assert_eq!(site.offsets[0], 0);
                assert_eq!(site.codes.len(), workload.contexts * workload.codes);
                for context in contexts(&site) {
                    assert_eq!(context.len(), workload.codes);
                    assert!(context.windows(2).all(|two| two[0] < two[1]));
                    assert!(u64::from(context[context.len() - 1]) < workload.types);
                }
            }
        }
    }

    #[test]
    fn growth_is_the_front_of_one_site() {
        let whole = WORKLOADS[2].site(false);
        for workload in &GROWTH {
            let site = workload.site(false);
            assert_eq!(site.codes, whole.codes[..site.codes.len()]);
        }
    }

    #[test]
    fn weights_are_whole_numbers_rounded_down() {
        let weights = weights(2000);
        assert_eq!(weights[..5], [1_000_000, 435_275, 267_580, 189_464, 144_955]);
        assert_eq!(weights[31], 15_625);
        assert_eq!(weights[1999], 109);
    }

    #[test]
    fn every_type_has_a_rank() {
        let mut types: Vec<u16> = (1..=2000).map(|rank| type_of(rank, 2000)).collect();
        types.sort_unstable();
        assert!(types.iter().copied().eq(0..2000));
    }

    #[test]
    fn skewed_sites() {
        assert_eq!(skewed().name(), "256 x 16 of 2000, skewed");
        for (alike, sum) in [(false, 742_189_263), (true, 368_548_607)] {
            let site = skewed().site(alike);
            assert!(owners(&site, 1) >= 240, "{}", owners(&site, 1));
            assert!(owners(&site, 10) < owners(&site, 1) / 2);
            assert!((1001..=2000).map(|rank| owners(&site, rank)).sum::<usize>() < 4096 / 8);
            assert_eq!(checksum(&site), sum);
        }
    }
}
