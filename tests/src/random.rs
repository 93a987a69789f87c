//! Numbers that look random and are the same in every run, and the random sites and sheets made with them.

/// The splitmix64 generator: one word of state, good enough to shuffle tables.
#[derive(Clone)]
pub struct Random {
    state: u64,
}

impl Random {
    pub fn new(seed: u64) -> Random {
        Random { state: seed }
    }

    /// The next 64 bits.
    pub fn next(&mut self) -> u64 {
        self.state = self.state.wrapping_add(0x9E37_79B9_7F4A_7C15);
        let mut z = self.state;
        z = (z ^ (z >> 30)).wrapping_mul(0xBF58_476D_1CE4_E5B9);
        z = (z ^ (z >> 27)).wrapping_mul(0x94D0_49BB_1331_11EB);
        z ^ (z >> 31)
    }

    /// A number from 0 up to, and without, the bound.
    pub fn below(&mut self, bound: usize) -> usize {
        assert!(bound > 0, "no number is below 0");
        (self.next() % bound as u64) as usize
    }

    /// A number from `low` to `high`, both included.
    pub fn between(&mut self, low: usize, high: usize) -> usize {
        low + self.below(high - low + 1)
    }

    /// True once in `n` times.
    pub fn once_in(&mut self, n: usize) -> bool {
        self.below(n) == 0
    }

    /// One of the things.
    pub fn pick<'a, T>(&mut self, things: &'a [T]) -> &'a T {
        &things[self.below(things.len())]
    }

    /// `len` words of junk. Some junk is all zero, some all ones, so that neither is safe to count on.
    pub fn junk_words(&mut self, len: usize) -> Vec<u16> {
        match self.below(8) {
            0 => vec![0; len],
            1 => vec![0xFFFF; len],
            2 => (0..len).map(|i| i as u16).collect(),
            _ => {
                let mut words = Vec::with_capacity(len + 4);
                while words.len() < len {
                    let bits = self.next();
                    words.extend([bits as u16, (bits >> 16) as u16, (bits >> 32) as u16, (bits >> 48) as u16]);
                }
                words.truncate(len);
                words
            }
        }
    }

    /// `len` bytes of junk.
    pub fn junk_bytes(&mut self, len: usize) -> Vec<u8> {
        match self.below(6) {
            0 => vec![0; len],
            1 => vec![b'0'; len],
            _ => {
                let mut bytes = Vec::with_capacity(len + 8);
                while bytes.len() < len {
                    bytes.extend(self.next().to_le_bytes());
                }
                bytes.truncate(len);
                bytes
            }
        }
    }
}

/// The seed of one trial: a trial can be run alone, without those before it.
pub fn seed_of(run: u64, trial: u64) -> u64 {
    Random::new(run ^ trial.wrapping_mul(0xD1B5_4A32_D192_ED03)).next()
}

/// A site as a list of contexts, each a rising list of codes.
pub type Contexts = Vec<Vec<u16>>;

/// The tables of a site: offsets and codes. (Broken sites are made from sound tables, afterwards.)
pub fn tables(contexts: &[Vec<u16>]) -> (Vec<u16>, Vec<u16>) {
    let mut offsets = vec![0u16];
    let mut codes = Vec::new();
    for context in contexts {
        codes.extend(context);
        offsets.push(u16::try_from(codes.len()).expect("a made site has few codes"));
    }
    (offsets, codes)
}

/// The contexts of a site, to look at.
pub fn slices(contexts: &[Vec<u16>]) -> Vec<&[u16]> {
    contexts.iter().map(Vec::as_slice).collect()
}

/// A context of `size` different codes out of `pool`, rising.
fn subset(random: &mut Random, pool: &[u16], size: usize) -> Vec<u16> {
    let mut left = pool.to_vec();
    let mut taken: Vec<u16> = Vec::new();
    for _ in 0..size.min(pool.len()) {
        let at = random.below(left.len());
        taken.push(left.swap_remove(at));
    }
    taken.sort_unstable();
    taken
}

/// `size` different codes of 0 to 4095, rising.
fn pool(random: &mut Random, size: usize) -> Vec<u16> {
    match random.below(4) {
        0 => (0..size as u16).collect(),
        1 => (0..size as u16).map(|i| 4095 - i).rev().collect(),
        _ => {
            let all: Vec<u16> = (0..4096).collect();
            subset(random, &all, size)
        }
    }
}

/// How many kinds of small sites `small_site` knows.
pub const KINDS: usize = 12;

/// A small sound site of the given kind.
pub fn small_site(random: &mut Random, kind: usize) -> Contexts {
    match kind {
        // Few contexts over few codes.
        0 | 1 => {
            let most = random.between(1, 8);
            let pool = pool(random, most);
            (0..random.between(0, 7))
                .map(|_| {
                    let n = random.between(0, pool.len());
                    subset(random, &pool, n)
                })
                .collect()
        }
        // Contexts of one code each: all similarities and ceilings are 1.
        2 => {
            let most = random.between(1, 4);
            let pool = pool(random, most);
            (0..random.between(1, 14)).map(|_| subset(random, &pool, 1)).collect()
        }
        // A few contexts, each many times over.
        3 => {
            let most = random.between(1, 7);
            let pool = pool(random, most);
            let moulds: Contexts = (0..random.between(1, 3))
                .map(|_| {
                    let n = random.between(0, pool.len());
                    subset(random, &pool, n)
                })
                .collect();
            (0..random.between(1, 12)).map(|_| random.pick(&moulds).clone()).collect()
        }
        // Mostly empty contexts.
        4 => {
            let pool = pool(random, 4);
            (0..random.between(1, 12))
                .map(|_| {
                    if random.once_in(3) {
                        let n = random.between(1, 4);
                        subset(random, &pool, n)
                    } else {
                        Vec::new()
                    }
                })
                .collect()
        }
        // Contexts of one size, so that many ceilings are equal.
        5 => {
            let size = random.between(1, 5);
            let most = size + random.between(1, 5);
            let pool = pool(random, most);
            (0..random.between(2, 9)).map(|_| subset(random, &pool, size)).collect()
        }
        // Contexts of size n and 2n, whose ceilings are equal as fractions and not as numbers.
        6 => {
            let size = random.between(1, 4);
            let most = 3 * size + 2;
            let pool = pool(random, most);
            (0..random.between(2, 9))
                .map(|_| {
                    let n = size * random.between(1, 3);
                    subset(random, &pool, n)
                })
                .collect()
        }
        // Near-equal ratios: n-1 of n shared beside n of n+1, as 99/100 beside 100/101.
        7 => near_ratios(random),
        // Contexts that meet late: they share their last codes only.
        8 => {
            let tail: Vec<u16> = (4000..4000 + random.between(1, 3) as u16).collect();
            (0..random.between(2, 7))
                .map(|i| {
                    let own = 100 * i as u16;
                    let mut context: Vec<u16> = (own..own + random.between(0, 6) as u16).collect();
                    if !random.once_in(4) {
                        context.extend(&tail);
                    }
                    context
                })
                .collect()
        }
        // One big pit that shares with everyone, and small contexts.
        9 => {
            let most = random.between(10, 40);
            let pool = pool(random, most);
            let mut site: Contexts = (0..random.between(2, 10))
                .map(|_| {
                    let n = random.between(1, 5);
                    subset(random, &pool, n)
                })
                .collect();
            let at = random.below(site.len() + 1);
            let size = pool.len() - random.below(4);
            site.insert(at, subset(random, &pool, size));
            site
        }
        // Contexts that share nothing, and whose codes fall from each to the next.
        10 => {
            let mut site: Contexts = (0..random.between(1, 6))
                .map(|i| (0..random.between(0, 3) as u16).map(|j| 10 * i as u16 + j).collect())
                .collect();
            site.reverse();
            if random.once_in(2) && site.len() > 1 {
                let copy = site[0].clone();
                site.push(copy);
            }
            site
        }
        // A middling site.
        _ => {
            let most = random.between(6, 40);
            let pool = pool(random, most);
            let size = random.between(1, 9);
            (0..random.between(5, 24))
                .map(|_| {
                    let n = random.between(0, size);
                    subset(random, &pool, n)
                })
                .collect()
        }
    }
}

/// Pairs that share n-1 of n codes for neighbouring n: equal when rounded, different as fractions.
fn near_ratios(random: &mut Random) -> Contexts {
    let n = if random.once_in(3) { 100 } else { random.between(2, 130) };
    let mut site = Contexts::new();
    for (i, size) in [n, n + 1, n].into_iter().take(random.between(2, 3)).enumerate() {
        let from = 300 * i as u16;
        let whole: Vec<u16> = (from..from + size as u16).collect();
        let mut part = whole.clone();
        part.remove(random.below(size));
        if random.once_in(2) {
            site.extend([whole, part]);
        } else {
            site.extend([part, whole]);
        }
    }
    if random.once_in(2) {
        let (a, b) = (random.below(site.len()), random.below(site.len()));
        site.swap(a, b);
    }
    site
}

/// How many kinds of large sites `large_site` knows.
pub const LARGE_KINDS: usize = 12;

/// The kind of large site that a trial has, if it has one: one trial in `every`, all kinds in turn. This goes by the
/// trial's number alone, so that a trial is the same however many are run.
pub fn large_kind(number: u64, every: u64) -> Option<usize> {
    (number % every == every - 1).then(|| ((number / every) % LARGE_KINDS as u64) as usize)
}

/// A large sound site, of up to 256 contexts and 4096 codes.
pub fn large_site(random: &mut Random, kind: usize) -> Contexts {
    match kind % LARGE_KINDS {
        // 256 contexts of 16 codes, of 500 and of 4000 types.
        0 => {
            let pool = pool(random, 500);
            (0..256).map(|_| subset(random, &pool, 16)).collect()
        }
        1 => {
            let pool = pool(random, 4000);
            (0..256).map(|_| subset(random, &pool, 16)).collect()
        }
        // 256 equal contexts of 16 codes: 32,640 pairs meet at the first event.
        2 => {
            let pool = pool(random, 16);
            vec![pool; 256]
        }
        // 20 contexts of 200 codes.
        3 => {
            let pool = pool(random, 600);
            (0..20).map(|_| subset(random, &pool, 200)).collect()
        }
        // Two contexts of 2048 codes.
        4 => {
            let pool = pool(random, 2600);
            (0..2).map(|_| subset(random, &pool, 2048)).collect()
        }
        // One context that owns all 4096 codes, among empty ones.
        5 => {
            let mut site: Contexts = vec![Vec::new(); 256];
            let at = random.below(256);
            site[at] = (0..4096).collect();
            site
        }
        // 256 contexts of one code out of 20.
        6 => {
            let pool = pool(random, 20);
            (0..256).map(|_| subset(random, &pool, 1)).collect()
        }
        // 30 contexts of 8 codes, 100 of 15.
        7 => {
            let pool = pool(random, 60);
            (0..30).map(|_| subset(random, &pool, 8)).collect()
        }
        8 => {
            let pool = pool(random, 300);
            (0..100).map(|_| subset(random, &pool, 15)).collect()
        }
        // Where the search goes another way: about 32, 64, 110 and 128 contexts, with some of about 48 codes and some
        // long ones.
        9 | 10 => {
            let pool = pool(random, 400);
            let contexts = *random.pick(&[32, 33, 64, 65, 110, 111, 128, 129, 256]);
            let mut left = 4096;
            let mut site = Contexts::new();
            while site.len() < contexts {
                let size = match random.below(40) {
                    0 => random.between(60, 300),
                    1..=4 => random.between(47, 50),
                    _ => random.between(0, 10),
                };
                let size = size.min(left);
                left -= size;
                site.push(subset(random, &pool, size));
            }
            site
        }
        // Uneven sizes, up to 4096 codes in all.
        _ => {
            let pool = pool(random, 300);
            let mut left = 4096;
            let mut site = Contexts::new();
            while site.len() < 256 {
                let size = if site.len() == 255 { left.min(300) } else { random.between(0, 32).min(left) };
                left -= size;
                site.push(subset(random, &pool, size));
            }
            site
        }
    }
}

/// The large site of this kind, or else a small one of any kind.
pub fn some_site(random: &mut Random, large: Option<usize>) -> Contexts {
    match large {
        Some(kind) => large_site(random, kind),
        None => {
            let kind = random.below(KINDS);
            small_site(random, kind)
        }
    }
}
