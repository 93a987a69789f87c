//! Times the join and the host call against programs in Rust, and writes five tables: the join beside
//! plain ones over the workloads as they are drawn, over the same with copies, and against the number
//! of contexts; the join beside tuned ones; then the host call. Every answer is compared before it
//! is timed.

mod calls;
mod clock;
mod listing;
mod plain;
mod sites;
#[cfg(test)]
mod tests;
mod tuned;

use std::hint::black_box;
use std::time::Duration;

use listing::{Lister, REFUSED};
use plain::{AllPairs, Buffers, Counts, Outcome, TopkJoin, ENTRY_WORDS};
use sites::{Site, GROWTH, WORKLOADS};
use tuned::{TunedJoin, TunedPairs};

const KS: [u16; 3] = [1, 10, 64];
/// The k of the tables of growth and of tuned programs.
const ONE_K: u16 = 10;
/// Room for every pair of 256 contexts.
const TRAIL_WORDS: usize = 2 * 32640;
const TEXT_BYTES: usize = 2048;
const ROUNDS: usize = 101;
const ROUND: Duration = Duration::from_millis(1);

/// How often to call in a round: by the shortest of three calls.
fn calls_a_round(call: &mut dyn FnMut()) -> u32 {
    let one = (0..3).map(|_| time(call, 1)).fold(f64::MAX, f64::min);
    (ROUND.as_secs_f64() * 1e6 / one.max(0.2)).clamp(1.0, 100_000.0) as u32
}

/// The processor time of one of so many calls, in microseconds.
fn time(call: &mut dyn FnMut(), calls: u32) -> f64 {
    let start = clock::now();
    for _ in 0..calls {
        call();
    }
    (clock::now() - start).as_secs_f64() * 1e6 / f64::from(calls)
}

/// The times of each contender, round by round. They take turns in a round, and every round starts
/// with another one: so a slow moment of the machine meets them all, and none of them always.
fn rounds(contenders: &mut [&mut dyn FnMut()]) -> Vec<Vec<f64>> {
    let calls: Vec<u32> = contenders.iter_mut().map(|call| calls_a_round(call)).collect();
    let mut times = vec![Vec::new(); contenders.len()];
    for round in 0..ROUNDS {
        for turn in 0..contenders.len() {
            let i = (round + turn) % contenders.len();
            times[i].push(time(contenders[i], calls[i]));
        }
    }
    times
}

fn median(values: impl Iterator<Item = f64>) -> f64 {
    let mut values: Vec<f64> = values.collect();
    values.sort_by(f64::total_cmp);
    values[values.len() / 2]
}

/// The cells of a row: the median time of each contender, then the ratio of the first to each of
/// the others, the median of the rounds' ratios. The first is ours, and left out if not linked.
fn cells(linked: bool, contenders: &mut [&mut dyn FnMut()]) -> String {
    let mut cells = vec!["-".to_string(); 2 * contenders.len() - 1];
    let (medians, ratios) = cells.split_at_mut(contenders.len());
    let first = usize::from(!linked);
    let times = rounds(&mut contenders[first..]);
    for (cell, of_one) in medians[first..].iter_mut().zip(&times) {
        *cell = format!("{:.1}", median(of_one.iter().copied()));
    }
    if linked {
        for (cell, of_one) in ratios.iter_mut().zip(&times[1..]) {
            *cell = format!("{:.2}", median(times[0].iter().zip(of_one).map(|(ours, theirs)| ours / theirs)));
        }
    }
    cells.join(" | ")
}

fn buffers(k: u16) -> Buffers {
    // anything may stand in a buffer at entry
    Buffers { list: vec![7; ENTRY_WORDS * k as usize], work: vec![7; 10240], trail: vec![7; TRAIL_WORDS] }
}

/// A program that joins.
trait Join<Answer>: FnMut(u16, &[u16], &[u16], &mut Buffers) -> Answer {}

impl<Answer, F: FnMut(u16, &[u16], &[u16], &mut Buffers) -> Answer> Join<Answer> for F {}

/// A site to be joined, and the answer of the plain topk-join: that of every other program.
struct Case<'a> {
    name: String,
    k: u16,
    offsets: &'a [u16],
    codes: &'a [u16],
    counts: Counts,
    answer: Buffers,
}

impl<'a> Case<'a> {
    fn of(name: String, k: u16, site: &'a Site) -> Case<'a> {
        let mut answer = buffers(k);
        let outcome = TopkJoin::new().join(k, &site.offsets, &site.codes, &mut answer);
        let counts = outcome.expect("a workload is accepted, and its trail has room");
        Case { name, k, offsets: &site.offsets, codes: &site.codes, counts, answer }
    }

    /// The same counts, list and trail, and the same work area.
    fn compare(&self, program: &str, outcome: Outcome, to: &Buffers) {
        let what = format!("{}, k {}, {program}", self.name, self.k);
        assert_eq!(outcome, Ok(self.counts), "{what}: counts");
        assert_eq!(to.list, self.answer.list, "{what}: list");
        assert_eq!(to.trail, self.answer.trail, "{what}: trail");
        assert_eq!(to.work, self.answer.work, "{what}: work area");
    }

    /// As many found, in the same list, and zeros elsewhere.
    fn compare_pairs(&self, program: &str, found: Option<usize>, to: &Buffers) {
        let what = format!("{}, k {}, {program}", self.name, self.k);
        assert_eq!(found, Some(self.counts.found), "{what}: found");
        assert_eq!(to.list, self.answer.list, "{what}: list");
        assert!(to.work.iter().chain(&to.trail).all(|&word| word == 0), "{what}: zeros");
    }

    /// The call of our join, and whether it is linked. Its answer is compared, if it is.
    fn ours(&self) -> (bool, impl FnMut() + '_) {
        let mut to = buffers(self.k);
        let linked = calls::join(self.k, self.offsets, self.codes, &mut to);
        if let Some(outcome) = linked {
            self.compare("join", outcome, &to);
        }
        let call = move || {
            black_box(calls::join(self.k, black_box(self.offsets), black_box(self.codes), &mut to));
        };
        (linked.is_some(), call)
    }

    /// The call of a topk-join, whose answer is compared.
    fn topk<'b>(&'b self, program: &str, mut join: impl Join<Outcome> + 'b) -> impl FnMut() + 'b {
        let mut to = buffers(self.k);
        self.compare(program, join(self.k, self.offsets, self.codes, &mut to), &to);
        move || {
            black_box(join(self.k, black_box(self.offsets), black_box(self.codes), &mut to)).ok();
        }
    }

    /// The call of an all-pairs, whose answer is compared.
    fn pairs<'b>(&'b self, program: &str, mut join: impl Join<Option<usize>> + 'b) -> impl FnMut() + 'b {
        let mut to = buffers(self.k);
        self.compare_pairs(program, join(self.k, self.offsets, self.codes, &mut to), &to);
        move || {
            black_box(join(self.k, black_box(self.offsets), black_box(self.codes), &mut to));
        }
    }
}

/// A row of a table of joins: the plain peers.
fn join_row(case: &Case) -> String {
    let (mut topk_join, mut all_pairs) = (TopkJoin::new(), AllPairs::new());
    let (linked, mut join) = case.ours();
    let mut topk = case.topk("topk-join", |k, offsets, codes, to| topk_join.join(k, offsets, codes, to));
    let mut merging = case.pairs("all-pairs", |k, offsets, codes, to| all_pairs.join(k, offsets, codes, to));
    let times = cells(linked, &mut [&mut join, &mut topk, &mut merging]);
    format!("| {} | {} | {} | {} | {times} |", case.name, case.k, case.counts.events, case.counts.met)
}

/// A row of the table of tuned programs.
fn tuned_row(case: &Case) -> String {
    let mut tuned_join = TunedJoin::new();
    let (mut by_bits, mut by_postings) = (TunedPairs::new(), TunedPairs::new());
    let (linked, mut join) = case.ours();
    let mut tuned = case.topk("tuned", |k, offsets, codes, to| tuned_join.join(k, offsets, codes, to));
    let mut bits = case.pairs("by bits", |k, offsets, codes, to| by_bits.by_bits(k, offsets, codes, to));
    let mut postings =
        case.pairs("by postings", |k, offsets, codes, to| by_postings.by_postings(k, offsets, codes, to));
    let times = cells(linked, &mut [&mut join, &mut tuned, &mut bits, &mut postings]);
    format!("| {} | {} | {times} |", case.name, case.k)
}

/// A row of the table of listings.
fn listing_row(name: &str, k: u16, site: &Site) -> String {
    let sheet = site.sheet(k);
    let (mut ours, mut theirs) = (vec![7u8; TEXT_BYTES], vec![7u8; TEXT_BYTES]);
    let mut lister = Lister::new();

    let plain = lister.listing(&sheet, &mut theirs);
    let linked = calls::listing(&sheet, &mut ours);
    if let Some(told) = linked {
        assert_eq!(told, plain, "{name}, k {k}: value");
        assert_eq!(ours, theirs, "{name}, k {k}: text");
    }

    let mut plain_call = || {
        black_box(lister.listing(black_box(&sheet), &mut theirs));
    };
    let mut call = || {
        black_box(calls::listing(black_box(&sheet), &mut ours));
    };
    let answer = match plain.checked_sub(REFUSED) {
        Some(number) => format!("refusal {number}"),
        None => format!("{plain} bytes"),
    };
    let times = cells(linked.is_some(), &mut [&mut call, &mut plain_call]);
    format!("| {name} | {k} | {} | {answer} | {times} |", sheet.len())
}

/// Writes the head of a table, which says what is timed.
fn head(what: &str, columns: &str) {
    println!("{what}: processor time in microseconds a call (median of {ROUNDS} rounds)\n");
    println!("{columns}");
    println!("{}|", "|---".repeat(columns.matches('|').count() - 1));
}

fn join_head(what: &str) {
    head(what, "| contexts x codes of types | k | events | met | join | topk-join, Rust | all-pairs, Rust | join / topk-join | join / all-pairs |");
}

fn tuned_head(what: &str) {
    head(what, "| contexts x codes of types | k | join | tuned topk-join | all-pairs by bits | all-pairs by postings | join / tuned topk-join | join / by bits | join / by postings |");
}

fn main() {
    for (what, alike) in [("Join", false), ("Join, contexts alike", true)] {
        join_head(what);
        for workload in &WORKLOADS {
            let site = workload.site(alike);
            for k in KS {
                println!("{}", join_row(&Case::of(workload.name(), k, &site)));
            }
        }
        println!();
    }

    join_head("Join against the number of contexts");
    for workload in &GROWTH {
        println!("{}", join_row(&Case::of(workload.name(), ONE_K, &workload.site(false))));
    }

    println!();
    tuned_head("Join beside tuned programs");
    for workload in &WORKLOADS {
        println!("{}", tuned_row(&Case::of(workload.name(), ONE_K, &workload.site(false))));
    }

    println!();
    head("Host call", "| contexts x codes of types | k | sheet, bytes | answer | host call | plain Rust | ratio |");
    for workload in &WORKLOADS {
        let site = workload.site(false);
        for k in KS {
            println!("{}", listing_row(&workload.name(), k, &site));
        }
    }
}
