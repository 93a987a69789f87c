//! One file a subcommand, and what they have in common.

#[cfg(all(feature = "probe", feature = "host"))]
pub mod cell;
#[cfg(feature = "probe")]
pub mod doubled;
#[cfg(feature = "host")]
pub mod host;
#[cfg(feature = "probe")]
pub mod join;
#[cfg(feature = "host")]
pub mod program;
#[cfg(feature = "probe")]
pub mod sheets;

use std::time::Instant;

use crate::crash;
use crate::spread::{guarded, spread, Difference};
use crate::tally::{cases, told, Outcome, Tally};

/// What to run: so many trials of a seed, or one of them.
#[derive(Clone, Debug, PartialEq, Eq)]
pub struct Choice {
    pub seed: u64,
    pub trial: Option<u64>,
    /// How many random cases, if it is not for the kind to say.
    pub n: Option<u64>,
    /// How many processors are kept busy.
    pub jobs: u64,
    /// The program under trial.
    pub path: Option<String>,
}

/// A kind of trial.
pub struct Kind {
    pub name: &'static str,
    /// How many random cases there are in the gate.
    pub gate: u64,
    /// The outcomes that so many random cases must reach.
    pub owed: &'static [u64],
    /// The ways that they must have gone, where this kind tells ways apart.
    pub ways: &'static [&'static str],
    /// How many threads share a processor. More than one helps where trials wait.
    pub threads: u64,
    /// Whether it needs the path of the program.
    pub of_program: bool,
    /// Runs the cases by name and those that are counted out, and tells about them.
    pub named: fn(&Choice) -> Result<(), String>,
    /// Makes and runs the random case of this number.
    pub trial: fn(&Choice, u64) -> Result<Outcome, String>,
}

/// The kinds that can be tried with the libraries at hand, in the order of `trials all`.
pub const KINDS: &[&Kind] = &[
    #[cfg(feature = "probe")]
    &join::KIND,
    #[cfg(feature = "probe")]
    &sheets::READ,
    #[cfg(feature = "probe")]
    &sheets::WRITE,
    #[cfg(feature = "probe")]
    &doubled::KIND,
    #[cfg(all(feature = "probe", feature = "host"))]
    &cell::KIND,
    #[cfg(feature = "host")]
    &host::KIND,
    #[cfg(feature = "host")]
    &program::KIND,
];

/// The program that `make trials` runs.
const PROGRAM: &str = "target/bin/sazamkhri";

impl Kind {
    /// Runs what is chosen; gives the counts of the random cases.
    pub fn run(&self, choice: &Choice) -> Result<Tally, String> {
        if let Some(number) = choice.trial {
            return self.one(choice, number);
        }
        self.by_name(choice)?;
        let n = choice.n.unwrap_or(self.gate);
        let start = Instant::now();
        let tally = spread(self.name, n, choice.jobs * self.threads, self.watched(choice))
            .map_err(|difference| self.differs(choice, difference))?;
        let seconds = start.elapsed().as_secs_f64();
        println!("{}, random: {} in {seconds:.1} s; {}", self.name, cases(tally.cases()), tally.words());
        print!("{}", tally.ways(self.ways));
        // Few cases owe nothing.
        if n >= self.gate {
            let again = |what| format!("{what}\n{}", self.again(choice, &format!("N={n}"), &format!("n={n}")));
            tally.reached(self.name, self.owed).map_err(again)?;
            tally.gone(self.name, self.ways).map_err(again)?;
        }
        Ok(tally)
    }

    /// The cases by name. They are repeated by a run with no random ones.
    fn by_name(&self, choice: &Choice) -> Result<(), String> {
        crash::now(self.command(choice, "N="), 0);
        let agree = guarded(|_| (self.named)(choice).map(|()| None.into()), 0);
        crash::over();
        agree.map_err(|difference| format!("{}\n{}", difference.what, self.again(choice, "N=0", "n=0")))?;
        Ok(())
    }

    /// One trial alone.
    fn one(&self, choice: &Choice, number: u64) -> Result<Tally, String> {
        let outcome = guarded(self.watched(choice), number).map_err(|difference| self.differs(choice, difference))?;
        println!("{}: trial {number} of seed {} agrees; {}", self.name, choice.seed, told(outcome.end));
        let mut tally = Tally::default();
        tally.add(outcome);
        Ok(tally)
    }

    /// A trial that is named also if it crashes.
    fn watched<'a>(&'a self, choice: &'a Choice) -> impl Fn(u64) -> Result<Outcome, String> + 'a {
        let command = self.command(choice, "TRIAL=");
        move |number| {
            crash::now(command, number);
            let outcome = (self.trial)(choice, number);
            crash::over();
            outcome
        }
    }

    /// The command that repeats a crash, but for its last number. This short text is never given back, so that it
    /// stands wherever the crash comes.
    fn command(&self, choice: &Choice, last: &str) -> &'static str {
        format!("make trials KIND={} SEED={} {last}", self.name, choice.seed).leak()
    }

    fn differs(&self, choice: &Choice, Difference { number, what }: Difference) -> String {
        let again = self.again(choice, &format!("TRIAL={number}"), &format!("trial={number}"));
        format!("{}: trial {number} of seed {} differs\n{what}\n{again}", self.name, choice.seed)
    }

    /// The whole command that repeats a difference. `make` runs the project's program: for another one there is a
    /// command of its own.
    fn again(&self, choice: &Choice, for_make: &str, for_trials: &str) -> String {
        let (name, seed) = (self.name, choice.seed);
        let again = format!("To see it again: make trials KIND={name} SEED={seed} {for_make}");
        match choice.path.as_deref().filter(|path| self.of_program && !path.ends_with(PROGRAM)) {
            None => again,
            Some(path) => {
                let path = quoted(path);
                let trials = "target/trials/release/trials";
                format!("{again}\nor, with this other program: {trials} {name} {path} seed={seed} {for_trials}")
            }
        }
    }
}

/// A word as a shell takes it, whatever it holds.
fn quoted(word: &str) -> String {
    format!("'{}'", word.replace('\'', r"'\''"))
}

#[cfg(test)]
mod tests {
    use super::*;

    fn choice(path: Option<&str>) -> Choice {
        Choice { seed: 7, trial: None, n: None, jobs: 2, path: path.map(str::to_string) }
    }

    fn kind(of_program: bool) -> Kind {
        let trial = |_: &Choice, number: u64| match number {
            123_456 => Err("wrong".to_string()),
            _ => Ok(Outcome { end: Some(0), ways: vec!["straight"] }),
        };
        Kind { name: "join", gate: 10, owed: &[0, 3], ways: &[], threads: 1, of_program, named: |_| Ok(()), trial }
    }

    #[test]
    fn a_difference_is_told_with_the_command_that_repeats_it() {
        let long = Choice { n: Some(1_000_000), ..choice(Some("/root/target/bin/sazamkhri")) };
        let again = "join: trial 123456 of seed 7 differs\nwrong\n\
            To see it again: make trials KIND=join SEED=7 TRIAL=123456";
        assert_eq!(kind(true).run(&long), Err(again.to_string()));
        assert_eq!(kind(true).run(&Choice { trial: Some(123_456), ..long }), Err(again.to_string()));
    }

    #[test]
    fn another_program_is_named_in_quotes() {
        let wrong = kind(true).run(&Choice { trial: Some(123_456), ..choice(Some("/it's $1")) }).unwrap_err();
        assert!(wrong.ends_with(r"trials/release/trials join '/it'\''s $1' seed=7 trial=123456"), "{wrong}");
        let wrong = kind(false).run(&Choice { trial: Some(123_456), ..choice(Some("/it's $1")) }).unwrap_err();
        assert!(wrong.ends_with("make trials KIND=join SEED=7 TRIAL=123456"), "{wrong}");
    }

    #[test]
    fn outcomes_are_owed_by_a_long_run_alone() {
        assert!(kind(false).run(&Choice { n: Some(9), ..choice(None) }).is_ok());
        assert!(kind(false).run(&Choice { n: Some(10), ..choice(None) }).unwrap_err().contains("refused 3"));
        let wrong = kind(false).run(&choice(None)).unwrap_err();
        assert!(wrong.contains("refused 3") && wrong.ends_with("make trials KIND=join SEED=7 N=10"), "{wrong}");
    }

    #[test]
    fn ways_are_owed_by_a_long_run_alone() {
        let straight = Kind { owed: &[0], ways: &["straight"], ..kind(false) };
        assert!(straight.run(&choice(None)).is_ok());
        let round = Kind { owed: &[0], ways: &["straight", "round"], ..kind(false) };
        assert!(round.run(&Choice { n: Some(9), ..choice(None) }).is_ok());
        let told = "join: never reached, though owed: round\n\
            To see it again: make trials KIND=join SEED=7 N=10";
        assert_eq!(round.run(&choice(None)), Err(told.to_string()));
    }

    #[test]
    fn a_case_by_name_that_panics_differs_too() {
        let named = Kind { named: |_| panic!("no P1"), ..kind(false) };
        let told = "the trial panicked: no P1\nTo see it again: make trials KIND=join SEED=7 N=0";
        assert_eq!(named.run(&choice(None)), Err(told.to_string()));
    }

    #[test]
    fn a_case_by_name_that_differs_is_repeated_without_random_ones() {
        let named = Kind { named: |_| Err("case 'P1'".to_string()), ..kind(false) };
        let told = "case 'P1'\nTo see it again: make trials KIND=join SEED=7 N=0";
        assert_eq!(named.run(&choice(None)), Err(told.to_string()));
    }
}
