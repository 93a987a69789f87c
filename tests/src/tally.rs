//! How often each outcome was reached.

use std::collections::BTreeMap;

/// How one case ended: 0 for an acceptance, else the number of the refusal; none if the answer or the value had no
/// room, so that nothing was done.
pub type End = Option<u64>;

/// What became of one case: how it ended, and which ways it went there, where the kind tells ways apart.
#[derive(Clone, Debug, PartialEq, Eq)]
pub struct Outcome {
    pub end: End,
    pub ways: Vec<&'static str>,
}

impl From<End> for Outcome {
    fn from(end: End) -> Outcome {
        Outcome { end, ways: Vec::new() }
    }
}

/// An end in words.
pub fn told(end: End) -> String {
    match end {
        Some(0) => "accepted".to_string(),
        Some(number) => format!("refused {number}"),
        None => "nothing done".to_string(),
    }
}

/// A number of cases in words.
pub fn cases(number: u64) -> String {
    format!("{number} {}", if number == 1 { "case" } else { "cases" })
}

#[derive(Clone, Debug, Default, PartialEq, Eq)]
pub struct Tally {
    counts: BTreeMap<u64, u64>,
    nothing_done: u64,
    ways: BTreeMap<&'static str, u64>,
}

impl Tally {
    pub fn add(&mut self, outcome: impl Into<Outcome>) {
        let Outcome { end, ways } = outcome.into();
        match end {
            Some(number) => *self.counts.entry(number).or_default() += 1,
            None => self.nothing_done += 1,
        }
        for way in ways {
            *self.ways.entry(way).or_default() += 1;
        }
    }

    pub fn merge(&mut self, other: &Tally) {
        for (&number, count) in &other.counts {
            *self.counts.entry(number).or_default() += count;
        }
        self.nothing_done += other.nothing_done;
        for (&way, count) in &other.ways {
            *self.ways.entry(way).or_default() += count;
        }
    }

    /// All cases, whatever became of them.
    pub fn cases(&self) -> u64 {
        self.counts.values().sum::<u64>() + self.nothing_done
    }

    /// All counts in one line.
    pub fn words(&self) -> String {
        let mut words = format!("accepted {}", self.counts.get(&0).unwrap_or(&0));
        let refused: Vec<String> = self.counts.range(1..).map(|(number, count)| format!("{number}: {count}")).collect();
        words += ", refused ";
        words += if refused.is_empty() { "none" } else { "" };
        words += &refused.join(", ");
        if self.nothing_done > 0 {
            words += &format!(", nothing done {}", self.nothing_done);
        }
        words
    }

    /// How often each of these ways was gone, a line for each.
    pub fn ways(&self, owed: &[&str]) -> String {
        owed.iter().map(|way| format!("{:>9} {way}\n", self.ways.get(way).unwrap_or(&0))).collect()
    }

    /// Fails if one of the ways that are owed was never gone.
    pub fn gone(&self, name: &str, owed: &[&str]) -> Result<(), String> {
        let missed: Vec<&str> = owed.iter().copied().filter(|way| !self.ways.contains_key(way)).collect();
        if missed.is_empty() {
            Ok(())
        } else {
            Err(format!("{name}: never reached, though owed: {}", missed.join("; ")))
        }
    }

    /// Fails if one of the outcomes that are owed was never reached.
    pub fn reached(&self, name: &str, owed: &[u64]) -> Result<(), String> {
        let missed: Vec<String> =
            owed.iter().filter(|number| !self.counts.contains_key(number)).map(|&number| told(Some(number))).collect();
        if missed.is_empty() {
            Ok(())
        } else {
            Err(format!("{name}: never reached, though owed: {}", missed.join(", ")))
        }
    }

    /// Prints all counts; fails if one of the outcomes that are owed was never reached.
    pub fn report(&self, name: &str, owed: &[u64]) -> Result<(), String> {
        println!("{name}: {}; {}", cases(self.cases()), self.words());
        self.reached(name, owed)
    }
}

#[cfg(test)]
mod tests {
    use super::*;

    fn tally(outcomes: &[End]) -> Tally {
        let mut tally = Tally::default();
        outcomes.iter().for_each(|&outcome| tally.add(outcome));
        tally
    }

    #[test]
    fn counts_are_told_in_one_line() {
        let told = tally(&[Some(0), Some(12), Some(3), None, Some(3), Some(0), Some(0)]).words();
        assert_eq!(told, "accepted 3, refused 3: 2, 12: 1, nothing done 1");
        assert_eq!(tally(&[Some(0)]).words(), "accepted 1, refused none");
        assert_eq!(tally(&[]).words(), "accepted 0, refused none");
    }

    #[test]
    fn merged_counts_are_the_counts_of_all() {
        let mut one = tally(&[Some(0), Some(1), None]);
        one.merge(&tally(&[Some(1), Some(2), None]));
        assert_eq!(one, tally(&[Some(0), Some(1), Some(1), Some(2), None, None]));
        assert_eq!(one.cases(), 6);
    }

    #[test]
    fn an_outcome_that_is_owed_and_not_reached_is_named() {
        let some = tally(&[Some(0), Some(9)]);
        assert_eq!(some.reached("read", &[0, 9]), Ok(()));
        assert!(some.reached("read", &[0, 9, 10]).unwrap_err().contains("refused 10"));
        assert!(tally(&[Some(9), None]).reached("read", &[0]).unwrap_err().contains("accepted"));
    }

    #[test]
    fn a_way_that_is_owed_and_not_gone_is_named() {
        let mut some = Tally::default();
        some.add(Outcome { end: Some(0), ways: vec!["blank", "itself"] });
        let mut more = Tally::default();
        more.add(Outcome { end: Some(0), ways: vec!["blank"] });
        some.merge(&more);
        assert_eq!(some.ways(&["itself", "blank"]), "        1 itself\n        2 blank\n");
        assert_eq!(some.ways(&["value"]), "        0 value\n");
        assert_eq!(some.gone("cell", &["blank", "itself"]), Ok(()));
        assert_eq!(some.gone("cell", &["value", "blank"]).unwrap_err(), "cell: never reached, though owed: value");
        assert_eq!(some.cases(), 2);
    }
}
