//! How often each answer is expected.

#[cfg(test)]
use crate::questions::{Answer, Question};
use std::fmt;

/// How often each answer is expected in a suite, by the labels of the answers.
#[derive(Debug, PartialEq, Eq)]
pub struct Tally {
    counts: Vec<(&'static str, usize)>,
}

impl Tally {
    /// The tally that has counted nothing yet.
    pub fn new(labels: &[&'static str]) -> Self {
        let counts = labels.iter().map(|&label| (label, 0)).collect();
        Tally { counts }
    }

    /// Our own answers to all the cases.
    #[cfg(test)]
    pub fn of<Q: Question>(cases: &[Q]) -> Self {
        let mut tally = Tally::new(Q::LABELS);
        for case in cases {
            tally.add(&case.answer().label());
        }
        tally
    }

    /// Counts one answer.
    pub fn add(&mut self, label: &str) {
        let found = self.counts.iter_mut().find(|(known, _)| *known == label);
        let (_, count) = found.expect("every answer has one of the labels");
        *count += 1;
    }

    /// The answers that are expected less often than that, and how often they are.
    pub fn below(&self, at_least: usize) -> impl Iterator<Item = &(&'static str, usize)> {
        self.counts
            .iter()
            .filter(move |(_, count)| *count < at_least)
    }

    /// How often answers with the label are expected.
    #[cfg(test)]
    pub fn count(&self, label: &str) -> usize {
        let found = self.counts.iter().find(|(known, _)| *known == label);
        found.map_or(0, |&(_, count)| count)
    }
}

impl fmt::Display for Tally {
    fn fmt(&self, out: &mut fmt::Formatter) -> fmt::Result {
        let counts = self.counts.iter();
        let shown: Vec<String> = counts
            .map(|(label, count)| format!("{label} {count}"))
            .collect();
        out.write_str(&shown.join(", "))
    }
}

#[cfg(test)]
mod tests {
    use super::*;

    #[test]
    fn answers_are_counted_by_their_labels() {
        let mut tally = Tally::new(&["A", "R1", "R2"]);
        for label in ["R1", "A", "R1"] {
            tally.add(label);
        }
        assert_eq!(tally.to_string(), "A 1, R1 2, R2 0");
        assert_eq!(tally.count("R1"), 2);
    }

    #[test]
    fn answers_that_come_too_seldom_are_named() {
        let mut tally = Tally::new(&["A", "R1", "R2"]);
        for label in ["R1", "A", "R1"] {
            tally.add(label);
        }
        let below: Vec<_> = tally.below(2).copied().collect();
        assert_eq!(below, [("A", 1), ("R2", 0)]);
        assert_eq!(tally.below(0).count(), 0);
    }
}
