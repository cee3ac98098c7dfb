//! What comes of comparing one suite, and the report on it.

use super::tally::Tally;
use std::io::{self, Write};

/// How many wrong answers of a suite are shown; the others are only counted.
const SHOWN_WRONG: usize = 5;

/// What came of comparing one suite.
#[derive(Debug)]
pub struct Comparison {
    tally: Tally,
    /// What is counted besides, without labels if nothing is.
    besides: Tally,
    /// How many cases were asked.
    asked: usize,
    /// How many of them were answered.
    answered: usize,
    /// How many answers are wrong or missing.
    differ: usize,
    /// The first wrong answers, in words.
    wrong: Vec<String>,
    /// The first missing answer, in words.
    missing: Option<String>,
    /// What is wrong with the run or the suite as a whole, in words.
    faults: Vec<String>,
}

impl Comparison {
    /// The comparison that has taken in nothing yet, for answers with these labels.
    pub fn new(labels: &[&'static str]) -> Self {
        Comparison {
            tally: Tally::new(labels),
            besides: Tally::new(&[]),
            asked: 0,
            answered: 0,
            differ: 0,
            wrong: Vec::new(),
            missing: None,
            faults: Vec::new(),
        }
    }

    /// The same comparison, which counts something besides, with these labels.
    pub fn counting_besides(self, labels: &[&'static str]) -> Self {
        let besides = Tally::new(labels);
        Comparison { besides, ..self }
    }

    /// Counts a case by what its answer is besides.
    pub fn add_besides(&mut self, label: &str) {
        self.besides.add(label);
    }

    /// Takes in a case whose answer, of this label, came as expected.
    pub fn add_equal(&mut self, label: &str) {
        self.add_asked(label);
        self.answered += 1;
    }

    /// Takes in a case for which something else came than the answer of this label.
    pub fn add_wrong(&mut self, label: &str, in_words: impl FnOnce() -> String) {
        self.add_asked(label);
        self.answered += 1;
        self.differ += 1;
        if self.wrong.len() < SHOWN_WRONG {
            let number = self.asked;
            self.wrong.push(format!("case {number}: {}", in_words()));
        }
    }

    /// Takes in a case for which nothing came, though an answer of this label was expected.
    pub fn add_missing(&mut self, label: &str, in_words: impl FnOnce() -> String) {
        self.add_asked(label);
        self.differ += 1;
        let number = self.asked;
        self.missing
            .get_or_insert_with(|| format!("case {number}: {}", in_words()));
    }

    /// Counts a case by the label of its answer.
    fn add_asked(&mut self, label: &str) {
        self.tally.add(label);
        self.asked += 1;
    }

    /// Takes in something that is wrong with the run or the suite as a whole.
    pub fn add_fault(&mut self, in_words: String) {
        self.faults.push(in_words);
    }

    /// Takes it as a fault if an answer is expected less often than that.
    pub fn require_each_answer(&mut self, at_least: usize) {
        let too_seldom: Vec<String> = self
            .tally
            .below(at_least)
            .map(|(label, count)| format!("too few cases for {label}: {count}, not {at_least}"))
            .collect();
        self.faults.extend(too_seldom);
    }

    /// How many cases were answered, rightly or wrongly.
    pub fn answered(&self) -> usize {
        self.answered
    }

    /// True if all answers came as expected and nothing else was wrong.
    pub fn passed(&self) -> bool {
        self.differ == 0 && self.faults.is_empty()
    }

    /// Reports on the suite: one line, and below it what is wrong, if anything.
    pub fn write_report(&self, name: &str, report: &mut impl Write) -> io::Result<()> {
        let Comparison {
            asked,
            answered,
            differ,
            ..
        } = self;
        let counts = self.counts();
        writeln!(
            report,
            "{name}: {answered} answers compared, {differ} differ ({counts})"
        )?;
        for difference in self.wrong.iter().chain(&self.missing) {
            writeln!(report, "  {difference}")?;
        }
        if answered < asked {
            writeln!(report, "  too few answers: {answered} for {asked} cases")?;
        }
        for fault in &self.faults {
            writeln!(report, "  {fault}")?;
        }
        Ok(())
    }

    /// How often each answer is expected, and each of what is counted besides.
    fn counts(&self) -> String {
        let mut counts = vec![self.tally.to_string(), self.besides.to_string()];
        counts.retain(|tally| !tally.is_empty());
        counts.join("; ")
    }
}

#[cfg(test)]
mod tests {
    use super::*;

    fn report_on(comparison: &Comparison) -> String {
        let mut report = Vec::new();
        let written = comparison.write_report("some suite", &mut report);
        written.expect("a report is written to memory");
        String::from_utf8(report).expect("a report is text")
    }

    #[test]
    fn equal_answers_pass_in_one_line() {
        let mut comparison = Comparison::new(&["A", "R1"]);
        comparison.add_equal("A");
        comparison.add_equal("R1");
        comparison.require_each_answer(1);
        assert!(comparison.passed());
        assert_eq!(
            report_on(&comparison),
            "some suite: 2 answers compared, 0 differ (A 1, R1 1)\n"
        );
    }

    #[test]
    fn what_is_counted_besides_need_not_be_met() {
        let mut comparison = Comparison::new(&["E"]).counting_besides(&["read", "R1"]);
        comparison.add_equal("E");
        comparison.add_besides("R1");
        comparison.require_each_answer(1);
        assert!(comparison.passed());
        assert_eq!(
            report_on(&comparison),
            "some suite: 1 answers compared, 0 differ (E 1; read 0, R1 1)\n"
        );
    }

    #[test]
    fn wrong_and_missing_answers_are_shown_with_their_case() {
        let mut comparison = Comparison::new(&["A"]);
        comparison.add_equal("A");
        comparison.add_wrong("A", || "one thing".to_string());
        comparison.add_missing("A", || "another".to_string());
        assert!(!comparison.passed());
        assert_eq!(
            report_on(&comparison),
            "some suite: 2 answers compared, 2 differ (A 3)\n\
             \x20 case 2: one thing\n\
             \x20 case 3: another\n\
             \x20 too few answers: 2 for 3 cases\n"
        );
    }

    #[test]
    fn only_the_first_wrong_answers_are_shown() {
        let mut comparison = Comparison::new(&["A"]);
        for _ in 0..2 * SHOWN_WRONG {
            comparison.add_wrong("A", || "wrong".to_string());
        }
        assert_eq!(comparison.differ, 2 * SHOWN_WRONG);
        assert_eq!(report_on(&comparison).lines().count(), 1 + SHOWN_WRONG);
    }

    #[test]
    fn first_missing_answer_is_shown_after_any_wrong_ones() {
        let mut comparison = Comparison::new(&["A"]);
        for _ in 0..2 * SHOWN_WRONG {
            comparison.add_wrong("A", || "wrong".to_string());
        }
        for _ in 0..3 {
            comparison.add_missing("A", || "missing".to_string());
        }
        let report = report_on(&comparison);
        let after_wrong: Vec<&str> = report.lines().skip(1 + SHOWN_WRONG).collect();
        assert_eq!(
            after_wrong,
            ["  case 11: missing", "  too few answers: 10 for 13 cases",]
        );
    }

    #[test]
    fn fault_fails_a_suite_without_differences() {
        let mut comparison = Comparison::new(&["A", "R1"]);
        comparison.add_equal("A");
        comparison.require_each_answer(1);
        assert!(!comparison.passed());
        assert_eq!(
            report_on(&comparison),
            "some suite: 1 answers compared, 0 differ (A 1, R1 0)\n\
             \x20 too few cases for R1: 0, not 1\n"
        );
    }
}
