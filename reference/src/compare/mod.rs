//! Puts the suites to another program and compares its answers with our own.

pub mod comparison;
pub mod one_run;
pub mod program;
pub mod starts;
pub mod tally;
pub mod writes;

use crate::questions::Suite;
use comparison::Comparison;
use program::Program;
use std::io::{self, Write};

/// Why the comparison could not be carried through.
pub enum Fault {
    /// The program cannot be run.
    Program(io::Error),
    /// The report cannot be written.
    Report(io::Error),
}

/// Puts cases to the program in one way or another and compares what comes.
pub type CompareCases<C> = fn(&[C], &Program) -> io::Result<Comparison>;

/// Compares every suite and reports on each, the totals last. Says whether all passed.
pub fn compare_suites<C>(
    suites: &[Suite<C>],
    program: &Program,
    compare_cases: CompareCases<C>,
    report: &mut impl Write,
) -> Result<bool, Fault> {
    let mut compared = 0;
    let mut passed = 0;
    for suite in suites {
        let mut comparison = compare_cases(&suite.cases, program).map_err(Fault::Program)?;
        comparison.require_each_answer(suite.each_answer_at_least);
        comparison
            .write_report(suite.name, report)
            .map_err(Fault::Report)?;
        compared += comparison.answered();
        if comparison.passed() {
            passed += 1;
        }
    }
    let failed = suites.len() - passed;
    writeln!(report, "all suites: {compared} answers compared").map_err(Fault::Report)?;
    writeln!(report, "{passed} passed, {failed} failed").map_err(Fault::Report)?;
    Ok(failed == 0)
}
