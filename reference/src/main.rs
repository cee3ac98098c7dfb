//! The second program: it answers from the paper by itself, and compares its
//! answers with those of another program.

mod answer_line;
mod asked_file;
mod compare;
mod file_bytes;
mod frames;
mod lent_bytes;
mod numbers;
mod periods;
mod questions;
mod refusal;
mod seeded;
mod sheets;
mod verdict;
mod writing;

use compare::one_run::compare_in_one_run;
use compare::program::Program;
use compare::starts::compare_starts;
use compare::writes::compare_writes;
use compare::{compare_suites, CompareCases, Fault};
use numbers::question::NumberAt;
use numbers::suites::number_suites;
use periods::accounts::{account, printed, Tables};
use periods::historian::call::HistorianCall;
use periods::historian::historian_suites;
use periods::inspection::inspection_suites;
use periods::inspection::page::{inspect, End};
use periods::printed::printed_suites;
use periods::question::PeriodFile;
use periods::seeded::period_cases::period_cases;
use periods::suites::reading_suites;
use questions::{Answer, Question, Suite};
use refusal::Refused;
use sheets::figures::{self, figures_of};
use sheets::historian::call::DaysCall;
use sheets::historian::days_suites;
use sheets::printed::printed_suites as printed_sheets;
use sheets::seeded::sheet_cases;
use std::env;
use std::ffi::OsString;
use std::fmt::Display;
use std::io::{self, Read, Write};
use std::process::ExitCode;
use writing::form::Form;
use writing::historian::call::WriteCall;
use writing::historian::write_suites;
use writing::texts::{period_texts, sheet_texts};
use writing::written::{write_text, Written};

/// Exit code if something differs.
const DIFFERS: u8 = 1;
/// Exit code if the file is refused.
const REFUSED: u8 = 1;
/// Exit code if the work could not be done.
const NOT_DONE: u8 = 2;

const USAGE: &str = "\
usage: reference answer numbers|readings|historian|historian-days|historian-write
           reads frames on standard input, writes one answer for each: a line, or for
           historian, historian-days and historian-write all that the call leaves
       reference compare numbers|readings -- PROGRAM [ARGS..]
       reference compare historian|historian-days|historian-write -- PROGRAM [ARGS..]
           puts each suite to PROGRAM in one run and compares its answers with its own
       reference compare rows -- PROGRAM [ARGS..]
           starts PROGRAM for each period file and compares the rows or the refusal it
           prints with its own
       reference compare inspections -- PROGRAM [ARGS..]
           starts PROGRAM for each period file and compares the inspector's page it
           prints with its own
       reference compare days -- PROGRAM [ARGS..]
           starts PROGRAM for each sheet of daily readings and compares the figures or
           the refusal it prints with its own
       reference compare writes|writes-days -- PROGRAM [ARGS..]
           starts PROGRAM for each text and compares the period file or the sheet that
           it writes, or the line it prints in its place, with its own
       reference rows
           writes the rows of the period file on standard input, or its refusal
       reference inspect
           writes the inspector's page of the period file on standard input: a line
           for each number, its refusal if its reading refuses it, and a line for how
           the walk ends; the line of the number at which it is refused ends with <--
       reference days
           writes the five figures of the sheet on standard input, or its refusal
       reference write
           writes the period file of the numbers in the text on standard input; or the
           line L 131071 if the text is longer than that, T and the offset and value of
           the first byte that is neither digit nor space nor in a remark, or the
           refusal of the numbers, its byte counted in the text
       reference write-days
           the same for a sheet
       reference cases periods SEED COUNT
           writes COUNT cases of whole periods with their answers, one line each;
           SEED and COUNT are whole numbers, and the paper's own cases come first, then
           small ones about captured fossil CO2
       reference cases sheets SEED COUNT
           the same for sheets, some worked out by hand first
a refusal is printed in one line: R, its number, its place, and its byte in the file";

/// What the caller asks for.
enum Task {
    AnswerNumbers,
    AnswerReadings,
    AnswerHistorian,
    AnswerHistorianDays,
    AnswerHistorianWrite,
    CompareNumbers(Program),
    CompareReadings(Program),
    CompareHistorian(Program),
    CompareHistorianDays(Program),
    CompareHistorianWrite(Program),
    CompareRows(Program),
    CompareInspections(Program),
    CompareDays(Program),
    CompareWrites(Program),
    CompareWritesDays(Program),
    Rows,
    Inspect,
    Days,
    Write(Form),
    CasesOfPeriods { seed: u64, count: usize },
    CasesOfSheets { seed: u64, count: usize },
}

fn main() -> ExitCode {
    let arguments: Vec<OsString> = env::args_os().skip(1).collect();
    let done = match task_of(&arguments) {
        Some(Task::AnswerNumbers) => answer::<NumberAt>(),
        Some(Task::AnswerReadings) => answer::<PeriodFile>(),
        Some(Task::AnswerHistorian) => answer::<HistorianCall>(),
        Some(Task::AnswerHistorianDays) => answer::<DaysCall>(),
        Some(Task::AnswerHistorianWrite) => answer::<WriteCall>(),
        Some(Task::CompareNumbers(program)) => {
            compare(&number_suites(), &program, compare_in_one_run)
        }
        Some(Task::CompareReadings(program)) => {
            compare(&reading_suites(), &program, compare_in_one_run)
        }
        Some(Task::CompareHistorian(program)) => {
            compare(&historian_suites(), &program, compare_in_one_run)
        }
        Some(Task::CompareHistorianDays(program)) => {
            compare(&days_suites(), &program, compare_in_one_run)
        }
        Some(Task::CompareHistorianWrite(program)) => {
            compare(&write_suites(), &program, compare_in_one_run)
        }
        Some(Task::CompareRows(program)) => compare(&printed_suites(), &program, compare_starts),
        Some(Task::CompareInspections(program)) => {
            compare(&inspection_suites(), &program, compare_starts)
        }
        Some(Task::CompareDays(program)) => compare(&printed_sheets(), &program, compare_starts),
        Some(Task::CompareWrites(program)) => compare(&period_texts(), &program, compare_writes),
        Some(Task::CompareWritesDays(program)) => compare(&sheet_texts(), &program, compare_writes),
        Some(Task::Rows) => rows(),
        Some(Task::Inspect) => inspection(),
        Some(Task::Days) => days(),
        Some(Task::Write(form)) => write(form),
        Some(Task::CasesOfPeriods { seed, count }) => cases(period_cases(seed), count),
        Some(Task::CasesOfSheets { seed, count }) => cases(sheet_cases(seed), count),
        None => Err(USAGE.to_string()),
    };
    done.unwrap_or_else(|message| {
        eprintln!("{message}");
        ExitCode::from(NOT_DONE)
    })
}

/// The task that the arguments name, if they name one.
fn task_of(arguments: &[OsString]) -> Option<Task> {
    let words: Vec<_> = arguments
        .iter()
        .map(|word| word.to_string_lossy())
        .collect();
    let words: Vec<&str> = words.iter().map(AsRef::as_ref).collect();
    match (&words[..], arguments) {
        (["answer", "numbers"], _) => Some(Task::AnswerNumbers),
        (["answer", "readings"], _) => Some(Task::AnswerReadings),
        (["answer", "historian"], _) => Some(Task::AnswerHistorian),
        (["answer", "historian-days"], _) => Some(Task::AnswerHistorianDays),
        (["answer", "historian-write"], _) => Some(Task::AnswerHistorianWrite),
        (["compare", what, "--", ..], [_, _, _, path, rest @ ..]) => {
            let program = Program {
                path: path.clone(),
                arguments: rest.to_vec(),
            };
            task_to_compare(what, program)
        }
        (["rows"], _) => Some(Task::Rows),
        (["inspect"], _) => Some(Task::Inspect),
        (["days"], _) => Some(Task::Days),
        (["write"], _) => Some(Task::Write(Form::Period)),
        (["write-days"], _) => Some(Task::Write(Form::Sheet)),
        (["cases", what, seed, count], _) => {
            task_to_write_cases(what, seed.parse().ok()?, count.parse().ok()?)
        }
        _ => None,
    }
}

/// The task to compare what is named, if it can be compared.
fn task_to_compare(what: &str, program: Program) -> Option<Task> {
    match what {
        "numbers" => Some(Task::CompareNumbers(program)),
        "readings" => Some(Task::CompareReadings(program)),
        "historian" => Some(Task::CompareHistorian(program)),
        "historian-days" => Some(Task::CompareHistorianDays(program)),
        "historian-write" => Some(Task::CompareHistorianWrite(program)),
        "rows" => Some(Task::CompareRows(program)),
        "inspections" => Some(Task::CompareInspections(program)),
        "days" => Some(Task::CompareDays(program)),
        "writes" => Some(Task::CompareWrites(program)),
        "writes-days" => Some(Task::CompareWritesDays(program)),
        _ => None,
    }
}

/// The task to write `count` cases of what is named, if there are such cases.
fn task_to_write_cases(what: &str, seed: u64, count: usize) -> Option<Task> {
    match what {
        "periods" => Some(Task::CasesOfPeriods { seed, count }),
        "sheets" => Some(Task::CasesOfSheets { seed, count }),
        _ => None,
    }
}

/// Answers the frames on standard input, all or none of them.
fn answer<Q: Question>() -> Result<ExitCode, String> {
    let cases = frames::read_frames::<Q>(&input()?).map_err(|error| error.to_string())?;
    let answers = cases.iter().flat_map(|case| case.answer().bytes());
    output(&answers.collect::<Vec<u8>>())?;
    Ok(ExitCode::SUCCESS)
}

/// Compares all suites with the program's answers.
fn compare<C>(
    suites: &[Suite<C>],
    program: &Program,
    compare_cases: CompareCases<C>,
) -> Result<ExitCode, String> {
    match compare_suites(suites, program, compare_cases, &mut io::stdout()) {
        Ok(true) => Ok(ExitCode::SUCCESS),
        Ok(false) => Ok(ExitCode::from(DIFFERS)),
        Err(Fault::Program(error)) => Err(format!(
            "cannot run {}: {error}; give the path of a program that can be started",
            program.path.to_string_lossy()
        )),
        Err(Fault::Report(error)) => Err(format!("cannot write to standard output: {error}")),
    }
}

/// Writes the rows of the period file on standard input, or its refusal.
fn rows() -> Result<ExitCode, String> {
    let accounted = account(&input()?, Tables::LARGE_ENOUGH);
    output(printed(&accounted).as_bytes())?;
    Ok(exit_code(&accounted))
}

/// Writes the figures of the sheet on standard input, or its refusal.
fn days() -> Result<ExitCode, String> {
    let answered = figures_of(&input()?);
    output(figures::printed(&answered).as_bytes())?;
    Ok(exit_code(&answered))
}

/// Writes the file of the numbers in the text on standard input, or the line that says why there is
/// none.
fn write(form: Form) -> Result<ExitCode, String> {
    let written = write_text(&input()?, form);
    output(&written.bytes())?;
    match written {
        Written::File(_) => Ok(ExitCode::SUCCESS),
        Written::Unread(_) | Written::Refused(_) => Ok(ExitCode::from(REFUSED)),
    }
}

/// What the program exits with after it has written the answer to a file.
fn exit_code<T>(answered: &Result<T, Refused>) -> ExitCode {
    match answered {
        Ok(_) => ExitCode::SUCCESS,
        Err(_) => ExitCode::from(REFUSED),
    }
}

/// Writes the inspector's page of the period file on standard input. A file that is cut is refused
/// too, since it is longer than any period. But it was not walked to its end, so the exit code says
/// that the work could not be done.
fn inspection() -> Result<ExitCode, String> {
    let page = inspect(&input()?);
    output(page.to_string().as_bytes())?;
    match (page.end, page.refused) {
        (End::Cut { .. }, _) => Ok(ExitCode::from(NOT_DONE)),
        (_, Some(_)) => Ok(ExitCode::from(REFUSED)),
        (_, None) => Ok(ExitCode::SUCCESS),
    }
}

/// Writes `count` of the cases with their answers.
fn cases<C: Display>(cases: impl Iterator<Item = C>, count: usize) -> Result<ExitCode, String> {
    let lines: String = cases.take(count).map(|case| format!("{case}\n")).collect();
    output(lines.as_bytes())?;
    Ok(ExitCode::SUCCESS)
}

/// All bytes of standard input.
fn input() -> Result<Vec<u8>, String> {
    let mut input = Vec::new();
    io::stdin()
        .read_to_end(&mut input)
        .map_err(|error| format!("cannot read standard input: {error}"))?;
    Ok(input)
}

/// Writes the bytes to standard output.
fn output(bytes: &[u8]) -> Result<(), String> {
    io::stdout()
        .write_all(bytes)
        .map_err(|error| format!("cannot write to standard output: {error}"))
}
