//! Sheets of daily readings: reading them, the figures of a sheet, and the questions about them.

mod case;
pub mod figures;
pub mod files;
pub mod historian;
pub mod printed;
pub mod seeded;
pub mod sheet;
mod worked;
