//! Writing period files and sheets: from lists of plain numbers, and from texts that people type;
//! and the questions about both.

pub mod form;
pub mod historian;
pub mod list;
mod samples;
mod seeded_lists;
pub mod text;
pub mod texts;
pub mod written;
