//! Period files: reading them, the accounts of the paper, and the questions about them.

mod account_limits;
pub mod accounts;
mod captured;
mod case;
mod classes;
mod emissions;
pub mod fields;
mod flow;
pub mod historian;
pub mod inspection;
mod lengths;
mod outflows;
pub mod paper;
pub mod printed;
pub mod question;
pub mod reading;
mod record_places;
pub mod records;
mod rows;
pub mod seeded;
pub mod suites;
