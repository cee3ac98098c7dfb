//! Single numbers: reading and writing them, and the questions about them.

pub mod faults;
pub mod in_order;
pub mod lengths;
pub mod number;
pub mod question;
pub mod suites;
pub mod writing;
