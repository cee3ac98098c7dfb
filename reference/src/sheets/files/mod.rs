//! Files that are sheets or nearly so, for both the program and the call: what is put to them.

pub mod bytes;
pub mod counts;
pub mod few_days;
pub mod lengths;
pub mod long;
pub mod meter;
pub mod nearly_equal;
pub mod spells;
pub mod years;
