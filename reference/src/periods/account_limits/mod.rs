//! Full-size periods at the limits of the accounts and one past them.

#[cfg(test)]
mod answers;
pub mod captured;
pub mod charges;
pub mod dry;
pub mod full_size;
pub mod grams;
pub mod inflows;
pub mod longest;
pub mod order;
pub mod outflows;
pub mod results;
pub mod rounding;
pub mod routes;

use super::records::Period;

/// The periods about every subject, one subject after the other.
pub fn about_every_subject() -> Vec<Period> {
    let subjects = [
        inflows::around_limit(),
        grams::around_limit(),
        captured::beside_fuel(),
        rounding::once_a_total(),
        outflows::beside_inflow(),
        dry::with_and_without_grams(),
        order::of_several_faults(),
        routes::of_every_shape(),
        charges::beside_exact_shares(),
        results::of_plants_alone(),
    ];
    subjects.concat()
}
