//! The activity factor as a percentage.

use crate::level::steps;
use std::sync::OnceLock;

/// The whole time, in hundredths of a percent (the customer's request L1).
pub const WHOLE: u64 = 10000;

/// lev(T) - lev(10000), where T is above 0 (the customer's request L1).
pub fn difference(T: u64) -> Option<i64> {
    Some(steps(u128::from(T))? - steps(u128::from(WHOLE))?)
}

/// Each T from 1 to 10000 with its difference, worked out once.
fn differences() -> &'static [(u64, i64)] {
    static DIFFERENCES: OnceLock<Vec<(u64, i64)>> = OnceLock::new();
    let all = || (1..=WHOLE).filter_map(|T| Some((T, difference(T)?)));
    DIFFERENCES.get_or_init(|| all().collect())
}

/// T: the largest from 1 to 10000 whose difference is not above F, or 0 if there is none
/// (the customer's request L1).
pub fn T(F: i64) -> u64 {
    let not_above = differences().iter().filter(|row| row.1 <= F);
    not_above.map(|row| row.0).max().unwrap_or(0)
}
