//! The report program: measures the blocks on its input and prints what was measured.

use crate::block;
use crate::meter::{Meter, Report};
use crate::rate::{Rate, RATES};
use crate::setting::Setting;

/// The rate it measures at, code 1 (the customer's scope, "Worked figures").
pub const RATE: &Rate = &RATES[0];

/// What it prints for an input: the refused blocks, then the measurement.
///
/// A short last block counts as one and is handed on as it is (the customer's scope, "Worked
/// figures"). The offset is 0, the margin 21635 and the list the built-in one (the customer's
/// requests L2, L5 and L8).
pub fn report(input: &[u8]) -> String {
    let (mut meter, _) = Meter::open(Setting::usual(RATE.code));
    let mut lines = String::new();
    for (i, bytes) in input.chunks(block::LENGTH).enumerate() {
        let (next, r) = meter.block(bytes);
        meter = next;
        if r != 0 {
            lines += &format!("block {} refused {r}\n", i + 1);
        }
    }
    lines + &measurement(&meter)
}

/// The lines at the end: five (the customer's scope, "Worked figures"), and one more after a level
/// (the customer's request L1).
fn measurement(meter: &Meter) -> String {
    let (high, low) = (meter.sq >> 64, meter.sq as u64);
    let counts: Vec<String> = meter.places().map(|j| meter.a[j].to_string()).collect();
    let counts = counts.join(" ");
    let last = match meter.report() {
        Ok(Report { L, A, C, F, T, .. }) => format!("level {L} {A} {C} {F}\npercent {T}"),
        Err(r) => format!("refused {r}"),
    };
    format!(
        "samples {}\nsum {}\nsquares {high} {low}\ncounts {counts}\n{last}\n",
        meter.n, meter.s
    )
}
