//! Wrong answers to lists of calls at each rate (the customer's scope, "Rates"; the customer's
//! request L9).

use super::List;
use crate::block;
use crate::meter::Meter;
use crate::rate::{Rate, RATES};
use crate::records::Record;
use crate::replay::{meter_line, report_line};
use crate::setting::Setting;
use crate::tally::Tally;

/// The samples of the list's two calls, so few that there is no level at the K of any rate.
const CALLS: [[i16; 10]; 2] = [[20000; 10], [-32768; 10]];

/// Every wrong answer.
pub fn rates(tally: &mut Tally) {
    for rate in &RATES {
        let list = list(rate);
        list.breaks_showing(tally, "the right meter", &list.meter, &[]);
        smoothed(tally, rate, &list);
        shown(tally, rate, &list);
        refused(tally, &list);
    }
}

/// A chunk and a block at a rate.
fn list(rate: &Rate) -> List {
    let calls = [
        Record::Chunk(CALLS[0].to_vec()),
        Record::Block(block::make(rate.code, 10, &CALLS[1])),
    ];
    List::new(Setting::usual(rate.code), &calls)
}

/// Meters smoothed with the K of another rate: the smaller it is, the lower the envelope.
fn smoothed(tally: &mut Tally, rate: &Rate, list: &List) {
    for other in RATES.iter().filter(|other| other.code != rate.code) {
        let wrong = Rate {
            K: other.K,
            ..*rate
        };
        let mut meter = Meter::open(Setting::usual(rate.code)).0;
        for x in CALLS.concat() {
            meter.sample(&wrong, x);
        }
        let counts = if wrong.K > rate.K {
            "a_j against c_j"
        } else {
            "a_j against c_j + D"
        };
        let name = format!("code {} with K {}", rate.code, wrong.K);
        list.breaks_showing(tally, &name, &meter, &["Q against q", counts]);
    }
}

/// Meters that show another code than they were opened with, named or not; where their hangovers
/// are more than that code allows, refusal 2 stops them.
fn shown(tally: &mut Tally, rate: &Rate, list: &List) {
    for code in (0..=6).filter(|&code| code != rate.code) {
        let meter = list.meter.at_code(code);
        let clauses = ["code", "refusal 2 lets it pass", "a meter shown before it"];
        let broken = if meter.refusal_2() { 3 } else { 1 };
        let name = format!("code {code} for {}", rate.code);
        list.breaks_showing(tally, &name, &meter, &clauses[..broken]);
    }
}

/// A block of the meter's own rate refused with 7.
fn refused(tally: &mut Tally, list: &List) {
    let calls = list.lines.replace("block 0", "block 7");
    let (shown, reported) = (meter_line(&list.meter), report_line(&list.meter.report()));
    let lines = format!("{calls}{shown}\n{reported}\n");
    list.fails(tally, "a block of the same rate", &lines, &["acceptance"]);
}
