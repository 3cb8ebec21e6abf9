//! Demand 3 checked over the printed answers to a list of calls, by E and by the meter shown.

use crate::answer::clauses;
use crate::exact::{counts_never_rise, Exact};
use crate::meter::{Meter, Report};
use crate::printed::{self, numbers};
use crate::rate::rate;
use crate::records::{read, Record};
use crate::replay::Player;
use crate::setting::Setting;
use crate::tally::Tally;

/// What a record must be that is no opening: a call, a show or a report.
const OF_A_LIST: &str = "a record of a list";

/// E beside the printed answers, and the checks counted so far.
struct Comparison {
    /// E, if the last opening was one to accept.
    exact: Option<Exact>,
    /// What the last opening was given; E is not fed its margin nor its list.
    setting: Setting,
    /// The meter last shown, if no call came after it.
    shown: Option<Meter>,
    tally: Tally,
}

impl Comparison {
    /// Nothing compared yet.
    fn new() -> Comparison {
        Comparison {
            exact: None,
            setting: Setting::default(),
            shown: None,
            tally: Tally::new(),
        }
    }

    /// Compares one record's line.
    fn line(&mut self, k: usize, record: &Record, line: &str) {
        let shown = self.shown.take();
        let name = format!("record {k}: {line}:");
        if let Record::Open(opening) = record {
            return self.open(&name, opening.setting(), line);
        }
        let tally = &mut self.tally;
        let Some(exact) = &mut self.exact else {
            return unopened(tally, &name, record, line);
        };
        match record {
            Record::Chunk(samples) => call(tally, &name, exact.chunk(samples), line, "chunk"),
            Record::Block(bytes) => call(tally, &name, exact.block(bytes), line, "block"),
            Record::Show => self.shown = show(tally, &name, exact, &self.setting, line),
            Record::Report => {
                report(tally, &name, exact, shown.as_ref(), line);
                self.shown = shown;
            }
            _ => tally.holds(&format!("{name} {OF_A_LIST}"), false),
        }
    }

    /// An opening is accepted, or refused with its number, just where it is to be; E is fed the code
    /// and the offset (the customer's scope, "One sample"; the customer's requests L2, L5 and L8).
    fn open(&mut self, name: &str, setting: Setting, line: &str) {
        let r = setting.refusal();
        let right = line == format!("open {r}");
        self.tally
            .holds(&format!("{name} the opening's answer"), right);
        let rate = rate(u32::from(setting.code)).filter(|_| r == 0);
        self.exact = rate.map(|rate| Exact::open(rate, setting.offset));
        self.setting = setting;
    }
}

/// Where no opening was accepted, the meter is of all zeros, and every call on it is refused (the
/// customer's scope, "Why a call is refused").
fn unopened(tally: &mut Tally, name: &str, record: &Record, line: &str) {
    let of_a_list = matches!(
        record,
        Record::Chunk(_) | Record::Block(_) | Record::Report | Record::Show
    );
    tally.holds(&format!("{name} {OF_A_LIST}"), of_a_list);
    let right = line == Player::new().answer(record);
    tally.holds(&format!("{name} the answer of all zeros"), right);
}

/// A call is accepted just where E accepts it.
fn call(tally: &mut Tally, name: &str, accepted: bool, line: &str, word: &str) {
    let agrees = match numbers(line, word).as_deref() {
        Some(&[r]) => (r == 0) == accepted,
        _ => false,
    };
    tally.holds(&format!("{name} acceptance"), agrees);
}

/// The clauses of demand 3 about a meter, with what was chosen at opening, its total and its sums;
/// gives the meter where it is one to report on.
fn show(
    tally: &mut Tally,
    name: &str,
    exact: &Exact,
    opened: &Setting,
    line: &str,
) -> Option<Meter> {
    let meter = printed::meter(line);
    tally.holds(&format!("{name} the values of a meter"), meter.is_some());
    let meter = meter?;
    let list = opened.thresholds.entries();
    let a = &meter.a[..list.len()];
    let clauses = [
        ("code", meter.setting.code == exact.rate.code),
        ("offset", meter.setting.offset == exact.offset),
        ("margin", meter.setting.margin == opened.margin),
        ("list", meter.setting.thresholds == opened.thresholds),
        ("n", meter.n == exact.y),
        ("s", meter.s == exact.s),
        ("sq", meter.sq == exact.sq),
        ("Q against q", exact.envelope(meter.Q)),
        ("a_j against c_j", exact.counts_from_above(list, a)),
        ("a_j against c_j + D", exact.counts_from_below(list, a)),
        ("a_j never rises", counts_never_rise(a)),
        ("refusal 2 lets it pass", !meter.refusal_2()),
    ];
    for (clause, holds) in clauses {
        tally.holds(&format!("{name} {clause}"), holds);
    }
    (!meter.refusal_2()).then_some(meter)
}

/// The clauses of demand 3 about a report on the meter shown before it.
fn report(tally: &mut Tally, name: &str, exact: &Exact, shown: Option<&Meter>, line: &str) {
    let answer = printed::report(line);
    tally.holds(&format!("{name} a report or a refusal"), answer.is_some());
    tally.holds(&format!("{name} a meter shown before it"), shown.is_some());
    let (Some(answer), Some(meter)) = (answer, shown) else {
        return;
    };
    for (clause, holds) in clauses(meter, &answer) {
        tally.holds(&format!("{name} {clause}"), holds);
    }
    if let Ok(report) = answer {
        level(tally, name, exact, &meter.setting, &report);
    }
}

/// The clauses of demand 3 about the active level of a report, at the crossing that it tells, which
/// by the clauses on the meter shown is the one that is used (the customer's request L4). A is the
/// margin or more above the lower threshold, and may be negative (the customer's request L8).
fn level(tally: &mut Tally, name: &str, exact: &Exact, setting: &Setting, report: &Report) {
    let &Report {
        A, lower, upper, ..
    } = report;
    let thresholds = &setting.thresholds;
    let places = lower <= upper && upper < thresholds.count();
    let C_lower = thresholds.C_(lower).filter(|_| places);
    let least = C_lower.map(|C_lower| C_lower + setting.margin);
    let high = least.is_some_and(|least| A >= least);
    tally.holds(&format!("{name} A the margin above C_j, j in range"), high);
    if places {
        let below = exact.level_from_below(A, thresholds.places[lower]);
        tally.holds(&format!("{name} A from below"), below);
        let above = exact.level_from_above(A, thresholds.places[upper]);
        tally.holds(&format!("{name} A from above"), above);
    }
}

/// Compares the lines printed for the records of a script.
fn compare(records: &[Record], lines: &[&str]) -> Tally {
    let mut comparison = Comparison::new();
    comparison
        .tally
        .equal("one line for each record", lines.len(), records.len());
    for (k, (record, line)) in records.iter().zip(lines).enumerate() {
        comparison.line(k + 1, record, line);
    }
    comparison.tally
}

/// Checks what another program printed for a script; None where the script has a bad record.
pub fn agrees(script: &[u8], output: &str) -> Option<Tally> {
    match read(script) {
        (records, false) => Some(compare(&records, &output.lines().collect::<Vec<_>>())),
        _ => None,
    }
}
