//! With which codes the meters of a script were opened and handed in.

use crate::meter::Meter;
use crate::rate::RATES;
use crate::records::{read, Record};
use std::collections::BTreeSet;

/// Lines for the openings and the meters handed in, sorted, each of them once; None where the script
/// has a bad record.
pub fn codes(script: &[u8]) -> Option<String> {
    let (records, bad) = read(script);
    let lines: BTreeSet<String> = records.iter().filter_map(line).collect();
    (!bad).then(|| lines.into_iter().collect())
}

/// Of an opening its code and its answer; of a meter handed in its code and whether 2 refuses it.
fn line(record: &Record) -> Option<String> {
    match record {
        Record::Open(opening) => {
            let r = opening.setting().refusal();
            Some(format!("open {} {r}\n", opening.code))
        }
        Record::Load(meter) => refused(meter).map(|r| format!("load {} {r}\n", meter.setting.code)),
        _ => None,
    }
}

/// 2 where refusal 2 stops a meter that it would let pass with another code, 0 where it lets it
/// pass, else None.
fn refused(meter: &Meter) -> Option<u32> {
    let r = if meter.refusal_2() { 2 } else { 0 };
    let mut others = RATES.iter().map(|rate| meter.at_code(rate.code));
    others.any(|other| !other.refusal_2()).then_some(r)
}
