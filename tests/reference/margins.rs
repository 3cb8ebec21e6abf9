//! At which margins the meters of a script were opened and handed in, and gave levels.

use crate::meter::Meter;
use crate::records::Record;
use crate::replay::played;
use crate::setting::USUAL_MARGIN;
use std::collections::BTreeSet;

/// Lines for the openings, the meters handed in and the levels reported, sorted, each of them once;
/// None where the script has a bad record.
pub fn margins(script: &[u8]) -> Option<String> {
    let played = played(script)?.into_iter();
    let lines: BTreeSet<String> = played
        .filter_map(|(record, meter)| line(&record, &meter))
        .collect();
    Some(lines.into_iter().collect())
}

/// Of an opening its margin and its answer; of a meter handed in its margin and 0, or 2 where that
/// alone is what refusal 2 finds; of a level its margin and its mark.
fn line(record: &Record, after: &Meter) -> Option<String> {
    match record {
        Record::Open(opening) => {
            let r = opening.setting().refusal();
            Some(format!("open {} {r}\n", opening.margin))
        }
        Record::Load(meter) => {
            refused(meter).map(|r| format!("load {} {r}\n", meter.setting.margin))
        }
        Record::Report => {
            let report = after.report().ok()?;
            Some(format!(
                "level {} {}\n",
                report.margin,
                u8::from(report.mark)
            ))
        }
        _ => None,
    }
}

/// 2 where a meter's margin is what refusal 2 finds, 0 where it finds nothing, else None.
fn refused(meter: &Meter) -> Option<u32> {
    let r = if meter.refusal_2() { 2 } else { 0 };
    (!meter.at_margin(USUAL_MARGIN).refusal_2()).then_some(r)
}
