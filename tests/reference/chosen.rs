//! What the reports of a script chose from: how many crossings, and of what kind the one used is.

use crate::meter::Meter;
use crate::records::Record;
use crate::replay::played;

/// A line for each report of a level, in the order of the script; None where the script has a bad
/// record.
pub fn chosen(script: &[u8]) -> Option<String> {
    let played = played(script)?.into_iter();
    let reports = played.filter(|(record, _)| matches!(record, Record::Report));
    Some(reports.filter_map(|(_, meter)| line(&meter)).collect())
}

/// The number of a meter's crossings and, of the one that is used, whether its d_j is `zero` or a
/// `change` of sign; None where no level is reported.
fn line(meter: &Meter) -> Option<String> {
    let report = meter.report().ok()?;
    let crossings = meter.crossings().count();
    let exact = report.lower == report.upper;
    let kind = if exact { "zero" } else { "change" };
    Some(format!("{crossings} {kind}\n"))
}
