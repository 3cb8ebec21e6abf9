//! The lines that a replay program prints, and those of the report program, read back.

use crate::fields::Value;
use crate::meter::{Meter, Report};
use crate::replay::write_line;
use crate::thresholds::{placed, Thresholds, PLACES};

/// The numbers after a line's first word, where that word is the one wanted.
pub fn numbers(line: &str, word: &str) -> Option<Vec<i128>> {
    let rest = line.strip_prefix(word)?.strip_prefix(' ')?;
    rest.split(' ').map(|number| number.parse().ok()).collect()
}

/// The report of a report's line, or the number of its refusal, which stands alone.
pub fn report(line: &str) -> Option<Result<Report, u32>> {
    match numbers(line, "report")?[..] {
        [0, ref values @ ..] => Some(Ok(Report::of(values)?)),
        [r] => Some(Err(u32::try_from(r).ok()?)),
        _ => None,
    }
}

/// The meter of a show's line.
pub fn meter(line: &str) -> Option<Meter> {
    Meter::of(&numbers(line, "meter")?)
}

fields! {
    /// The levels that the report program prints on one line.
    pub struct Level {
        L: i64,
        A: i64,
        C: i64,
        F: i64,
    }
}

/// Those of such a line.
pub fn level(line: &str) -> Option<Level> {
    Level::of(&numbers(line, "level")?)
}

/// The n and the a_j of the built-in list that the report program printed, each on its own line.
pub fn measured(output: &str) -> Option<(u64, [u64; PLACES])> {
    let line = |word| output.lines().find_map(|line| numbers(line, word));
    let [n] = line("samples")?[..] else {
        return None;
    };
    let counts = Vec::of(&line("counts")?)?;
    let all = counts.len() == Thresholds::BUILT_IN.count();
    all.then_some((u64::try_from(n).ok()?, placed(&counts)))
}

/// The number of a write's line and the buffer's bytes; None for any other form than that of the
/// line, in lower case and with no space at its end.
pub fn write(line: &str) -> Option<(u32, Vec<u8>)> {
    let rest = line.strip_prefix("write ")?;
    let (r, digits) = rest.split_once(' ').unwrap_or((rest, ""));
    let r = r.parse().ok()?;
    let bytes: Option<Vec<u8>> = digits.as_bytes().chunks(2).map(byte).collect();
    let buffer = bytes?;
    (write_line(r, &buffer) == line).then_some((r, buffer))
}

/// A byte in hexadecimal.
fn byte(digits: &[u8]) -> Option<u8> {
    u8::from_str_radix(std::str::from_utf8(digits).ok()?, 16).ok()
}
