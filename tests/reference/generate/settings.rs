//! What to open with: margins at and next to each bound, any others, and those at which a meter has
//! some kind of crossing; each with a list of thresholds.

use super::random::Random;
use super::spacing::{self, thresholds};
use super::UNNAMED;
use crate::meter::Meter;
use crate::setting::{
    in_range, Opening, Setting, LEAST_MARGIN, MARKED_BELOW, MOST_MARGIN, USUAL_MARGIN,
};

/// Margins to accept: at the bounds of the range and of the mark, next to them, and the usual one.
pub const MARGINS: [i64; 8] = [
    LEAST_MARGIN,
    LEAST_MARGIN + 1,
    MARKED_BELOW - 1,
    MARKED_BELOW,
    MARKED_BELOW + 1,
    USUAL_MARGIN,
    MOST_MARGIN - 1,
    MOST_MARGIN,
];

/// Margins to refuse: next to the range, with the other sign, furthest from it, and those that would
/// be in the range if only their lowest 16, 32 or 63 bits were read.
///
/// They are numbers, not made from the bounds, since the figures hold the bounds to them.
pub const REFUSED_MARGINS: [i64; 13] = [
    0,
    -1,
    22315,
    -21635,
    i64::MIN,
    i64::MAX,
    1 + (1 << 16),
    21635 + (1 << 16),
    21635 + (1 << 32),
    21635 - (1 << 32),
    22314 - (1 << 32),
    1 + i64::MIN,
    21635 + i64::MIN,
];

/// A margin to accept: one of those, or any.
pub fn margin(random: &mut Random) -> i64 {
    let any = random.between(LEAST_MARGIN as u64, MOST_MARGIN as u64) as i64;
    let at_bound = random.pick(&MARGINS);
    random.pick(&[at_bound, any])
}

/// A margin to refuse: one of those, or, one time in four, any.
fn refused_margin(random: &mut Random) -> i64 {
    let any = random.next() as i64;
    let near = random.pick(&REFUSED_MARGINS);
    if random.once_in(4) && !in_range(any) {
        any
    } else {
        near
    }
}

/// A code with any offset, a margin to accept and a list that loads.
pub fn setting(random: &mut Random, code: u8) -> Setting {
    Setting {
        code,
        offset: random.offset(),
        margin: margin(random),
        thresholds: thresholds(random),
    }
}

/// The opening with a setting; one time in two its list is written out, the built-in one too.
pub fn opening(random: &mut Random, setting: Setting) -> Opening {
    let opening = Opening::from(setting);
    if random.once_in(2) {
        opening.written_out()
    } else {
        opening
    }
}

/// An opening with a code, to refuse for its margin or, more often, for its list.
pub fn refused_opening(random: &mut Random, code: u8) -> Opening {
    let setting = setting(random, code);
    let opening = opening(random, setting);
    if random.once_in(3) {
        let margin = refused_margin(random);
        return Opening { margin, ..opening };
    }
    Opening {
        thresholds: Some(spacing::refused(random)),
        ..opening
    }
}

/// Openings with each choice of the numbers that apply, 1, 17, 19, 20 and 21, none of them among
/// it.
pub fn faulty_openings(random: &mut Random, named: u8) -> Vec<Opening> {
    let with = |choice: u32| {
        let fault = |place: u32| choice >> place & 1 == 1;
        let unnamed = random.pick(&UNNAMED);
        let code = if fault(0) { unnamed } else { named };
        let setting = setting(random, code);
        let wrong = refused_margin(random);
        let margin = if fault(1) { wrong } else { setting.margin };
        let list = spacing::with_faults(random, fault(2), fault(3), fault(4));
        Opening {
            margin,
            thresholds: Some(list),
            ..Opening::from(setting)
        }
    };
    (0..32).map(with).collect()
}

/// The margin at which d_j of a meter is 0, where there is a d_j.
fn exact(meter: &Meter, j: usize) -> Option<i64> {
    Some(meter.d(j)? + meter.setting.margin)
}

/// A margin to accept at which some d_j of a meter is 0 or a step from it, where there is one.
pub fn near_crossing(random: &mut Random, meter: &Meter) -> i64 {
    let exact = meter.places().filter_map(|j| exact(meter, j));
    let near = exact.flat_map(|margin| margin - 1..=margin + 1);
    let near: Vec<i64> = near.filter(|&margin| in_range(margin)).collect();
    if near.is_empty() {
        margin(random)
    } else {
        random.pick(&near)
    }
}

/// A margin to accept at which a meter has just this active level, where there is one near the
/// place at which the line between two thresholds has it.
pub fn of_level(meter: &Meter, level: i64) -> Option<i64> {
    let point = |j: usize| {
        let C_j = meter.setting.thresholds.C_(j)?;
        Some((C_j + exact(meter, j)?, C_j))
    };
    let near = |j: usize| {
        let ((A_lower, C_lower), (A_upper, C_upper)) = (point(j - 1)?, point(j)?);
        let whole = (A_upper - A_lower).max(1);
        let C = C_lower + (C_upper - C_lower) * (level - A_lower) / whole;
        (A_lower..=A_upper).contains(&level).then_some(level - C)
    };
    let margins = meter.places().skip(1).filter_map(near);
    let mut margins = margins.flat_map(|margin| margin - 3..=margin + 3);
    let reached = |margin: i64| meter.at_margin(margin).report().map(|report| report.A);
    margins.find(|&margin| reached(margin) == Ok(level))
}

/// The margin at which d_0 of a meter is -1, where that is one to accept.
pub fn above_first(meter: &Meter) -> Option<i64> {
    let above = exact(meter, 0).map(|margin| margin + 1);
    above.filter(|&margin| in_range(margin))
}

/// A margin to accept at which a meter has several crossings, where one of many tried is such.
pub fn of_several(random: &mut Random, meter: &Meter) -> i64 {
    let mut tried = (0..200).map(|_| margin(random));
    let several = tried.find(|&margin| meter.at_margin(margin).crossings().count() >= 2);
    several.unwrap_or_else(|| margin(random))
}
