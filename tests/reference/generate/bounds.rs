//! Meters to hand in at and just past each bound of refusal 2.

use super::meters::{falling, most_squares, plausible, MOST_ENVELOPE};
use super::random::Random;
use super::settings::{setting, REFUSED_MARGINS};
use super::spacing::{edges, loading, longer, of_wrong_end, of_wrong_rise};
use super::UNNAMED;
use crate::meter::{Meter, MOST_SAMPLES};
use crate::rate::rate;
use crate::setting::{LEAST_MARGIN, MOST_MARGIN};
use crate::thresholds::{placed, Thresholds, PLACES};

/// Meters at and just past each bound of refusal 2.
pub fn bounds(random: &mut Random, code: u8) -> Vec<Meter> {
    let mut meters = codes(random, code);
    meters.extend(offsets(random, code));
    meters.extend(margins(random, code));
    meters.extend(lengths(random, code));
    meters.extend(lists(random, code));
    meters.extend(past_end(random, code));
    meters.extend(totals(random, code));
    meters.extend(full_totals(random, code));
    meters.extend(squares_of_two_words(random, code));
    meters.extend(envelopes(random, code));
    meters.extend(counts(random, code));
    meters.extend(hangovers(random, code));
    meters.extend(unstarted(random, code));
    meters
}

/// Rate codes, named and not, each also with hangovers that have just begun, which no I forbids.
fn codes(random: &mut Random, code: u8) -> Vec<Meter> {
    let both = |given| {
        let meter = plausible(random, code).at_code(given);
        let begun = Meter {
            h: [0; PLACES],
            ..meter.clone()
        };
        [meter, begun]
    };
    [code].into_iter().chain(UNNAMED).flat_map(both).collect()
}

/// Offsets, of which refusal 2 says nothing: where totals and envelopes are at their bounds, and
/// where they are not.
fn offsets(random: &mut Random, code: u8) -> Vec<Meter> {
    let mut meters = Vec::new();
    for offset in [i16::MIN, -1, 0, 1, i16::MAX] {
        let meter = plausible(random, code).at_offset(offset);
        meters.push(Meter {
            s: (meter.n << 15) as i64,
            sq: most_squares(meter.n),
            P: MOST_ENVELOPE,
            Q: MOST_ENVELOPE,
            a: meter.all(meter.n),
            ..meter
        });
        meters.push(meter);
    }
    meters
}

/// Margins, at the ends of the range and outside it.
fn margins(random: &mut Random, code: u8) -> Vec<Meter> {
    let with = |margin| plausible(random, code).at_margin(margin);
    let margins = [LEAST_MARGIN, MOST_MARGIN].into_iter();
    margins.chain(REFUSED_MARGINS).map(with).collect()
}

/// A meter with this list and nothing past its end, and with hangovers that have run out within it.
fn with_list(random: &mut Random, code: u8, thresholds: Thresholds) -> Meter {
    let I = rate(u32::from(code)).expect("a named code").I;
    let meter = plausible(random, code).at_thresholds(thresholds);
    let a = falling(random, meter.n, meter.places().len());
    let h = meter.all(I);
    Meter { a, h, ..meter }
}

/// So many thresholds that load where 14 to 24 do: by doubling up to 2^39 or less, the first of more
/// than 17 a unit apart.
fn doubling(count: u64) -> Vec<u64> {
    let close = (0..count.saturating_sub(17)).map(|j| (1 << 22) + j);
    let first = if count > 16 { 23 } else { 24 };
    let doubled = (0..count.min(17)).map(|j| 1 << (first + j));
    close.chain(doubled).collect()
}

/// Lengths in the range, just outside it and far, on lists that have as many thresholds where there
/// are places; those past the range also on the built-in list, which has some of them in its lowest
/// byte or word.
fn lengths(random: &mut Random, code: u8) -> Vec<Meter> {
    let within = [0, 1, 12, 13, 14, 15, 16, 17, 18, 23, 24];
    let past = [25, 256 + 15, (1 << 32) + 15, (1 << 63) + 15, u64::MAX];
    let mut meters = Vec::new();
    for length in within.into_iter().chain(past) {
        let thresholds = Thresholds {
            length,
            places: placed(&doubling(length.min(PLACES as u64))),
        };
        meters.push(with_list(random, code, thresholds));
    }
    for length in past {
        let mut meter = with_list(random, code, Thresholds::BUILT_IN);
        meter.setting.thresholds.length = length;
        meters.push(meter);
    }
    meters
}

/// Lists that load, at every edge, and ones that do not for their rise or for an end.
fn lists(random: &mut Random, code: u8) -> Vec<Meter> {
    let mut lists = edges(random);
    for _ in 0..6 {
        lists.push(of_wrong_rise(random));
        lists.push(of_wrong_end(random));
    }
    let with = |list: Vec<u64>| with_list(random, code, Thresholds::of(&list));
    lists.into_iter().map(with).collect()
}

/// Something past the end of a list among thresholds, counts or hangovers, right past it or in the
/// last place: as it would go on within the list, or else.
fn past_end(random: &mut Random, code: u8) -> Vec<Meter> {
    let mut meters = Vec::new();
    for kind in 0..3 {
        for last in [false, true] {
            let list = shorter(random);
            let mut meter = with_list(random, code, list);
            let end = meter.places().len();
            let place = if last { PLACES - 1 } else { end };
            let places = match kind {
                0 => &mut meter.setting.thresholds.places,
                1 => &mut meter.a,
                _ => &mut meter.h,
            };
            let (before, any) = (places[end - 1], random.next());
            let number = random.pick(&[1, before, 2 * before, any]);
            places[place] = number.max(1);
            meters.push(meter);
        }
    }
    meters
}

/// A list that loads and does not fill its places.
fn shorter(random: &mut Random) -> Thresholds {
    let list = Thresholds::of(&loading(random));
    if list.count() < PLACES {
        list
    } else {
        Thresholds::BUILT_IN
    }
}

/// n, s and sq.
fn totals(random: &mut Random, code: u8) -> Vec<Meter> {
    let mut meters = Vec::new();
    for n in [MOST_SAMPLES, MOST_SAMPLES + 1, u64::MAX] {
        meters.push(Meter {
            n,
            ..plausible(random, code)
        });
    }
    for (sign, more) in [(1, 0), (1, 1), (-1, 0), (-1, 1)] {
        let meter = plausible(random, code);
        let most = (meter.n << 15) as i64;
        meters.push(Meter {
            s: sign * (most + more),
            ..meter
        });
    }
    for more in [0, 1] {
        let meter = plausible(random, code);
        meters.push(Meter {
            sq: most_squares(meter.n) + more,
            ..meter
        });
    }
    meters.push(Meter {
        sq: u128::MAX,
        ..plausible(random, code)
    });
    let meter = plausible(random, code);
    meters.push(Meter {
        n: 1 << 20,
        s: 0,
        sq: 1 << 64,
        a: meter.all(1),
        ..meter
    });
    meters
}

/// s and sq at n = 2^48 and next to it.
fn full_totals(random: &mut Random, code: u8) -> Vec<Meter> {
    let mut meters = Vec::new();
    for n in [MOST_SAMPLES - 1, MOST_SAMPLES] {
        for s in [i64::MIN, i64::MIN + 1, i64::MAX - 32767, i64::MAX] {
            meters.push(Meter {
                n,
                s,
                ..plausible(random, code)
            });
        }
        for sq in [most_squares(n) - 1, most_squares(n), most_squares(n) + 1] {
            meters.push(Meter {
                n,
                sq,
                ..plausible(random, code)
            });
        }
    }
    meters.push(Meter {
        s: i64::MIN,
        ..plausible(random, code)
    });
    meters
}

/// sq at its bound and just past it, where the bound grows out of one word.
fn squares_of_two_words(random: &mut Random, code: u8) -> Vec<Meter> {
    let mut meters = Vec::new();
    for n in [(1 << 32) - 1, 1 << 32, (1 << 32) + 1] {
        for more in [0, 1] {
            let meter = plausible(random, code);
            meters.push(Meter {
                n,
                s: 0,
                sq: most_squares(n) + more,
                a: falling(random, n, meter.places().len()),
                ..meter
            });
        }
    }
    meters
}

/// P and Q.
fn envelopes(random: &mut Random, code: u8) -> Vec<Meter> {
    let mut meters = Vec::new();
    for envelope in [MOST_ENVELOPE, MOST_ENVELOPE + 1, u64::MAX] {
        meters.push(Meter {
            P: envelope,
            ..plausible(random, code)
        });
        meters.push(Meter {
            Q: envelope,
            ..plausible(random, code)
        });
        meters.push(Meter {
            P: envelope,
            Q: envelope,
            ..plausible(random, code)
        });
    }
    meters
}

/// A meter that refusal 2 lets pass, whose list has at least so many thresholds.
fn of_length(random: &mut Random, code: u8, least: usize) -> Meter {
    let list = longer(random, least as u64);
    with_list(random, code, list)
}

/// The first numbers, so many of them, and then the others up to the end of a meter's list.
fn stepped(meter: &Meter, first: u64, count: usize, other: u64) -> [u64; PLACES] {
    let mut places = meter.all(other);
    places[..count].fill(first);
    places
}

/// a_j against n and against each other, up to the end of the list.
fn counts(random: &mut Random, code: u8) -> Vec<Meter> {
    let mut meters = Vec::new();
    for more in [0, 1] {
        let mut meter = plausible(random, code);
        meter.a[0] = meter.n + more;
        meters.push(meter);
        let meter = plausible(random, code);
        meters.push(Meter {
            a: meter.all(meter.n + more),
            ..meter
        });
    }
    for j in 1..PLACES {
        for more in [0, 1] {
            let meter = of_length(random, code, j + 1);
            let half = meter.n / 2;
            let a = stepped(&meter, half, j, half + more);
            meters.push(Meter { a, ..meter });
        }
    }
    meters
}

/// h_j against I and against each other, up to the end of the list.
fn hangovers(random: &mut Random, code: u8) -> Vec<Meter> {
    let I = rate(u32::from(code)).expect("a named code").I;
    let mut meters = Vec::new();
    for last in [I, I + 1, u64::MAX] {
        let meter = plausible(random, code);
        let h = meter.all(last);
        meters.push(Meter { h, ..meter });
        let mut meter = plausible(random, code);
        let end = meter.places().len();
        meter.h[end - 1] = last;
        meters.push(meter);
    }
    for j in 1..PLACES {
        for more in [0, 1] {
            let meter = of_length(random, code, j + 1);
            let h = stepped(&meter, I / 2 + more, j, I / 2);
            meters.push(Meter { h, ..meter });
        }
    }
    meters
}

/// Meters of no samples, of which only the envelopes may be above 0.
fn unstarted(random: &mut Random, code: u8) -> Vec<Meter> {
    let (fresh, _) = Meter::open(setting(random, code));
    let mut counted = fresh.clone();
    counted.a[0] = 1;
    vec![
        Meter {
            P: 1 << 30,
            Q: 1 << 26,
            ..fresh.clone()
        },
        Meter {
            h: [0; PLACES],
            ..fresh.clone()
        },
        Meter {
            s: 1,
            ..fresh.clone()
        },
        Meter {
            s: -1,
            ..fresh.clone()
        },
        Meter { sq: 1, ..fresh },
        counted,
    ]
}
