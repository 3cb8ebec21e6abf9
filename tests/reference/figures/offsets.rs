//! The figures of a standing offset (the customer's request L2).

use crate::doctored::altered;
use crate::generate::signals::around;
use crate::meter::{Meter, MOST_SAMPLES};
use crate::rate::RATES;
use crate::setting::Setting;
use crate::speech::voice;
use crate::tally::Tally;
use crate::thresholds::{placed, BUILT_IN_LENGTH};

/// Offsets at the ends of the range, next to none, and in between.
const OFFSETS: [i16; 7] = [-32768, -20000, -1, 0, 1, 300, 32767];

/// A code with an offset and the usual margin.
fn setting(code: u8, offset: i16) -> Setting {
    Setting {
        offset,
        ..Setting::usual(code)
    }
}

/// Every figure.
pub fn offsets(tally: &mut Tally) {
    openings(tally);
    bounds(tally);
    moved(tally);
}

/// A fresh meter keeps the offset; a refused opening leaves none.
fn openings(tally: &mut Tally) {
    for offset in OFFSETS {
        let fresh = Meter {
            setting: setting(2, offset),
            h: placed(&[1600; BUILT_IN_LENGTH]),
            ..Meter::zero()
        };
        tally.equal("fresh", Meter::open(setting(2, offset)), (fresh, 0));
        for code in [0, 6, 255] {
            let refused = Meter::open(setting(code, offset));
            tally.equal("refused", refused, (Meter::zero(), 1));
        }
    }
    tally.equal("offset of all zeros", Meter::zero().setting.offset, 0);
}

/// The bounds of refusal 2 on P, Q and sq, which are the same whatever the offset.
fn bounds(tally: &mut Tally) {
    for n in [0, 1, (1 << 32) - 1, 1 << 32, MOST_SAMPLES] {
        for offset in OFFSETS {
            let (fresh, _) = Meter::open(setting(2, offset));
            let (lowest, most) = (-i128::from(n) << 15, u128::from(n) << 32);
            let at_bounds = Meter {
                n,
                s: lowest as i64,
                sq: most,
                P: 1 << 40,
                Q: 1 << 40,
                ..fresh
            };
            let past = |change: &dyn Fn(&mut Meter)| altered(&at_bounds, change).refusal_2();
            let name = format!("refusal 2 at n {n}, offset {offset}");
            let refused = [
                past(&|_| ()),
                past(&|meter| meter.P += 1),
                past(&|meter| meter.Q += 1),
                past(&|meter| meter.sq += 1),
            ];
            tally.equal(&name, refused, [false, true, true, true]);
        }
    }
}

/// A voice around an offset is measured as it is around 0: only the offset and s are others.
fn moved(tally: &mut Tally) {
    let voice = &voice(&RATES[0], 1)[..4000];
    let (still, _) = Meter::open(setting(1, 0)).0.chunk(voice);
    for offset in OFFSETS {
        let samples = around(offset, voice);
        let expected = Meter {
            s: samples.iter().map(|&x| i64::from(x)).sum(),
            ..still.at_offset(offset)
        };
        let (moved, _) = Meter::open(setting(1, offset)).0.chunk(&samples);
        tally.equal(&format!("a voice around {offset}"), moved, expected);
    }
}
