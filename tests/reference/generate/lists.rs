//! Short lists of calls for demand 3.

use super::random::Random;
use super::script::Script;
use super::settings::{self, MARGINS, REFUSED_MARGINS};
use super::signals::{
    around, full_scale, furthest, grazing, hum_and_exact_shout, hum_and_shout, noise_within, ones,
    placed, signal,
};
use super::spacing;
use super::UNNAMED;
use crate::meter::Meter;
use crate::rate::{Rate, RATES};
use crate::records::Record;
use crate::setting::{Opening, Setting, USUAL_MARGIN};
use crate::speech::voice;
use crate::thresholds::{Thresholds, LENGTHS};
use std::iter;

/// About the most samples of a list, but for those with a level at a rate, which takes more.
const TOTAL: usize = 600;

/// So few samples that the calls of a list take all of them, but for very few lists.
const ALL_TAKEN: usize = 300;

/// How many signals are tried for one with some answer.
///
/// About one in ninety has a level at the margins 1 and 2, and most have one at the others: that none
/// of so many has one is no chance, but a margin at which no signal has a level.
const TRIED: usize = 10000;

/// What a list is for.
#[derive(Clone, Copy)]
enum Purpose {
    /// This refusal of the report.
    Refusal(u32),
    TwoCrossings,
    ThreeCrossings,
    Speech,
    /// A level at this margin.
    Margin(i64),
    /// This level, or, where it is none, any below 0.
    Level(Option<i64>),
    /// A level at this rate.
    Rate(&'static Rate),
    /// Whatever comes of it.
    Any,
}

/// The purposes that have a list in their turn, beside the margins.
const TURNS: [Purpose; 16] = [
    Purpose::Refusal(12),
    Purpose::Refusal(13),
    Purpose::Refusal(14),
    Purpose::Refusal(15),
    Purpose::Refusal(16),
    Purpose::TwoCrossings,
    Purpose::ThreeCrossings,
    Purpose::Speech,
    Purpose::Level(None),
    Purpose::Level(Some(-1)),
    Purpose::Level(Some(-2)),
    Purpose::Level(Some(-3)),
    Purpose::Rate(&RATES[1]),
    Purpose::Rate(&RATES[2]),
    Purpose::Rate(&RATES[3]),
    Purpose::Rate(&RATES[4]),
];

/// One list: an opening, so many calls, a show and a report; one seed in three has openings to refuse
/// before it, each of the margins and each kind of thresholds in its turn.
pub fn list(seed: u64, count: u64) -> Vec<u8> {
    let mut script = Script::new(seed);
    let purpose = purpose(seed);
    let rate = rate(&mut script.random, purpose);
    let usual = Setting {
        offset: offset(&mut script.random, seed),
        thresholds: thresholds(&mut script.random, seed, purpose),
        ..Setting::usual(rate.code)
    };
    let samples = samples(&mut script.random, rate, usual, purpose);
    let (meter, _) = Meter::open(usual).0.chunk(&samples);
    let margin = margin(&mut script.random, &meter, purpose);
    if seed % 3 == 2 {
        refused_openings(&mut script, rate.code, seed / 3);
    }
    let opening = settings::opening(&mut script.random, Setting { margin, ..usual });
    script.add(Record::Open(opening));
    let most = 3 * samples.len().max(TOTAL) as u64 / count.max(1) + 1;
    let mut rest = &samples[..];
    for _ in 0..count {
        if script.random.once_in(4) {
            let record = script.refused();
            script.add(record);
        } else {
            rest = accepted(&mut script, rest, most);
        }
    }
    script.add(Record::Show);
    script.add(Record::Report);
    script.bytes
}

/// The purpose of a list: of one seed in three one of the turns, of one in six one of the margins at
/// the bounds, each in its turn.
fn purpose(seed: u64) -> Purpose {
    let i = seed as usize;
    match i % 6 {
        0 | 3 => TURNS[i / 3 % TURNS.len()],
        1 => Purpose::Margin(MARGINS[i / 6 % MARGINS.len()]),
        _ => Purpose::Any,
    }
}

/// The rate of a list: one time in two that of code 1, and always where at others it would take more
/// samples.
fn rate(random: &mut Random, purpose: Purpose) -> &'static Rate {
    let any = random.pick(&[0, 0, 0, 0, 1, 2, 3, 4]);
    match purpose {
        Purpose::Rate(rate) => rate,
        Purpose::Refusal(15)
        | Purpose::TwoCrossings
        | Purpose::ThreeCrossings
        | Purpose::Level(_)
        | Purpose::Margin(_) => &RATES[0],
        _ => &RATES[any],
    }
}

/// The offset of a list; one seed in four has it at an end of the range.
fn offset(random: &mut Random, seed: u64) -> i16 {
    if seed % 4 == 0 {
        random.pick(&[i16::MIN, i16::MAX])
    } else {
        random.offset()
    }
}

/// The thresholds of a list: three crossings are made for the built-in ones, and levels below 0
/// need the lowest. Where there is a level at any thresholds, each number of them is in its turn.
fn thresholds(random: &mut Random, seed: u64, purpose: Purpose) -> Thresholds {
    match purpose {
        Purpose::ThreeCrossings => Thresholds::BUILT_IN,
        Purpose::Level(_) => spacing::lowest(random),
        Purpose::Margin(_) => {
            let length = LENGTHS.cycle().nth(seed as usize / 6);
            spacing::of_length(random, length.expect("it goes round") as usize)
        }
        _ => spacing::thresholds(random),
    }
}

/// A setting without its offset.
fn at_zero(setting: Setting) -> Setting {
    Setting {
        offset: 0,
        ..setting
    }
}

/// The samples of a list at a setting, of which the margin is still to choose.
fn samples(random: &mut Random, rate: &Rate, setting: Setting, purpose: Purpose) -> Vec<i16> {
    let at_zero = at_zero(setting);
    let samples = match purpose {
        Purpose::Any => return any_samples(random, setting),
        Purpose::Refusal(12) => Vec::new(),
        Purpose::Refusal(13) => vec![0; TOTAL],
        Purpose::Refusal(14) => (0..TOTAL).map(|_| random.once_in(16).into()).collect(),
        Purpose::Refusal(15) => too_quiet(random, at_zero),
        Purpose::Refusal(_) => return loud(random, rate, setting.offset),
        Purpose::TwoCrossings => hum_and_shout(random),
        Purpose::ThreeCrossings => hum_and_exact_shout(1 << random.below(8)),
        Purpose::Speech => spoken(random, rate),
        Purpose::Margin(margin) => of_margin(random, Setting { margin, ..at_zero }),
        Purpose::Level(level) => of_level(random, at_zero, level),
        Purpose::Rate(_) => steady(random, rate),
    };
    around(setting.offset, &samples)
}

/// The margin of a list whose samples lead to this meter: for refusal 15 d_0 is just negative, and
/// others often have a d_j of 0 or next to it. Three crossings are made for the usual margin, and so
/// is the level at a rate.
fn margin(random: &mut Random, meter: &Meter, purpose: Purpose) -> i64 {
    match purpose {
        Purpose::Margin(margin) => margin,
        Purpose::Level(level) => below_zero(meter, level).expect("it was tried"),
        Purpose::ThreeCrossings | Purpose::Rate(_) => USUAL_MARGIN,
        Purpose::TwoCrossings => settings::of_several(random, meter),
        Purpose::Refusal(15) => settings::above_first(meter).expect("it was tried"),
        _ if random.once_in(2) => settings::near_crossing(random, meter),
        _ => settings::margin(random),
    }
}

/// A margin at which a meter has this level, or any below 0, where there is one.
fn below_zero(meter: &Meter, level: Option<i64>) -> Option<i64> {
    let any = [-6000, -4000, -3000, -2000, -1000, -500, -200];
    let levels = level.map_or(any.to_vec(), |level| vec![level]);
    let mut margins = levels.iter().map(|&level| settings::of_level(meter, level));
    margins.find_map(|margin| margin)
}

/// Openings to refuse, without a named code and with one, for a margin in its turn, for a list with
/// faults in their turn, or for both, and a call on what each leaves.
fn refused_openings(script: &mut Script, named: u8, turn: u64) {
    let margin = REFUSED_MARGINS[turn as usize % REFUSED_MARGINS.len()];
    let [length, rise, end] = [0, 1, 2].map(|place| (turn % 7 + 1) >> place & 1 == 1);
    let list = Some(spacing::with_faults(&mut script.random, length, rise, end));
    let unnamed = UNNAMED[turn as usize % UNNAMED.len()];
    for code in [unnamed, named] {
        let right = Opening::from(settings::setting(&mut script.random, code));
        let of_margin = Opening {
            margin,
            ..right.clone()
        };
        let [of_list, of_both] = [&right, &of_margin].map(|opening| Opening {
            thresholds: list.clone(),
            ..opening.clone()
        });
        let all = [right, of_margin, of_list, of_both].into_iter();
        for opening in all.filter(|opening| opening.setting().refusal() != 0) {
            script.add(Record::Open(opening));
            script.add(Record::Chunk(vec![1]));
        }
    }
}

/// The first of many signals that is of some kind.
fn tried(
    mut signal: impl FnMut() -> Vec<i16>,
    of_kind: impl Fn(&[i16]) -> bool,
    kind: &str,
) -> Vec<i16> {
    let mut signals = iter::repeat_with(&mut signal).take(TRIED);
    let found = signals.find(|samples| of_kind(samples));
    found.unwrap_or_else(|| panic!("no signal of {TRIED} has {kind}"))
}

/// The meter after samples at a setting.
fn after(setting: Setting, samples: &[i16]) -> Meter {
    Meter::open(setting).0.chunk(samples).0
}

/// Noise for which refusal 15 is given at some margin that is accepted.
fn too_quiet(random: &mut Random, setting: Setting) -> Vec<i16> {
    let signal = || {
        let most = random.between(1, 6);
        noise_within(random, most, ALL_TAKEN)
    };
    let refused = |samples: &[i16]| {
        let meter = after(setting, samples);
        let margin = settings::above_first(&meter);
        margin.is_some_and(|margin| meter.at_margin(margin).report() == Err(15))
    };
    tried(signal, refused, "refusal 15")
}

/// Ones for which there is this level, or any below 0, at some margin.
fn of_level(random: &mut Random, setting: Setting, level: Option<i64>) -> Vec<i16> {
    let signal = || ones(random, RATES[0].I, ALL_TAKEN);
    let reached = |samples: &[i16]| below_zero(&after(setting, samples), level).is_some();
    tried(signal, reached, "such a level below 0")
}

/// A signal that has a level at a setting.
fn of_margin(random: &mut Random, setting: Setting) -> Vec<i16> {
    let signal = || signal(random, RATES[0].I, ALL_TAKEN);
    let has_level = |samples: &[i16]| after(setting, samples).report().is_ok();
    tried(signal, has_level, "a level at the margin")
}

/// The loudest samples for a hundredth of a second or so at the most, the last of them as far from
/// the offset as a sample can be.
fn loud(random: &mut Random, rate: &Rate, offset: i16) -> Vec<i16> {
    let few = random.below(rate.samples_per_second / 80) as usize;
    let mut samples = full_scale(random, few);
    samples.push(furthest(offset));
    samples
}

/// A stretch of a voice.
fn spoken(random: &mut Random, rate: &Rate) -> Vec<i16> {
    let voice = voice(rate, random.next());
    let start = random.below((voice.len() - TOTAL) as u64) as usize;
    voice[start..start + TOTAL].to_vec()
}

/// Samples of one size for 0.075 s, in which the envelope comes to 0.7 of it.
fn steady(random: &mut Random, rate: &Rate) -> Vec<i16> {
    let size = random.between(1000, 32767) as i16;
    let length = rate.samples_per_second * 75 / 1000;
    (0..length).map(|_| random.pick(&[size, -size])).collect()
}

/// Two signals, one that takes it all, or one that grazes a threshold.
fn any_samples(random: &mut Random, setting: Setting) -> Vec<i16> {
    let offset = setting.offset;
    if random.once_in(3) {
        return around(offset, &grazing(random, at_zero(setting), TOTAL));
    }
    let first = random.pick(&[0, TOTAL / 4, TOTAL / 2]);
    let mut samples = signal(random, RATES[0].I, first);
    samples.extend(signal(random, RATES[0].I, TOTAL - first));
    placed(random, offset, samples)
}

/// A chunk or a block of the signal's next samples, so many at the most; gives the samples left.
fn accepted<'a>(script: &mut Script, rest: &'a [i16], most: u64) -> &'a [i16] {
    let wanted = script.random.between(0, most) as usize;
    let (taken, rest) = rest.split_at(wanted.min(rest.len()));
    let record = script.taken(taken);
    script.add(record);
    rest
}
