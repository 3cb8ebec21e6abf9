//! Signals to measure.

use super::random::Random;
use crate::meter::Meter;
use crate::setting::Setting;

/// A signal of some kind; its pauses outlast a hangover of I samples.
pub fn signal(random: &mut Random, I: u64, length: usize) -> Vec<i16> {
    match random.below(8) {
        0 => vec![0; length],
        1 => vec![loud_sample(random); length],
        2 => triangle(random, length),
        3 => noise(random, length),
        4 | 5 => bursts(random, I, length),
        6 => full_scale(random, length),
        _ => settling(random, length),
    }
}

/// The samples around an offset: each as far from it as it was from 0, on the same side where there
/// is room and else on the other. But for s, a meter of that offset then measures what one of none
/// would.
pub fn around(offset: i16, samples: &[i16]) -> Vec<i16> {
    let at = |x: i16| offset.checked_add(x).or(offset.checked_sub(x));
    let placed = samples.iter().map(|&x| at(x).expect("room on one side"));
    placed.collect()
}

/// The samples around an offset, or, one time in three, as they are: those lie up to 65535 from it.
pub fn placed(random: &mut Random, offset: i16, samples: Vec<i16>) -> Vec<i16> {
    if offset == 0 || random.once_in(3) {
        samples
    } else {
        around(offset, &samples)
    }
}

/// The sample furthest from an offset.
pub fn furthest(offset: i16) -> i16 {
    if offset < 0 {
        i16::MAX
    } else {
        i16::MIN
    }
}

/// A sample of any bit length.
fn loud_sample(random: &mut Random) -> i16 {
    let most = 1 << random.between(0, 15);
    random.sample(most)
}

/// A tone in the shape of a triangle.
fn triangle(random: &mut Random, length: usize) -> Vec<i16> {
    let quarter = random.between(1, 40) as i64;
    let peak = (1 << random.between(0, 15)) - 1;
    let height = |i: usize| {
        let phase = i as i64 % (4 * quarter);
        let distance = (phase - 2 * quarter).abs() - quarter;
        (peak * distance / quarter) as i16
    };
    (0..length).map(height).collect()
}

/// Noise of some loudness.
pub fn noise(random: &mut Random, length: usize) -> Vec<i16> {
    let most = 1 << random.between(0, 15);
    noise_within(random, most, length)
}

/// Noise no larger than this either way.
pub fn noise_within(random: &mut Random, most: u64, length: usize) -> Vec<i16> {
    (0..length).map(|_| random.sample(most)).collect()
}

/// Noise with pauses longer than the hangover.
pub fn bursts(random: &mut Random, I: u64, length: usize) -> Vec<i16> {
    let mut samples = Vec::new();
    while samples.len() < length {
        let burst = random.between(1, I) as usize;
        samples.extend(noise(random, burst));
        let pause = random.between(I + 1, 3 * I) as usize;
        samples.extend(vec![0; pause]);
    }
    samples.truncate(length);
    samples
}

/// The loudest samples of either sign.
pub fn full_scale(random: &mut Random, length: usize) -> Vec<i16> {
    match random.below(3) {
        0 => vec![-32768; length],
        1 => vec![32767; length],
        _ => (0..length).map(|_| random.pick(&[-32768, 32767])).collect(),
    }
}

/// A loud start that sinks onto the value of a threshold, which an exact envelope stays above.
fn settling(random: &mut Random, length: usize) -> Vec<i16> {
    let threshold = 1 << random.between(0, 13);
    let start = random.between(1, 60) as usize;
    (0..length)
        .map(|i| if i < start { 2 * threshold } else { threshold })
        .collect()
}

/// So quiet that its level is below 0: ones, few or many of them, with pauses that outlast a
/// hangover of I samples.
pub fn ones(random: &mut Random, I: u64, length: usize) -> Vec<i16> {
    let mut samples = Vec::new();
    while samples.len() < length {
        let one_in = random.fraction_between(1.0, 4.0);
        let burst = random.between(I, 2 * I);
        let once = |_| random.fraction_between(0.0, one_in) < 1.0;
        samples.extend((0..burst).map(once).map(i16::from));
        let pause = random.pick(&[0, 2 * I]);
        samples.extend(vec![0; pause as usize]);
    }
    samples.truncate(length);
    samples
}

/// Steady hum that ends in a shout, for which code 1 has a crossing each.
pub fn hum_and_shout(random: &mut Random) -> Vec<i16> {
    let unit = 1 << random.below(10);
    let hum = vec![3 * unit; random.between(250, 350) as usize];
    let loudness = random.between(24, 30) as i16;
    let shout = vec![loudness * unit; random.between(30, 40) as usize];
    [hum, shout].concat()
}

/// Hum and a shout for which code 1 has three crossings: a change of sign and, right above it, two
/// where d_j is 0. Twice the unit has them one j higher, up to a unit of 128.
pub fn hum_and_exact_shout(unit: i16) -> Vec<i16> {
    let samples = [&[22][..], &[31; 104], &[174; 23]].concat();
    samples.into_iter().map(|x| unit * x).collect()
}

/// Noise, a kick that brings Q to within a few units of a threshold not reached before, silence;
/// the setting has no offset.
pub fn grazing(random: &mut Random, setting: Setting, length: usize) -> Vec<i16> {
    let start = random.between(60, 200) as usize;
    let most = 1 << random.between(0, 10);
    let mut samples = noise_within(random, most, start);
    let (meter, _) = Meter::open(setting).0.chunk(&samples);
    let mut thresholds = setting.thresholds.entries().iter().zip(meter.a);
    let unreached = thresholds.find(|(_, a_j)| *a_j == 0);
    let (&c_j, _) = unreached.expect("quiet noise leaves thresholds unreached");
    let target = c_j - 16 + random.below(24);
    let kicks = (0..20000).map(|_| kick(random, &meter, c_j, target));
    let nearest = kicks.min_by_key(|&(distance, _)| distance);
    samples.extend(nearest.expect("there are kicks").1);
    samples.resize(length, 0);
    samples
}

/// Samples whose last brings Q as near to the target as it can, and how far that is.
fn kick(random: &mut Random, meter: &Meter, c_j: u64, target: u64) -> (u64, Vec<i16>) {
    let length = random.pick(&[1, 5, 20]);
    let mut samples = noise(random, length);
    let (meter, _) = meter.chunk(&samples);
    let Q = |x: i16| meter.chunk(&[x]).0.Q;
    let (mut low, mut high) = (0, 32767);
    while low < high {
        let middle = low + (high - low) / 2;
        if Q(middle) < target {
            low = middle + 1;
        } else {
            high = middle;
        }
    }
    samples.push(low);
    let reached_before = if meter.Q < c_j { 0 } else { u64::MAX / 2 };
    (reached_before + Q(low).abs_diff(target), samples)
}
