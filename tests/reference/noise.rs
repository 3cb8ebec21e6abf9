//! The noise of a converter.

use crate::generate::random::Random;

/// The samples with whole noise of at most so many intervals added to each, every value as likely
/// as any other; what is too loud for 16 bits clips.
pub fn noisy(samples: &[i16], most: u16, seed: u64) -> Vec<i16> {
    let mut random = Random::new(seed);
    let most = u64::from(most);
    let noisy = samples.iter().map(|&x| {
        let noise = random.between(0, 2 * most) as i64 - most as i64;
        (i64::from(x) + noise).clamp(-32768, 32767) as i16
    });
    noisy.collect()
}
