//! The samples of a card, cut into calls.

use super::random::Random;
use super::script::Script;
use crate::records::Record;
use crate::setting::Setting;

/// How a card is given its samples.
pub struct Cut {
    /// The seed of all chances in it.
    pub seed: u64,
    /// How many calls take the samples.
    pub calls: u64,
    /// Whether calls to refuse stand among them, one at the least.
    pub refuses: bool,
}

/// A script that gives a card its samples: an opening, the calls and a show.
pub fn script(setting: Setting, samples: &[i16], cut: &Cut) -> Vec<u8> {
    let mut script = Script::new(cut.seed);
    script.add(Record::open(setting));
    let parts = parts(&mut script.random, samples, cut.calls);
    let one = script.random.below(parts.len() as u64) as usize;
    for (i, part) in parts.into_iter().enumerate() {
        if cut.refuses && (i == one || script.random.once_in(4)) {
            let record = script.refused();
            script.add(record);
        }
        let record = script.taken(part);
        script.add(record);
    }
    script.add(Record::Show);
    script.bytes
}

/// The samples in so many parts, one at the least; about one in five is empty.
fn parts<'a>(random: &mut Random, samples: &'a [i16], count: u64) -> Vec<&'a [i16]> {
    let whole = samples.len();
    let mut places = vec![0, whole];
    for i in 1..count as usize {
        let any = random.between(0, whole as u64) as usize;
        let place = if random.once_in(5) { places[i] } else { any };
        places.push(place);
    }
    places.sort();
    let ends = places.windows(2);
    ends.map(|ends| &samples[ends[0]..ends[1]]).collect()
}
