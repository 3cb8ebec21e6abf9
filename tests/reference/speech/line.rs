//! Speech on a line that carries something else as well.

use super::voice::Voice;
use crate::float;
use crate::generate::random::Random;

/// What is on the line, speech and the rest apart, sample by sample.
pub struct Line {
    pub speech: Vec<i16>,
    pub rest: Vec<i16>,
}

impl Line {
    /// A voice and the rest, the voice of so much energy relative to that.
    pub fn new(voice: &Voice, rest: Vec<i16>, energy: f64) -> Line {
        let spoken: f64 = voice.spoken.iter().map(|x| x * x).sum();
        let loudness = (energy * float::squares(&rest) / spoken).sqrt();
        let speech = voice.spoken.iter().map(|x| (loudness * x).round() as i16);
        Line {
            speech: speech.collect(),
            rest,
        }
    }

    /// A voice in a seed's white noise, of so many quantizing intervals root mean square; the voice
    /// of so much energy relative to it.
    pub fn in_noise(voice: &Voice, seed: u64, noise: f64, energy: f64) -> Line {
        let mut random = Random::new(!seed);
        let heard = voice.spoken.iter();
        let heard = heard.map(|_| (noise * random.gaussian()).round() as i16);
        Line::new(voice, heard.collect(), energy)
    }

    /// Both together; what is too loud for 16 bits clips.
    pub fn samples(&self) -> Vec<i16> {
        let pairs = self.rest.iter().zip(&self.speech);
        pairs.map(|(rest, x)| rest.saturating_add(*x)).collect()
    }
}
