//! What the script of a recording of blocks leads to.

use crate::block;
use crate::measurement;
use crate::rate::RATES;
use crate::replay::replay;
use crate::speech;
use crate::tally::Tally;
use crate::text;

/// Every figure.
pub fn recorded(tally: &mut Tally) {
    voices(tally);
    short(tally);
}

/// The lines of a report and of a meter at the end of those of a script.
fn end(script: &[u8]) -> Vec<String> {
    let lines = replay(script);
    let lines: Vec<String> = lines.lines().map(str::to_string).collect();
    lines[lines.len() - 2..].to_vec()
}

/// A voice in a recording of blocks is measured as it is in chunks, and so is nothing.
fn voices(tally: &mut Tally) {
    for rate in &RATES {
        let voice = speech::voice(rate, 1);
        for length in [0, 1, 248, 4000] {
            let samples = &voice[..length];
            let recording = block::pack(rate.code, samples);
            let by_block = end(&measurement::recorded(rate, &recording));
            let by_chunk = end(&speech::script(rate, samples));
            let name = format!("{length} samples recorded, code {}", rate.code);
            tally.equal(&name, by_block, by_chunk);
        }
    }
}

/// The scope's row of 32767 at code 2 in a block, and three bytes more.
fn short(tally: &mut Tally) {
    let block = block::make(2, 0, &[32767]);
    let recording = [&block[..], &block[..3]].concat();
    let lines = replay(&measurement::recorded(&RATES[1], &recording));
    let expected = text::answers(
        "open -> 0\nblock samples=32767 -> 0\nblock bytes=1,2,1 -> 4\nreport -> 14\n\
         show -> n=1 s=32767 sq=1073676289 P=2285825920 Q=9504509 h=1600*15\n",
    );
    tally.equal("a short block recorded", Ok(lines), expected);
}
