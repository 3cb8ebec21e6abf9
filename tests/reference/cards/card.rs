//! A card on a line: what was given to it, by E's rules, and what its meter counted.

use crate::block;
use crate::exact::Exact;
use crate::printed;
use crate::rate::rate;
use crate::records::{block_calls, Record};
use crate::report::RATE;
use crate::setting::Setting;
use crate::tally::Tally;
use crate::thresholds::PLACES;

/// A card whose opening is accepted.
pub struct Card {
    pub setting: Setting,
    /// E after the calls.
    pub exact: Exact,
    /// The samples that E took, in order.
    pub samples: Vec<i16>,
    /// The calls that E accepted, in order: whether each is a block, and how many samples it has.
    pub cut: Vec<(bool, usize)>,
    /// Whether E refused a call.
    pub refused: bool,
    /// What the card's meter counted.
    pub a: [u64; PLACES],
}

impl Card {
    /// A card that was given nothing yet; None where the opening is to be refused.
    fn open(setting: Setting, a: [u64; PLACES]) -> Option<Card> {
        let rate = rate(u32::from(setting.code)).filter(|_| setting.refusal() == 0)?;
        Some(Card {
            setting,
            exact: Exact::open(rate, setting.offset),
            samples: Vec::new(),
            cut: Vec::new(),
            refused: false,
            a,
        })
    }

    /// The thresholds of the card's meter (the customer's request L8).
    pub fn list(&self) -> &[u64] {
        self.setting.thresholds.entries()
    }

    /// Gives the card a call, of which the samples are taken where E accepts it.
    fn call(&mut self, record: &Record) {
        let (accepted, is_block, samples) = match record {
            Record::Chunk(samples) => (self.exact.chunk(samples), false, samples.clone()),
            Record::Block(bytes) => (self.exact.block(bytes), true, block::samples(bytes)),
            _ => return,
        };
        if accepted {
            self.cut.push((is_block, samples.len()));
            self.samples.extend(samples);
        } else {
            self.refused = true;
        }
    }

    /// Gives the card all its calls, and checks that its meter took as many samples as E.
    fn given(mut self, tally: &mut Tally, name: &str, calls: &[Record], n: u64) -> Card {
        for record in calls {
            self.call(record);
        }
        tally.equal(&format!("{name}: n"), n, self.exact.y);
        self
    }

    /// |x - o| of each sample that was taken (the customer's request L2).
    pub fn sizes(&self) -> impl Iterator<Item = u64> + '_ {
        let offset = i64::from(self.setting.offset);
        let size = move |&x: &i16| (i64::from(x) - offset).unsigned_abs();
        self.samples.iter().map(size)
    }
}

/// The opening and the calls of records that are an opening, calls and a show.
fn opening_and_calls(records: &[Record]) -> Option<(Setting, &[Record])> {
    let [Record::Open(opening), calls @ .., Record::Show] = records else {
        return None;
    };
    let is_call = |record: &Record| matches!(record, Record::Chunk(_) | Record::Block(_));
    let list = (opening.setting(), calls);
    calls.iter().all(is_call).then_some(list)
}

/// The card of a script and of the lines that a replay program printed for it; None, with a check
/// that fails, where it is no list of calls, where the opening is to be refused, or where no meter
/// is shown.
pub fn played(tally: &mut Tally, name: &str, records: &[Record], output: &str) -> Option<Card> {
    let lines: Vec<&str> = output.lines().collect();
    let one_each = format!("{name}: one line for each record");
    tally.equal(&one_each, lines.len(), records.len());
    let list = opening_and_calls(records);
    tally.holds(
        &format!("{name}: an opening, calls, a show"),
        list.is_some(),
    );
    let shown = lines.last().and_then(|line| printed::meter(line));
    tally.holds(&format!("{name}: a meter shown"), shown.is_some());
    let ((setting, calls), meter) = (list?, shown?);
    let card = Card::open(setting, meter.a);
    tally.holds(&format!("{name}: an opening to accept"), card.is_some());
    Some(card?.given(tally, name, calls, meter.n))
}

/// The card of a recording and of the lines that the report program printed for it; None, with a
/// check that fails, where these have no n and a_j.
pub fn recorded(tally: &mut Tally, name: &str, recording: &[u8], output: &str) -> Option<Card> {
    let measured = printed::measured(output);
    tally.holds(&format!("{name}: n and counts"), measured.is_some());
    let (n, a) = measured?;
    let calls: Vec<Record> = block_calls(recording).collect();
    let card = Card::open(Setting::usual(RATE.code), a)?;
    Some(card.given(tally, name, &calls, n))
}
