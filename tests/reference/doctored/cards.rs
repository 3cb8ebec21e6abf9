//! Wrong answers to the calls of two cards on one line, and cards that are no pair (the customer's
//! request L7).

use super::thresholds::fine;
use super::{played, USUAL};
use crate::block;
use crate::cards::{cards as held_to, compared};
use crate::meter::Meter;
use crate::records::{script, Record};
use crate::replay::{meter_line, replay};
use crate::report::report;
use crate::setting::Setting;
use crate::tally::Tally;
use crate::thresholds::{placed, Thresholds};

/// The ways round.
const THERE: &str = "first against second";
const BACK: &str = "second against first";

/// The clauses.
const RAISED: &str = "E's count at the raised threshold";
const EXCESS: &str = "the excess of the count";
const APART: &str = "the counts d apart";

/// Every wrong answer.
pub fn cards(tally: &mut Tally) {
    counts(tally);
    next_threshold(tally);
    refused_counted(tally);
    raw_sizes(tally);
    raw_sizes_mirrored(tally);
    lists(tally);
    no_pair(tally);
    lines(tally);
    recordings(tally);
}

/// A script with its lines, but for the last, and the meter that is shown on that.
struct Card {
    script: Vec<u8>,
    lines: String,
    meter: Meter,
}

impl Card {
    /// An opening, some calls and a show.
    fn new(setting: Setting, calls: &[Record]) -> Card {
        let (script, lines, meter) = played(setting, calls);
        Card {
            script,
            lines,
            meter,
        }
    }

    /// The card of one chunk.
    fn of_chunk(setting: Setting, samples: &[i16]) -> Card {
        Card::new(setting, &[Record::Chunk(samples.to_vec())])
    }

    /// The same card with another meter shown.
    fn showing(&self, meter: Meter) -> Card {
        Card {
            script: self.script.clone(),
            lines: self.lines.clone(),
            meter,
        }
    }

    /// The same card with a count changed.
    fn counting(&self, j: usize, a_j: u64) -> Card {
        let mut meter = self.meter.clone();
        meter.a[j] = a_j;
        self.showing(meter)
    }

    /// What is printed for it.
    fn printed(&self) -> String {
        format!("{}{}\n", self.lines, meter_line(&self.meter))
    }
}

/// The checks that fail for two cards.
fn failed([first, second]: [&Card; 2]) -> Vec<String> {
    let scripts = [&first.script[..], &second.script];
    let printed = [&first.printed()[..], &second.printed()];
    let held = held_to(scripts, printed).expect("no record is bad");
    held.tally.failed().to_vec()
}

/// Checks that for two cards these checks fail, and no other.
fn fails(tally: &mut Tally, name: &str, cards: [&Card; 2], checks: &[String]) {
    tally.equal(name, &failed(cards)[..], checks);
}

/// A clause that breaks one way round at some j.
fn at(way: &str, j: usize, clause: &str) -> String {
    format!("{way}, j {j}: {clause}")
}

/// Counts one off where E's count at the raised threshold is the meters' own: the second's less,
/// both less, the first's more.
fn counts(tally: &mut Tally) {
    let right = Card::of_chunk(USUAL, &[100; 248]);
    let (less, more) = (right.counting(6, 203), right.counting(6, 205));
    tally.equal("a_6 of 248 samples of 100", right.meter.a[6], 204);
    let all = [RAISED, EXCESS, APART].map(|clause| at(THERE, 6, clause));
    let ways = [at(THERE, 6, RAISED), at(BACK, 6, RAISED)];
    let rows = [
        ("right", [&right, &right], &[][..]),
        ("second's less", [&right, &less], &all),
        ("both less", [&less, &less], &ways),
        ("first's more", [&more, &right], &all[1..]),
    ];
    for (name, cards, checks) in rows {
        fails(tally, name, cards, checks);
    }
}

/// A count at 3 that is one above the other card's at 2, with d 3, which is not above 4. The
/// first's envelope stays under the constant 10, so that at 3 all of E's count is lost where the
/// threshold is raised by d: that the first's count is too large there no other clause can tell.
fn next_threshold(tally: &mut Tally) {
    let first = Card::of_chunk(USUAL, &[&[12][..], &[10; 247]].concat());
    let second = Card::of_chunk(USUAL, &[9; 248]);
    let most = second.meter.a[2];
    let (at_most, above) = (first.counting(3, most), first.counting(3, most + 1));
    fails(tally, "at 3 as at 2", [&at_most, &second], &[]);
    let there = [at(THERE, 2, APART)];
    fails(tally, "at 3 above 2", [&above, &second], &there);
    let back = [at(BACK, 2, APART)];
    fails(tally, "at 3 above 2", [&second, &above], &back);
}

/// A meter that took the samples of a refused block as well, 100 of the 248 before: counts 100 too
/// large wherever there are any.
fn refused_counted(tally: &mut Tally) {
    let samples = [100; 248];
    let (whole, part) = (
        block::make(1, 0, &samples),
        block::make(1, 0, &samples[..100]),
    );
    let right = Card::new(USUAL, &[Record::Block(whole), Record::Block(part)]);
    let wrong = right.showing(right.meter.chunk(&samples[..100]).0);
    let other = Card::of_chunk(USUAL, &samples);
    fails(tally, "a refused block", [&right, &other], &[]);
    let mut checks = vec!["first: n: 348 for 248".to_string()];
    for j in 0..7 {
        checks.extend([EXCESS, APART].map(|clause| at(THERE, j, clause)));
    }
    fails(tally, "its samples counted", [&wrong, &other], &checks);
}

/// A card that measures raw x, shown in place of x - o.
fn raw(card: &Card, samples: &[i16]) -> Card {
    let (meter, _) = Meter::open(USUAL).0.chunk(samples);
    card.showing(meter.at_offset(card.meter.setting.offset))
}

/// Samples of 0 at an offset of -1000, whose size is 1000 and not 0.
fn raw_sizes(tally: &mut Tally) {
    let setting = Setting {
        offset: -1000,
        ..USUAL
    };
    let right = Card::of_chunk(setting, &[0; 400]);
    let wrong = raw(&right, &[0; 400]);
    fails(tally, "sizes of 1000", [&right, &right], &[]);
    let below = |way: &'static str| (0..10).map(move |j| at(way, j, RAISED));
    let checks: Vec<String> = below(THERE).chain(below(BACK)).collect();
    fails(tally, "both of raw x", [&wrong, &wrong], &checks);
}

/// Samples 1000 above and 1000 below an offset of 1000: the sizes are the same, and those of raw x
/// are 2000 and 0.
fn raw_sizes_mirrored(tally: &mut Tally) {
    let setting = Setting {
        offset: 1000,
        ..USUAL
    };
    let cards = [2000, 0].map(|x| Card::of_chunk(setting, &[x; 400]));
    fails(tally, "mirrored", [&cards[0], &cards[1]], &[]);
    let (above, below) = (raw(&cards[0], &[2000; 400]), raw(&cards[1], &[0; 400]));
    let mut checks = Vec::new();
    for j in 0..11 {
        let clauses = [(j < 10, RAISED), (true, EXCESS), (true, APART)];
        let broken = clauses.iter().filter(|(breaks, _)| *breaks);
        checks.extend(broken.map(|(_, clause)| at(THERE, j, clause)));
    }
    fails(tally, "mirrored, of raw x", [&above, &below], &checks);
}

/// Cards of different lists, the built-in one and one from a quarter of an interval on, each right;
/// and with the counts of either meter by the list of the other (the customer's request L8).
///
/// The envelope comes over 2^30, which is c_6 of the one and c_12 of the other, and not to the
/// next. So the wrong meter of the built-in list counts up to its own c_12, which is the other's
/// c_18, and the wrong one of the other counts too little up to its c_12. Both lists have the
/// other's thresholds at 4 and at 6 and from 8 on.
fn lists(tally: &mut Tally) {
    let fine = Setting {
        thresholds: Thresholds::of(&fine()),
        ..USUAL
    };
    let [usual, own] = [USUAL, fine].map(|setting| Card::of_chunk(setting, &[100; 248]));
    fails(tally, "lists that differ", [&usual, &own], &[]);
    fails(tally, "lists that differ", [&own, &usual], &[]);
    let by_other = |card: &Card, other: &Card| {
        let a = placed(&other.meter.a[card.meter.places()]);
        card.showing(Meter {
            a,
            ..card.meter.clone()
        })
    };
    let both_have = |j: usize| j == 4 || j == 6 || j >= 8;
    let (mut more, mut less) = (Vec::new(), Vec::new());
    for j in 4..19 {
        more.extend(both_have(j).then(|| at(THERE, j, EXCESS)));
        more.push(at(THERE, j, APART));
    }
    for j in 0..13 {
        less.push(at(THERE, j, RAISED));
        less.extend(both_have(j).then(|| at(THERE, j, EXCESS)));
        less.extend((j >= 1).then(|| at(THERE, j, APART)));
    }
    let wrong = by_other(&usual, &own);
    fails(tally, "the first's by the second's", [&wrong, &own], &more);
    let wrong = by_other(&own, &usual);
    fails(
        tally,
        "the second's by the first's",
        [&usual, &wrong],
        &less,
    );
}

/// Cards that took more samples than the other, that are of another rate, or of another offset:
/// with one of them there is no pair.
fn no_pair(tally: &mut Tally) {
    let samples = [100; 248];
    let other = |code, offset| Setting {
        offset,
        ..Setting::usual(code)
    };
    let right = Card::of_chunk(USUAL, &samples);
    let rows = [
        (
            Card::of_chunk(USUAL, &[100; 249]),
            "samples taken: 248 for 249",
        ),
        (Card::of_chunk(USUAL, &[]), "samples taken: 248 for 0"),
        (
            Card::of_chunk(other(2, 0), &samples),
            "code and offset: (1, 0) for (2, 0)",
        ),
        (
            Card::of_chunk(other(1, -1), &samples),
            "code and offset: (1, 0) for (1, -1)",
        ),
    ];
    for (card, check) in rows {
        let check = format!("the pair: {check}");
        fails(tally, &check, [&right, &card], &[check.clone()]);
    }
}

/// Scripts and lines that are not those of a card: an opening to refuse, for its code or its
/// margin; no opening; a report among the calls; no meter shown; a line less; and a bad record.
fn lines(tally: &mut Tally) {
    let right = Card::of_chunk(USUAL, &[100]);
    let held = |script: &[u8], printed: &str| {
        let held = held_to([&right.script, script], [&right.printed(), printed]);
        held.map(|held| held.tally.failed().to_vec())
    };
    let opened = |setting| Card::of_chunk(setting, &[100]).script;
    let margin = Setting { margin: 0, ..USUAL };
    let reported = [Record::open(USUAL), Record::Report, Record::Show];
    let rows = [
        (opened(Setting::usual(6)), "an opening to accept"),
        (opened(margin), "an opening to accept"),
        (script(&[Record::Show]), "an opening, calls, a show"),
        (script(&reported), "an opening, calls, a show"),
        (script(&reported[..2]), "an opening, calls, a show"),
    ];
    for (script, check) in rows {
        let failed = held(&script, &replay(&script)).expect("no record is bad");
        tally.equal("no card", failed.first(), Some(&format!("second: {check}")));
    }
    let less = held(&right.script, &right.lines).expect("no record is bad");
    let checks = [
        "second: one line for each record: 2 for 3",
        "second: a meter shown",
    ];
    tally.equal("a line less", &less[..], &checks.map(String::from));
    tally.equal("a bad record", held(&[0], ""), None);
}

/// A recording whose counts are printed one too large, and one for which none are printed.
fn recordings(tally: &mut Tally) {
    let recording = block::pack(1, &[100; 248]);
    let right = report(&recording);
    let failed = |printed: &str| {
        let held = compared([&recording, &recording], [printed, &right]);
        held.tally.failed().to_vec()
    };
    let more = right.replace(" 204 ", " 205 ");
    let rows = [
        (&right[..], vec![]),
        (
            &more,
            [EXCESS, APART].map(|clause| at(THERE, 6, clause)).to_vec(),
        ),
        ("", vec!["first: n and counts".to_string()]),
    ];
    for (printed, checks) in rows {
        tally.equal("a recording", failed(printed), checks);
    }
}
