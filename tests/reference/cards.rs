//! The customer's request L7, and what follows from it for the counts of two meters, held to what a
//! program printed for two cards on one line.

mod card;

use crate::records::read;
use crate::tally::Tally;
use crate::thresholds::{LENGTHS, PLACES};
use card::{played, recorded, Card};

/// The names of the two cards.
const NAMES: [&str; 2] = ["first", "second"];

/// What was checked of two cards, and lines about them.
pub struct Held {
    pub tally: Tally,
    pub lines: Vec<String>,
}

impl Held {
    /// Prints the lines and what was checked, and tells whether nothing failed.
    pub fn finish(&self) -> bool {
        for line in &self.lines {
            println!("{line}");
        }
        self.tally.finish()
    }
}

/// Two cards of one rate and offset with equally many samples, the sizes of which differ by at most
/// d, and by no less at some sample (the customer's request L7).
struct Pair {
    cards: [Card; 2],
    d: u64,
}

/// The two cards one way round: E of the first against the meter of the second.
struct Way<'a> {
    name: &'static str,
    first: &'a Card,
    second: &'a Card,
}

impl Way<'_> {
    /// The list of the second meter (the customer's request L8).
    fn list(&self) -> &[u64] {
        self.second.list()
    }

    /// E's count for the first card at c_j of the second's list, raised by d intervals and some
    /// units.
    fn raised(&self, j: usize, d: u64, units: u64) -> u64 {
        self.first.exact.count(self.list()[j] + (d << 24) + units)
    }

    /// E's count for the first card at a threshold raised so is not above the second meter's count
    /// at the plain one, at each of them.
    fn bounded(&self, d: u64, units: u64) -> bool {
        let mut places = 0..self.list().len();
        places.all(|j| self.raised(j, d, units) <= self.second.a[j])
    }

    /// The first meter's count at each of its own thresholds that is of some kind.
    fn counts<'a>(&'a self, of_kind: impl Fn(u64) -> bool + 'a) -> impl Iterator<Item = u64> + 'a {
        let counts = self.first.list().iter().zip(&self.first.a);
        let found = counts.filter(move |(&c_i, _)| of_kind(c_i));
        found.map(|(_, &a_i)| a_i)
    }

    /// The clauses at j of the second's list: the request's own (the customer's request L7); that
    /// the first meter's count, where its list has that threshold, exceeds the second's by at most
    /// E's own difference for the first; and, of the meters alone, that the first's count is not
    /// above the second's where it is of a threshold d intervals or more higher.
    fn clauses(&self, j: usize, d: u64) -> [(&'static str, bool); 3] {
        let (c_j, b_j) = (self.list()[j], self.second.a[j]);
        let raised = self.raised(j, d, self.first.exact.rate.D());
        let difference = self.first.exact.count(c_j) - raised;
        let mut same = self.counts(|c_i| c_i == c_j);
        let mut higher = self.counts(|c_i| c_i >= c_j + (d << 24));
        [
            ("E's count at the raised threshold", raised <= b_j),
            (
                "the excess of the count",
                same.all(|a_i| a_i.saturating_sub(b_j) <= difference),
            ),
            ("the counts d apart", higher.all(|a_i| a_i <= b_j)),
        ]
    }
}

impl Pair {
    /// The pair of two cards; None, with a check that fails, where they are none.
    fn of(tally: &mut Tally, first: Card, second: Card) -> Option<Pair> {
        let opened = |card: &Card| (card.setting.code, card.setting.offset);
        let alike = opened(&first) == opened(&second);
        tally.equal("the pair: code and offset", opened(&first), opened(&second));
        let taken = |card: &Card| card.samples.len();
        let as_many = taken(&first) == taken(&second);
        tally.equal("the pair: samples taken", taken(&first), taken(&second));
        let apart = first.sizes().zip(second.sizes());
        let d = apart.map(|(x, y)| x.abs_diff(y)).max().unwrap_or(0);
        let cards = [first, second];
        (alike && as_many).then_some(Pair { cards, d })
    }

    /// D of the pair's rate (the customer's scope, "Rates").
    fn D(&self) -> u64 {
        self.cards[0].exact.rate.D()
    }

    /// Both ways round.
    fn ways(&self) -> [Way<'_>; 2] {
        let [first, second] = &self.cards;
        let there = Way {
            name: "first against second",
            first,
            second,
        };
        let back = Way {
            name: "second against first",
            first: second,
            second: first,
        };
        [there, back]
    }

    /// Every clause, both ways round.
    fn check(&self, tally: &mut Tally) {
        for way in self.ways() {
            for j in 0..way.list().len() {
                for (clause, holds) in way.clauses(j, self.d) {
                    tally.holds(&format!("{}, j {j}: {clause}", way.name), holds);
                }
            }
        }
    }

    /// Whether two samples are further apart than any two sizes.
    fn mirrored(&self) -> bool {
        let [first, second] = &self.cards;
        let mut both = first.samples.iter().zip(&second.samples);
        both.any(|(x, y)| u64::from(x.abs_diff(*y)) > self.d)
    }

    /// How sharp the request's clause is one way round: whether it would break with d - 1 in place
    /// of d, and without D, and whether it holds with equality somewhere, of a count above 0.
    fn sharpness(&self, way: &Way) -> [(String, bool); 3] {
        let (d, D, name) = (self.d, self.D(), way.name);
        let raised = |j| way.raised(j, d, D);
        let places = 0..way.list().len();
        let mut equal = places.filter(|&j| raised(j) == way.second.a[j]);
        [
            (
                format!("breaks at d - 1, {name}"),
                d > 0 && !way.bounded(d - 1, D),
            ),
            (format!("breaks without D, {name}"), !way.bounded(d, 0)),
            (format!("equal, {name}"), equal.any(|j| raised(j) > 0)),
        ]
    }

    /// What is worth telling of the pair, a line each.
    fn facts(&self) -> Vec<String> {
        let [first, second] = &self.cards;
        let (d, setting) = (self.d, first.setting);
        let mut facts = vec![
            format!("d {d}"),
            format!("code {}", setting.code),
            format!("offset {}", setting.offset),
            format!("samples {}", first.samples.len()),
        ];
        let found = [
            ("margins differ", setting.margin != second.setting.margin),
            ("lists differ", first.list() != second.list()),
            (
                "shortest list",
                first.list().len() as u64 == *LENGTHS.start(),
            ),
            ("longest list", first.list().len() == PLACES),
            ("refused first", first.refused),
            ("refused second", second.refused),
            ("cut differently", first.cut != second.cut),
            ("mirrored", self.mirrored()),
        ];
        let found = found.map(|(fact, holds)| (fact.to_string(), holds));
        let ways = self.ways();
        let sharp = ways.iter().flat_map(|way| self.sharpness(way));
        let all = found.into_iter().chain(sharp);
        facts.extend(all.filter(|(_, holds)| *holds).map(|(fact, _)| fact));
        facts
    }

    /// A row of a table for each j: both meters' counts, and E's for both at the raised threshold.
    fn table(&self) -> Vec<String> {
        let [first, second] = &self.cards;
        let [there, back] = self.ways();
        let row = |j: usize| {
            let raised = [&there, &back].map(|way| way.raised(j, self.d, self.D()));
            let (a, b) = (first.a[j], second.a[j]);
            format!("| {j} | {a} | {b} | {} | {} |", raised[0], raised[1])
        };
        let rows = (0..second.list().len()).map(row);
        [format!("d {}", self.d)].into_iter().chain(rows).collect()
    }
}

/// Checks two cards, if there are two, and tells something of them.
fn held(mut tally: Tally, cards: [Option<Card>; 2], lines: fn(&Pair) -> Vec<String>) -> Held {
    let [Some(first), Some(second)] = cards else {
        let lines = Vec::new();
        return Held { tally, lines };
    };
    let pair = Pair::of(&mut tally, first, second);
    if let Some(pair) = &pair {
        pair.check(&mut tally);
    }
    let lines = pair.as_ref().map(lines).unwrap_or_default();
    Held { tally, lines }
}

/// Checks what a replay program printed for the scripts of two cards, with facts about the pair;
/// None where a script has a bad record.
pub fn cards(scripts: [&[u8]; 2], outputs: [&str; 2]) -> Option<Held> {
    let mut tally = Tally::new();
    let records = scripts.map(read);
    if records.iter().any(|(_, bad)| *bad) {
        return None;
    }
    let card = |i: usize| played(&mut tally, NAMES[i], &records[i].0, outputs[i]);
    let cards = [0, 1].map(card);
    Some(held(tally, cards, Pair::facts))
}

/// Checks what the report program printed for two recordings, with a table of the counts.
pub fn compared(recordings: [&[u8]; 2], outputs: [&str; 2]) -> Held {
    let mut tally = Tally::new();
    let card = |i: usize| recorded(&mut tally, NAMES[i], recordings[i], outputs[i]);
    let cards = [0, 1].map(card);
    held(tally, cards, Pair::table)
}
