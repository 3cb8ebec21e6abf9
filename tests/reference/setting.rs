//! What is chosen at opening and kept in the meter, and which choices are refused.

use crate::meter::Meter;
use crate::rate::rate;
use crate::thresholds::Thresholds;

/// The least margin and the most, in steps (the customer's request L5).
pub const LEAST_MARGIN: i64 = 1;
pub const MOST_MARGIN: i64 = 22314;

/// The margin below which a report has the mark, in steps: 15.4 dB (the customer's request L5).
pub const MARKED_BELOW: i64 = 20955;

/// The margin of the scope, in steps: 15.9 dB (the customer's scope, "The report").
pub const USUAL_MARGIN: i64 = 21635;

fields! {
    /// A rate code, an offset, a margin and a list of thresholds (the customer's scope, "One
    /// sample"; the customer's requests L2, L5 and L8).
    #[derive(Clone, Copy, Debug, Default, PartialEq)]
    pub struct Setting<List = Thresholds> {
        code: u8,
        offset: i16,
        margin: i64,
        thresholds: List,
    }
}

/// What an opening is given: a list of any length, or none for the built-in one.
pub type Opening = Setting<Option<Vec<u64>>>;

impl Setting {
    /// A code with no offset, the usual margin and the built-in list, as the report program opens
    /// (the customer's requests L2, L5 and L8).
    pub const fn usual(code: u8) -> Setting {
        Setting {
            code,
            offset: 0,
            margin: USUAL_MARGIN,
            thresholds: Thresholds::BUILT_IN,
        }
    }

    /// The lowest refusal of an opening, else 0 (the customer's scope, "Why a call is refused"; the
    /// customer's requests L5 and L8).
    pub fn refusal(&self) -> u32 {
        if rate(u32::from(self.code)).is_none() {
            1
        } else if !in_range(self.margin) {
            17
        } else {
            self.thresholds.refusal()
        }
    }
}

impl<List> Setting<List> {
    /// The same but for the list, which may be of another kind.
    fn with<Other>(self, thresholds: Other) -> Setting<Other> {
        Setting {
            code: self.code,
            offset: self.offset,
            margin: self.margin,
            thresholds,
        }
    }
}

impl Opening {
    /// What the meter is opened with.
    pub fn setting(&self) -> Setting {
        let own = self.thresholds.as_deref().map(Thresholds::of);
        self.clone().with(own.unwrap_or(Thresholds::BUILT_IN))
    }

    /// The same opening with its list written out, the built-in one too.
    pub fn written_out(self) -> Opening {
        let thresholds = Some(self.setting().thresholds.entries().to_vec());
        self.with(thresholds)
    }
}

impl From<Setting> for Opening {
    /// The opening with a setting whose list has a place for each of its thresholds.
    fn from(setting: Setting) -> Opening {
        let own = setting.thresholds != Thresholds::BUILT_IN;
        setting.with(own.then(|| setting.thresholds.entries().to_vec()))
    }
}

impl Meter {
    /// The same meter with another code.
    pub fn at_code(&self, code: u8) -> Meter {
        let mut meter = self.clone();
        meter.setting.code = code;
        meter
    }

    /// The same meter with another offset.
    pub fn at_offset(&self, offset: i16) -> Meter {
        let mut meter = self.clone();
        meter.setting.offset = offset;
        meter
    }

    /// The same meter with another margin.
    pub fn at_margin(&self, margin: i64) -> Meter {
        let mut meter = self.clone();
        meter.setting.margin = margin;
        meter
    }

    /// The same meter with another list, and all else as it was, past the list's end too.
    pub fn at_thresholds(&self, thresholds: Thresholds) -> Meter {
        let mut meter = self.clone();
        meter.setting.thresholds = thresholds;
        meter
    }
}

/// Whether a margin is one to open with and to hold (the customer's request L5).
pub fn in_range(margin: i64) -> bool {
    (LEAST_MARGIN..=MOST_MARGIN).contains(&margin)
}

/// Whether a report at a margin has the mark (the customer's request L5).
pub fn marked(margin: i64) -> bool {
    margin < MARKED_BELOW
}
