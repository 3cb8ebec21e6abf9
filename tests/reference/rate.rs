//! The five named rates.

/// One row of the table of rates (the customer's scope, "Rates").
#[derive(Clone, Copy)]
pub struct Rate {
    pub code: u8,
    pub samples_per_second: u64,
    pub K: u64,
    pub I: u64,
}

/// The table itself (the customer's scope, "Rates"; the customer's request L9); D is left to its
/// rule.
pub const RATES: [Rate; 5] = [
    Rate {
        code: 1,
        samples_per_second: 694,
        K: 49174,
        I: 139,
    },
    Rate {
        code: 2,
        samples_per_second: 8000,
        K: 4360,
        I: 1600,
    },
    Rate {
        code: 3,
        samples_per_second: 16000,
        K: 2182,
        I: 3200,
    },
    Rate {
        code: 4,
        samples_per_second: 32000,
        K: 1092,
        I: 6400,
    },
    Rate {
        code: 5,
        samples_per_second: 48000,
        K: 728,
        I: 9600,
    },
];

/// The rate that a code names, if it names one (the customer's scope, "Rates"; the customer's
/// request L9).
pub fn rate(code: u32) -> Option<&'static Rate> {
    RATES.iter().find(|rate| u32::from(rate.code) == code)
}

impl Rate {
    /// D by its rule: 2^21/K, rounded up (the customer's scope, "Rates").
    pub fn D(&self) -> u64 {
        (1u64 << 21).div_ceil(self.K)
    }

    /// I by its rule: 0.2 s in samples, rounded up (the customer's scope, "Rates").
    pub fn I_by_rule(&self) -> u64 {
        self.samples_per_second.div_ceil(5)
    }

    /// Whether K keeps T within 5 % of 0.03 s (the customer's scope, "Rates").
    ///
    /// P.56 has g = exp(-1/(f T)), so the T that belongs to g = 1 - K/2^20 is -1/(f ln g).
    pub fn keeps_time_constant(&self) -> bool {
        let f = self.samples_per_second as f64;
        let g = 1.0 - self.K as f64 / (1u64 << 20) as f64;
        let T = -1.0 / (f * g.ln());
        (T - 0.03).abs() <= 0.05 * 0.03
    }
}
