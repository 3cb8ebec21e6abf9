//! What a meter displays, beside what the Recommendation expects.

/// A figure of the Recommendation, and how far below and above it a reading may lie.
#[derive(Clone, Copy)]
pub struct Figure {
    pub value: f64,
    pub below: f64,
    pub above: f64,
}

impl Figure {
    /// A figure with the same tolerance both ways.
    pub const fn about(value: f64, tolerance: f64) -> Figure {
        Figure {
            value,
            below: tolerance,
            above: tolerance,
        }
    }

    /// The same figure behind an attenuator of so many decibels.
    pub fn behind(self, attenuator: f64) -> Figure {
        Figure {
            value: self.value - attenuator,
            ..self
        }
    }
}

/// One reading beside its figure.
pub struct Reading {
    pub name: &'static str,
    pub unit: &'static str,
    pub measured: f64,
    pub figure: Figure,
}

impl Reading {
    /// What was measured less what is expected.
    fn difference(&self) -> f64 {
        self.measured - self.figure.value
    }

    /// Whether the difference is one that the Recommendation allows.
    pub fn within(&self) -> bool {
        (-self.figure.below..=self.figure.above).contains(&self.difference())
    }

    /// What was measured, what is expected, and the difference.
    pub fn text(&self) -> String {
        let Figure {
            value,
            below,
            above,
        } = self.figure;
        let outside = if self.within() { "" } else { ", outside" };
        format!(
            "{} {:.3} {unit} for {value} -{below} +{above} {unit} (off by {:.3}{outside})",
            self.name,
            self.measured,
            self.difference(),
            unit = self.unit,
        )
    }
}
