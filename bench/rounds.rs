//! Rounds of a measurement, and what of them is told: the median, and how far the rounds lie apart.

use std::fmt::{self, Display, Formatter};

/// How many rounds each measurement has.
pub const ROUNDS: usize = 5;

/// The median of some rounds, and the lowest and the highest.
#[derive(Clone, Copy)]
pub struct Spread {
    pub median: f64,
    low: f64,
    high: f64,
}

impl Spread {
    pub fn of(mut rounds: Vec<f64>) -> Spread {
        rounds.sort_by(f64::total_cmp);
        Spread { median: rounds[rounds.len() / 2], low: rounds[0], high: rounds[rounds.len() - 1] }
    }
}

/// The median, and half of what lies between lowest and highest in percent of it.
impl Display for Spread {
    fn fmt(&self, f: &mut Formatter<'_>) -> fmt::Result {
        let half = 50.0 * (self.high - self.low) / self.median;
        f.pad(&format!("{:.2} ±{half:.0}%", self.median))
    }
}

/// The spreads of several things that are measured in turn, round by round, so that what else the machine does meets all of them.
pub fn in_turn<const N: usize>(mut measure: impl FnMut() -> [f64; N]) -> [Spread; N] {
    let rounds: Vec<[f64; N]> = (0..ROUNDS).map(|_| measure()).collect();
    std::array::from_fn(|k| Spread::of(rounds.iter().map(|round| round[k]).collect()))
}
