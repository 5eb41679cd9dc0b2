//! Two kinds of work side by side: both are timed in each round, and which of the two begins changes from round to round.

use crate::timing::{median, quantile};

/// One of the two kinds of work. The time of the second is told as a ratio to that of the first.
#[derive(Clone, Copy, Debug, PartialEq)]
pub enum Side {
    First,
    Second,
}

/// The nanoseconds of both in each round.
#[derive(Default)]
pub struct Pairs {
    first: Vec<f64>,
    second: Vec<f64>,
}

impl Pairs {
    /// One more round.
    pub fn round(&mut self, mut sample: impl FnMut(Side) -> f64) {
        let mut order = [Side::First, Side::Second];
        if self.first.len() % 2 == 1 {
            order.reverse();
        }
        for side in order {
            let samples = match side {
                Side::First => &mut self.first,
                Side::Second => &mut self.second,
            };
            samples.push(sample(side));
        }
    }

    /// The last columns of a table: both medians in microseconds, the median of the rounds' ratios, and the range that half of these lie in.
    pub fn columns(self) -> String {
        let ratio = |(first, second): (&f64, &f64)| second / first;
        let ratios: Vec<f64> = self.first.iter().zip(&self.second).map(ratio).collect();
        let [low, ratio, high] = [0.25, 0.5, 0.75].map(|part| quantile(ratios.clone(), part));
        let [first, second] = [self.first, self.second].map(|samples| median(samples) / 1000.0);
        format!("{first:.2} | {second:.2} | {ratio:.2} | {low:.2} to {high:.2} |")
    }
}

#[cfg(test)]
mod tests {
    use super::*;

    #[test]
    fn in_turn() {
        let (mut pairs, mut order) = (Pairs::default(), vec![]);
        for round in 1..=3 {
            pairs.round(|side| {
                order.push(side);
                match side {
                    Side::First => 1_000.0,
                    Side::Second => 1_000.0 + 100.0 * f64::from(round),
                }
            });
        }
        let [first, second] = [Side::First, Side::Second];
        assert_eq!(order, [first, second, second, first, first, second]);
        assert_eq!(pairs.columns(), "1.00 | 1.20 | 1.20 | 1.10 to 1.30 |");
    }
}
