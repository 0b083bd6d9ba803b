//! RKMC2's stage rule by thresholds, document 02, CR 1: in place of the Rust's `powf`, a double for each count below the
//! largest.
use crate::RKMC2;
use std::fmt::{Display, Formatter, Result};
use std::ops::RangeInclusive;

/// The counts that have a threshold.
pub const COUNTS: RangeInclusive<usize> = 3..=999;

/// The least double from `low` to `high` at which `holds`, found by halving over the doubles' bits. It is false at `low`,
/// true at `high`, and taken to change once.
pub fn least(low: f64, high: f64, holds: impl Fn(f64) -> bool) -> f64 {
    let (mut low, mut high) = (low.to_bits(), high.to_bits());
    while high - low > 1 {
        let middle = low + (high - low) / 2;
        if holds(f64::from_bits(middle)) {
            high = middle
        } else {
            low = middle
        }
    }
    f64::from_bits(high)
}

/// The largest radius to which the Rust gives this count or a smaller one.
pub fn threshold(count: usize) -> f64 {
    least(0.0, f64::MAX, |r| crate::stages(RKMC2, r) > count).next_down()
}

/// The threshold of every count that has one.
pub fn thresholds() -> Vec<f64> {
    COUNTS.map(threshold).collect()
}

/// The smallest count whose threshold is at least the radius, else the largest count. NaN and negatives count as 0.
pub fn count_by(thresholds: &[f64], radius: f64) -> usize {
    let radius = radius.max(0.0);
    COUNTS.start() + thresholds.partition_point(|threshold| *threshold < radius)
}

/// A radius at which the two counts are not the same.
#[derive(Clone, Copy, Debug, PartialEq)]
pub struct Disagreement {
    pub radius: f64,
    pub by_thresholds: usize,
    pub by_the_rust: usize,
}

impl Display for Disagreement {
    fn fmt(&self, formatter: &mut Formatter<'_>) -> Result {
        let Self {
            radius,
            by_thresholds,
            by_the_rust,
        } = self;
        let bits = radius.to_bits();
        write!(
            formatter,
            "{radius:e} (bits {bits:016X}): {by_thresholds} by thresholds, {by_the_rust} by the Rust"
        )
    }
}

/// How far from a threshold doubles are compared, in units in the last place.
pub const UNITS: u64 = 2000;

/// Every double near a threshold: how many were compared, and where the count by thresholds is not the Rust's.
pub fn compared(thresholds: &[f64]) -> (u64, Vec<Disagreement>) {
    let (mut count, mut disagreements) = (0, Vec::new());
    for threshold in thresholds {
        let bits = threshold.to_bits();
        for radius in (bits - UNITS..=bits + UNITS).map(f64::from_bits) {
            let by_thresholds = count_by(thresholds, radius);
            let by_the_rust = crate::stages(RKMC2, radius);
            if by_thresholds != by_the_rust {
                disagreements.push(Disagreement {
                    radius,
                    by_thresholds,
                    by_the_rust,
                });
            }
            count += 1;
        }
    }
    (count, disagreements)
}
