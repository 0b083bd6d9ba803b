//! The stage counts of the test build as crates/counts/data/counts holds them: for each scaled radius its bits in eight bytes,
//! and then the counts of families 1 to 8 in two bytes each, always the lowest first. A count is 0 where the Rust's sum
//! overflows, for TSRKC2, whose count depends on the history too, and for a family that is not carried. A radius at which
//! RKMC2's count by thresholds is not the Rust's, a listed difference, is left out.
use crate::radii::radii;
use crate::thresholds::count_by;
use crate::{BY_RADIUS, RKMC2, overflows, stages};

/// The bytes, with these thresholds of RKMC2, and how many radii they hold and leave out.
pub fn bytes(thresholds: &[f64]) -> (Vec<u8>, [usize; 2]) {
    let (written, left_out): (Vec<f64>, Vec<f64>) = radii(thresholds)
        .into_iter()
        .partition(|radius| count_by(thresholds, *radius) == stages(RKMC2, *radius));
    let bytes = written.iter().flat_map(|radius| record(*radius)).collect();
    (bytes, [written.len(), left_out.len()])
}

fn record(radius: f64) -> Vec<u8> {
    let mut bytes = radius.to_bits().to_le_bytes().to_vec();
    bytes.extend(counts(radius).into_iter().flat_map(u16::to_le_bytes));
    bytes
}

/// By family, 1 to 8.
fn counts(radius: f64) -> [u16; 8] {
    let mut all = [0; 8];
    for family in BY_RADIUS {
        if !overflows(family, radius) {
            let count = stages(family, radius);
            all[family as usize - 1] = u16::try_from(count).expect("a count of two bytes");
        }
    }
    all
}
