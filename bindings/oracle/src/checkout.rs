//! The stage rules of the checkout: family.rs as it stands, beside that of the test build.
#![allow(dead_code)]

use crate::thresholds::least;
use family::StabilizedFamily;

include!(concat!(env!("OUT_DIR"), "/checkout.rs"));

crate::shim::carried_families!();

/// The radii that the counts of both builds are told at.
pub const SHOWN: [f64; 4] = [10.0, 100.0, 1000.0, 10_000.0];

/// From 0 up to here RKG has its least count in the test build, so that the two differ once the checkout's has risen.
pub const LEAST_UP_TO: f64 = 4.0;

/// The smallest r, from 0 on, for which the checkout and the test build give RKG1 or RKG2 different counts.
pub fn first_difference(family: u64) -> f64 {
    let differ = |r| stages(family, r) != crate::stages(family, r);
    least(0.0, LEAST_UP_TO, differ)
}
