//! Scaled radii to compare stage counts on: near those at which a count changes, special ones, and random ones.
use crate::{BY_RADIUS, RKC, RKC_OVERFLOW, RKMC2, permitted};

/// How far from a radius its neighbors go, in units in the last place.
const NEIGHBORS: i64 = 8;

/// All of them, with these thresholds of RKMC2.
pub fn radii(thresholds: &[f64]) -> Vec<f64> {
    let mut all = special();
    for family in BY_RADIUS {
        if family == RKMC2 {
            all.extend(thresholds.iter().flat_map(|threshold| around(*threshold)));
        } else {
            let reaches = permitted(family).map(|count| reach(family, count));
            all.extend(reaches.flat_map(around));
        }
    }
    all.extend(random());
    all
}

/// The radius up to which a count serves. RKC's is where floor(sqrt(1.54r + 1)) gets to the count.
pub fn reach(family: u64, count: usize) -> f64 {
    let s = count as f64;
    match family {
        RKC => (s * s - 1.0) / 1.54,
        2 => s * (s + 1.0),
        3 => (s - 1.0) * (s + 2.0) / 2.0,
        4 => s * (s + 3.0) / 2.0,
        5 => (s - 1.0) * (s + 4.0) / 3.0,
        _ => panic!("family {family} has no formula for its reach"),
    }
}

/// A radius and its neighbors, from the smallest on.
pub fn around(radius: f64) -> impl Iterator<Item = f64> {
    (-NEIGHBORS..=NEIGHBORS).map(move |n| f64::from_bits(radius.to_bits().wrapping_add_signed(n)))
}

fn special() -> Vec<f64> {
    let mut all = vec![
        0.0,
        -0.0,
        f64::NAN,
        -f64::NAN,
        f64::INFINITY,
        f64::NEG_INFINITY,
    ];
    all.extend([
        f64::MIN_POSITIVE,
        f64::MAX,
        -f64::MAX,
        -f64::MIN_POSITIVE,
        -1.0,
        -1e6,
    ]);
    all.extend((1..=16).map(f64::from_bits));
    all.extend(around(f64::MIN_POSITIVE));
    all.extend(around(RKC_OVERFLOW));
    for slope in [1.54, 4.0, 8.0, 12.0] {
        all.extend(around(f64::MAX / slope));
    }
    all
}

/// 1,000 radii over all bit patterns, and 3,000 from 2^-10 to 2^17, where the counts change, as many from each power of two to
/// the next.
fn random() -> impl Iterator<Item = f64> {
    let mut words = Words(1);
    (0..4000).map(move |i| {
        let word = words.next();
        if i < 1000 {
            f64::from_bits(word)
        } else {
            f64::from_bits(((1023 - 10 + i % 27) << 52) | (word >> 12))
        }
    })
}

/// SplitMix64.
struct Words(u64);

impl Words {
    fn next(&mut self) -> u64 {
        self.0 = self.0.wrapping_add(0x9e37_79b9_7f4a_7c15);
        let a = (self.0 ^ (self.0 >> 30)).wrapping_mul(0xbf58_476d_1ce4_e5b9);
        let b = (a ^ (a >> 27)).wrapping_mul(0x94d0_49bb_1331_11eb);
        b ^ (b >> 31)
    }
}
