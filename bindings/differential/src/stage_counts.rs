//! The stage counts of the test build, before anything is run on them. In RKC, RKL and RKMC2 they are those of the checkout. In
//! TSRKC2, whose count depends on q too, they are those that [`crate::stated`] has. In RKG they are those that it has from
//! document 02, CR 5, change at the reaches that it has, and are never more than the checkout's; told and compared with what is
//! named here are the smallest r at which the two builds differ, and the stages that are saved. The stored counts are the test
//! build's.
use crate::build::{Departure, stored_thresholds};
use crate::random::Random;
use crate::stated::{stages_for, two_step_stages};
use oracle::checkout::{self, LEAST_UP_TO, SHOWN, first_difference};
use oracle::radii::{around, radii, reach};
use oracle::{BY_RADIUS, RKG, RKMC2, name, overflows, permitted, stages, stored_counts};
use std::path::Path;

/// What is known of RKG1 and of RKG2.
struct Known {
    family: u64,
    /// The smallest r at which the builds differ, and the counts there of the checkout and of the test build.
    first: f64,
    at_first: [usize; 2],
    /// The counts at each of [`SHOWN`], of the checkout and of the test build.
    shown: [[usize; 2]; 4],
}

const KNOWN: [Known; 2] = [
    Known {
        family: 4,
        first: f64::from_bits(0x4004_0000_0000_0001),
        at_first: [3, 2],
        shown: [[5, 4], [19, 13], [62, 44], [199, 140]],
    },
    Known {
        family: 5,
        first: f64::from_bits(0x4002_AAAA_AAAA_AAAD),
        at_first: [4, 3],
        shown: [[7, 5], [24, 16], [76, 54], [200, 172]],
    },
];

/// Makes every comparison, and tells what was compared.
pub fn compare(departures: &[Departure]) -> Result<(), String> {
    let radii = all_radii();
    for family in BY_RADIUS.into_iter().filter(|family| !RKG.contains(family)) {
        as_in_the_checkout(family, &radii)?;
    }
    for family in RKG {
        as_stated(family, &radii)?;
        at_reaches(family)?;
    }
    println!(
        "stage counts of the test build on {} radii: in RKC, but where its count overflows, RKL1, RKL2 and RKMC2 as in the checkout, in RKG1 and RKG2 as stated, and never more than in the checkout",
        radii.len()
    );
    KNOWN.iter().try_for_each(Known::compare)?;
    two_step(&radii)?;
    as_stored(departures)
}

/// q that TSRKC2's counts are compared with: ordinary ones, the ends of the doubles, where the rule's bracket is rounded away,
/// and any.
fn quotients() -> Vec<f64> {
    let mut all = vec![0.0, 0.5, 1.0, 2.0, 10.0, 1e3, 1e-3, 1e-300, 5e-324];
    all.extend([1e154, 1.35e154, 1e300, f64::MAX, f64::INFINITY, f64::NAN]);
    all.extend((48..56).flat_map(|e| [1.0, 1.000_000_1].map(|x| x * 2.0_f64.powi(e))));
    let mut random = Random::new(1);
    all.extend((0..40).map(|_| random.magnitude(-3.0, 3.0)));
    all.extend((0..10).map(|_| random.any_double()));
    let negatives: Vec<f64> = all.iter().map(|q| -q).collect();
    all.extend(negatives);
    all
}

/// That the Rust's count of TSRKC2 is as stated, or above 1000, or not there for an overflow, where no count is stated.
fn two_step(radii: &[f64]) -> Result<(), String> {
    let (quotients, mut too_many) = (quotients(), 0);
    let radii: Vec<f64> = radii.iter().copied().step_by(7).collect();
    for &q in &quotients {
        for &radius in &radii {
            let rust = oracle::two_step_stages(radius, Some(q));
            let within = rust.filter(|stages| *stages <= 1000);
            let stated = two_step_stages(radius, q);
            if within.map(|stages| stages as u64) != stated {
                return Err(format!(
                    "TSRKC2 at r = {radius:e}, q = {q:e}: {rust:?} stages in the Rust, stated {stated:?}"
                ));
            }
            too_many += usize::from(stated.is_none());
        }
    }
    println!(
        "TSRKC2's stage counts on {} radii with {} q: the Rust's as stated; {too_many} of them are above 1000",
        radii.len(),
        quotients.len()
    );
    Ok(())
}

/// That the stored counts are those of the test build. Their radii are drawn by RKMC2's thresholds.
fn as_stored(departures: &[Departure]) -> Result<(), String> {
    if departures.iter().any(|found| found.family == RKMC2) {
        println!("the stored counts are not compared: they hold RKMC2's by another build");
        return Ok(());
    }
    let file = Path::new(env!("CARGO_MANIFEST_DIR")).join("../../crates/counts/data/counts");
    let stored = std::fs::read(&file).map_err(|error| format!("{}: {error}", file.display()))?;
    let (bytes, [written, _]) = stored_counts::bytes(&stored_thresholds());
    if stored != bytes {
        return Err("the stored counts are not those of the test build".to_string());
    }
    println!("the stored counts, of {written} radii, are those of the test build");
    Ok(())
}

/// Those of the oracle, and those near which the checkout's counts of RKG change: its reach is half of the test build's.
fn all_radii() -> Vec<f64> {
    let mut all = radii(&stored_thresholds());
    for family in RKG {
        let halves = permitted(family).map(|count| reach(family, count) / 2.0);
        all.extend(halves.flat_map(around));
    }
    all
}

/// The counts of the checkout and of the test build.
fn both(family: u64, radius: f64) -> [usize; 2] {
    [checkout::stages(family, radius), stages(family, radius)]
}

/// That something holds at a radius.
fn holds(family: u64, radius: f64, so: bool, what: &str) -> Result<(), String> {
    let at = || {
        let (name, bits) = (name(family), radius.to_bits());
        let counts = both(family, radius);
        format!(
            "{name} at r = {radius:e} (bits {bits:016X}): {what}; checkout, test build: {counts:?}"
        )
    };
    so.then_some(()).ok_or_else(at)
}

fn as_in_the_checkout(family: u64, radii: &[f64]) -> Result<(), String> {
    let mut counted = radii.iter().filter(|radius| !overflows(family, **radius));
    counted.try_for_each(|&radius| {
        let [old, new] = both(family, radius);
        holds(family, radius, old == new, "not as in the checkout")
    })
}

fn as_stated(family: u64, radii: &[f64]) -> Result<(), String> {
    radii.iter().try_for_each(|&radius| {
        let [old, new] = both(family, radius);
        let stated = stages_for(family, radius);
        let what = format!("{stated} by the statement");
        holds(family, radius, new as u64 == stated, &what)?;
        holds(family, radius, new <= old, "more than in the checkout")
    })
}

/// Up to the double nearest its reach a count serves; by rounding it may at the next double too, and from the second on it does
/// not.
fn at_reaches(family: u64) -> Result<(), String> {
    let (_, largest) = oracle::ends(family);
    permitted(family).try_for_each(|count| {
        let reach = reach(family, count);
        around(reach).try_for_each(|radius| {
            let (new, next) = (stages(family, radius), (count + 1).min(largest));
            let serves = new == count && radius <= reach.next_up();
            let fails = new == next && radius > reach;
            let what = format!("near the reach of {count}");
            holds(family, radius, serves || fails, &what)
        })
    })
}

impl Known {
    fn compare(&self) -> Result<(), String> {
        self.first_difference()?;
        self.saved()
    }

    fn first_difference(&self) -> Result<(), String> {
        let (family, first) = (self.family, first_difference(self.family));
        let (bits, [old, new]) = (first.to_bits(), both(family, first));
        println!(
            "{}: the smallest r at which the builds differ is {first:?} (bits {bits:016X}): {old} stages in the checkout, {new} in the test build",
            name(family)
        );
        let known = (first, [old, new]) == (self.first, self.at_first);
        holds(family, first, known, "not known as the first difference")?;
        self.differ_from(first)
    }

    /// That the builds differ from there on and not before, as the search by halving takes it: up to its end the test build has
    /// the least count, and the checkout's rises there. Seen on the doubles near it and on 100,000 steps from 0 to that end.
    fn differ_from(&self, first: f64) -> Result<(), String> {
        let (least, _) = oracle::ends(self.family);
        let near = (first.to_bits() - 2000..=first.to_bits() + 2000).map(f64::from_bits);
        let steps = (0..=100_000).map(|i| f64::from(i) / 100_000.0 * LEAST_UP_TO);
        near.chain(steps).try_for_each(|radius| {
            let [old, new] = both(self.family, radius);
            let as_taken = new == least && (old > least) == (radius >= first);
            holds(self.family, radius, as_taken, "not as the search takes it")
        })
    }

    fn saved(&self) -> Result<(), String> {
        let counts = SHOWN.map(|radius| both(self.family, radius));
        let each = SHOWN.iter().zip(counts);
        let each = each.map(|(radius, [old, new])| format!("{old} and {new} at r = {radius}"));
        println!(
            "{}, stages in the checkout and in the test build: {}",
            name(self.family),
            each.collect::<Vec<_>>().join(", ")
        );
        if counts == self.shown {
            return Ok(());
        }
        Err(format!("{}: known are {:?}", name(self.family), self.shown))
    }
}
