//! The Rust that the engine is held against: a test build of family.rs, orthogonal.rs, chebyshev.rs, workspace.rs and
//! driver.rs of a checkout, behind stand-ins for what they lean on. In family.rs the two stage formulas of RKG are replaced by
//! those of document 02, CR 5 ([`formulas`]); nothing else is changed.
//!
//! [`Oracle`] runs `initialize`, `attempt_step` and `accept_step` and shows all eleven vectors, TSRKC2's history, and s, k and r
//! of an attempt. [`stages`] are the test build's stage counts, [`checkout::stages`] those of the checkout as it stands. [`rows`]
//! reads the coefficients of a stage, which are locals of the Rust, from a copy with added lines, and so does
//! [`two_step_stages`] the stage count of TSRKC2. [`thresholds`] holds RKMC2's stage rule as the engine has it.
pub mod checkout;
pub mod formulas;
pub mod radii;
mod shim;
pub mod stored_counts;
mod test_build;
pub mod thresholds;

mod recorded;

use formulas::{FORMULAS, Formula};
pub use recorded::{
    Row, Rows, TwoStep, radius_for, rows, two_step_count, two_step_overflows, two_step_rows,
    two_step_stages,
};
pub use shim::SolveError;
pub(crate) use shim::{OdeFunction, OdeProblem, SolveOptions, SolverStats, integrator};
pub use test_build::{Arguments, Figures, History, Iteration, Oracle, RightHandSide, stages};

/// The number of RKC.
pub const RKC: u64 = 1;

/// The numbers of RKG1 and RKG2.
pub const RKG: [u64; 2] = [4, 5];

/// The number of RKMC2.
pub const RKMC2: u64 = 6;

/// The number of TSRKC2.
pub const TSRKC2: u64 = 7;

/// The families, by their numbers.
pub const FAMILIES: [u64; 7] = [RKC, 2, 3, 4, 5, RKMC2, TSRKC2];

/// Those whose stage count depends on r alone. TSRKC2's depends on the history too.
pub const BY_RADIUS: [u64; 6] = [RKC, 2, 3, 4, 5, RKMC2];

/// From this r on the Rust's stage count of RKC overflows: a listed difference.
pub const RKC_OVERFLOW: f64 = f64::from_bits(0x47E4_C77B_0353_1DEC);

/// Whether the Rust's stage count of a family overflows for a scaled radius.
pub fn overflows(family: u64, scaled_radius: f64) -> bool {
    family == RKC && scaled_radius >= RKC_OVERFLOW
}

/// A family's name, by its number.
pub fn name(family: u64) -> &'static str {
    ["RKC", "RKL1", "RKL2", "RKG1", "RKG2", "RKMC2", "TSRKC2"][family as usize - 1]
}

/// The least and the largest stage count that documents 01 and 02 permit to a family.
pub fn ends(family: u64) -> (usize, usize) {
    match family {
        RKC | 4 => (2, 200),
        2 | 3 => (3, 199),
        5 => (3, 200),
        RKMC2 => (3, 1000),
        TSRKC2 => (2, 1000),
        _ => panic!("no family {family}"),
    }
}

/// Every stage count that is permitted to a family: RKL has the odd ones alone.
pub fn permitted(family: u64) -> impl Iterator<Item = usize> {
    let (least, largest) = ends(family);
    (least..=largest).step_by(if [2, 3].contains(&family) { 2 } else { 1 })
}

/// Which build of the Rust this is, in a line, with counts of the compiled code to show it.
pub fn build() -> String {
    let put_in = FORMULAS.map(|of| {
        let Formula {
            family,
            expression,
            formula,
        } = of;
        format!("{family} {formula} in place of {expression}")
    });
    let r = 100.0;
    let old = RKG.map(|family| checkout::stages(family, r));
    let new = RKG.map(|family| stages(family, r));
    let mut pairs = old.iter().zip(&new);
    assert!(
        pairs.all(|(old, new)| old != new),
        "the test build counts as the checkout does"
    );
    format!(
        "The Rust is a test build: the checkout's five files, with the two stage formulas of RKG put in by document 02, CR 5: {}. At r = {r} it has {new:?} stages, the checkout {old:?}",
        put_in.join("; ")
    )
}
