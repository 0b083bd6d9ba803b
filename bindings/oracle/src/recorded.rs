//! Locals of the Rust, read from a copy of the test build to which build.rs adds lines that record them.
#![allow(dead_code)]

use crate::{OdeFunction, OdeProblem, SolveError, SolverStats, TSRKC2};
use family::StabilizedFamily;
use std::cell::RefCell;
use workspace::StabilizedKernel;

include!(concat!(env!("OUT_DIR"), "/recorded.rs"));

crate::shim::carried_families!();
crate::shim::other_families!(run_rock2, run_rock4, run_serk2, run_eserk);

/// The coefficients of one stage; `theta` is the value after it.
#[derive(Clone, Copy, Debug, PartialEq)]
pub struct Row {
    pub stage: usize,
    pub mu: f64,
    pub nu: f64,
    pub mu_tilde: f64,
    /// In RKC nu_tilde, in RKMC2 b_previous, in TSRKC2 0.
    pub gamma_tilde: f64,
    /// In TSRKC2 the Rust has none after the last stage; this is its expression there too.
    pub theta: f64,
}

/// The coefficients of all stages of one count.
#[derive(Clone, Debug, Default, PartialEq)]
pub struct Rows {
    pub stages: usize,
    /// Of RKC, RKMC2 and TSRKC2 alone.
    pub omega_zero: Option<f64>,
    pub omega_one: f64,
    pub first_mu_tilde: f64,
    pub rows: Vec<Row>,
    /// Of TSRKC2 alone.
    pub two_step: Option<TwoStep>,
}

/// What TSRKC2 has beside its rows.
#[derive(Clone, Copy, Debug, PartialEq)]
pub struct TwoStep {
    /// acosh(1.1).
    pub acosh: f64,
    /// The sinh of that.
    pub sinh: f64,
    pub omega_zero_minus_one: f64,
    /// The first and the second derivative of the Chebyshev polynomial there.
    pub derivatives: [f64; 2],
    pub gain: f64,
}

thread_local! {
    static RECORDED: RefCell<Rows> = RefCell::default();
}

pub(crate) fn record_first(
    stages: usize,
    omega_zero: Option<f64>,
    omega_one: f64,
    first_mu_tilde: f64,
) {
    RECORDED.set(Rows {
        stages,
        omega_zero,
        omega_one,
        first_mu_tilde,
        ..Rows::default()
    });
}

pub(crate) fn record_row(stage: usize, [mu, nu, mu_tilde, gamma_tilde, theta]: [f64; 5]) {
    RECORDED.with_borrow_mut(|recorded| {
        recorded.rows.push(Row {
            stage,
            mu,
            nu,
            mu_tilde,
            gamma_tilde,
            theta,
        })
    });
}

pub(crate) fn record_two_step([acosh, sinh, omega_zero_minus_one, first, second, gain]: [f64; 6]) {
    let recorded = Some(TwoStep {
        acosh,
        sinh,
        omega_zero_minus_one,
        derivatives: [first, second],
        gain,
    });
    RECORDED.with_borrow_mut(|rows| rows.two_step = recorded);
}

/// A right-hand side that is 0 everywhere, or stops at once.
struct Zero {
    stops: bool,
}

impl OdeFunction<()> for Zero {
    fn evaluate(
        &self,
        derivative: &mut [f64],
        _: &[f64],
        _: &(),
        _: f64,
    ) -> Result<(), SolveError> {
        derivative.fill(0.0);
        if self.stops {
            return Err(SolveError::Stopped);
        }
        Ok(())
    }
}

const fn problem(stops: bool) -> OdeProblem<Zero, ()> {
    OdeProblem {
        rhs: Zero { stops },
        parameters: (),
    }
}

/// The coefficients that the Rust uses for a family and a stage count, in TSRKC2 without a history.
pub fn rows(family: u64, stages: usize) -> Rows {
    if family == TSRKC2 {
        return two_step_rows(radius_for(stages), None);
    }
    let run = StabilizedKernel::new(family_of(family), 1).run_recurrence(
        &problem(false),
        &[1.0],
        0.0,
        1.0,
        stages,
        &mut [0.0],
        &mut SolverStats::default(),
    );
    run.expect("a run with zero derivatives");
    RECORDED.take()
}

/// A scaled radius at which TSRKC2 without a history has this stage count: the root lies between count − 1 and the count.
pub fn radius_for(stages: usize) -> f64 {
    let root = stages as f64 - 0.5;
    (root * root - 1.0) / (2.0 * SLOPE)
}

/// The two numbers of TSRKC2's stage rule.
const SLOPE: f64 = 0.759_782_816_506_459;
const BEND: f64 = 0.598_626_091_572_911;

/// Whether the sum in the Rust's stage count of TSRKC2 overflows: the root is 2^64 or more, and the cast of it, which is the
/// largest number, gets 1 more. q is 0 without a history.
pub fn two_step_overflows(scaled_radius: f64, q: f64) -> bool {
    let bracket = (1.0 - q) + (1.0 + q * (q - BEND)).sqrt();
    let root = (1.0 + SLOPE * scaled_radius * bracket).sqrt();
    root >= 18_446_744_073_709_551_616.0
}

/// The coefficients of TSRKC2 for a scaled radius and q, without a history for none.
pub fn two_step_rows(scaled_radius: f64, q: Option<f64>) -> Rows {
    two_step(scaled_radius, q, false).expect("a run with zero derivatives");
    RECORDED.take()
}

/// The stage count that the Rust gives TSRKC2, without a history for none; nothing where its sum overflows.
pub fn two_step_stages(scaled_radius: f64, q: Option<f64>) -> Option<usize> {
    let overflows = two_step_overflows(scaled_radius, q.unwrap_or(0.0));
    (!overflows).then(|| two_step_count(scaled_radius, q))
}

/// The same as it comes out, which is 2 where the sum overflows and that is not checked. It is recorded before the first stage
/// is evaluated, where the run is stopped.
pub fn two_step_count(scaled_radius: f64, q: Option<f64>) -> usize {
    let stopped = two_step(scaled_radius, q, true);
    assert_eq!(stopped, Err(SolveError::Stopped));
    RECORDED.take().stages
}

/// `run_tsrkc2` with a step of 1, so that the step before it is q.
fn two_step(scaled_radius: f64, q: Option<f64>, stops: bool) -> Result<(), SolveError> {
    let mut kernel = StabilizedKernel::new(family_of(TSRKC2), 1);
    kernel.previous_accepted_step = q;
    kernel.previous_accepted_state = q.map(|_| vec![1.0]);
    kernel.run_tsrkc2(
        &problem(stops),
        &[1.0],
        0.0,
        1.0,
        scaled_radius,
        &mut [0.0],
        &mut SolverStats::default(),
    )
}
