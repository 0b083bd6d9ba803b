//! TSRKC2's history: an accept keeps the step and the state before, a callback and a start end it; the area is the larger one by
//! itself; and a need of more than 1000 stages is refused.
use stabilized::calls::vector;
use stabilized::{Attempt, Error, Family, Refusal, Stepper};
use std::cell::Cell;

const STATE: [f64; 2] = [-13.9375, -1.375];

/// y' = -rate y.
fn cooling(rates: [f64; 2]) -> impl Fn(&mut [f64], &[f64], f64) {
    move |derivative, state, _time| {
        for i in 0..2 {
            derivative[i] = -rates[i] * state[i];
        }
    }
}

fn attempt(time: f64, step: f64) -> Attempt {
    Attempt {
        absolute_tolerance: 1.0e-6,
        relative_tolerance: 1.0e-6,
        ..Attempt::new(time, step)
    }
}

fn bits(values: &[f64]) -> Vec<u64> {
    values.iter().map(|value| value.to_bits()).collect()
}

/// Two accepted steps, by the bits that the Rust has (`bindings/run findings`): the second has a history.
#[test]
fn the_step_before_is_taken_into_account() {
    let mut stepper = Stepper::start(Family::Tsrkc2, &STATE, 0.0, cooling([19.1, 4.5])).unwrap();
    let mut time = 0.0;
    for (step, stages, candidate, norm) in [
        (
            0.37,
            4,
            [0xC021_0627_5B74_0B42, 0xBFE0_BD2D_3956_8C88],
            0x412A_5ABD_D70F_0144,
        ),
        (
            0.25,
            3,
            [0x3FA1_F92A_140A_A540, 0xBFBE_53D8_A1D6_37FE],
            0x410A_DAB9_CC8E_DDBE,
        ),
    ] {
        let figures = stepper.attempt(attempt(time, step)).unwrap();
        assert_eq!((figures.stages, figures.passes), (stages, 2));
        assert_eq!(bits(stepper.candidate()), candidate);
        assert_eq!(figures.norm.to_bits(), norm);
        stepper.accept().unwrap();
        time += step;
    }
}

#[test]
fn what_keeps_a_history_and_what_ends_it() {
    let mut stepper = Stepper::start(Family::Tsrkc2, &STATE, 0.0, cooling([2.0, 1.0])).unwrap();
    assert_eq!(stepper.history(), None);
    stepper.attempt(attempt(0.0, 0.5)).unwrap();
    stepper.attempt(attempt(0.0, 0.25)).unwrap();
    assert_eq!(stepper.history(), None, "rejected, and not yet accepted");
    stepper.accept().unwrap();
    assert_eq!(stepper.history(), Some((&STATE[..], 0.25)));
    let second = stepper.state().to_vec();
    stepper.attempt(attempt(0.25, -0.5)).unwrap();
    assert_eq!(
        stepper.history(),
        Some((&STATE[..], 0.25)),
        "not yet accepted"
    );
    stepper.accept().unwrap();
    assert_eq!(stepper.history(), Some((&second[..], -0.5)));
    stepper.attempt(attempt(0.0, 0.5)).unwrap();
    stepper.accept_with_callback(&STATE, 1.0).unwrap();
    assert_eq!(stepper.history(), None, "a callback");
    assert_eq!(
        stepper.vector(vector::OLDER_STATE),
        second,
        "which lets the state stand"
    );
    stepper.attempt(attempt(1.0, 0.5)).unwrap();
    stepper.accept().unwrap();
    stepper.restart(Family::Tsrkc2, &STATE, 0.0).unwrap();
    assert_eq!(stepper.history(), None, "a start");
}

/// After an accept the same attempt comes to another candidate than without a history, and one that turns around by the same
/// step to the older state.
#[test]
fn a_history_matters() {
    let start = || Stepper::start(Family::Tsrkc2, &STATE, 0.0, cooling([2.0, 1.0])).unwrap();
    let mut stepper = start();
    stepper.attempt(attempt(0.0, 0.25)).unwrap();
    stepper.accept().unwrap();
    let state = stepper.state().to_vec();
    stepper.attempt(attempt(0.25, 0.25)).unwrap();
    let with = bits(stepper.candidate());
    stepper.attempt(attempt(0.25, -0.25)).unwrap();
    assert_eq!(stepper.candidate(), STATE);
    let mut without = start();
    without.restart(Family::Tsrkc2, &state, 0.25).unwrap();
    without.attempt(attempt(0.25, 0.25)).unwrap();
    assert_ne!(bits(without.candidate()), with);
}

/// Families whose areas differ in size, one after another; a start that is turned away leaves the family that was.
#[test]
fn the_area_follows_the_family() {
    let mut stepper = Stepper::start(Family::Rkl2, &STATE, 0.0, cooling([2.0, 1.0])).unwrap();
    for family in [Family::Tsrkc2, Family::Rkmc2, Family::Tsrkc2, Family::Rkc] {
        stepper.attempt(attempt(0.0, 0.25)).unwrap();
        let refused = stepper.restart(family, &[f64::NAN, 0.0], 0.0);
        assert_eq!(refused, Err(Error::Refused(Refusal::State)));
        let refused = stepper.restart(family, &[1.0], 0.0);
        assert_eq!(refused, Err(Error::Refused(Refusal::Length)));
        stepper.accept().unwrap();
        stepper.restart(family, &STATE, 0.0).unwrap();
        assert_eq!(stepper.record().wholes.family, family as u64);
    }
    stepper.attempt(attempt(0.0, 0.25)).unwrap();
}

/// The least r that needs more than 1000 stages, and one below.
#[test]
fn more_than_1000_stages_are_refused() {
    let least = 658_082.137_602_212_4 / 1.2;
    for (rate, stages) in [
        (0.9999 * least, Ok(1000)),
        (1.0001 * least, Err(Refusal::Stages)),
    ] {
        let mut stepper =
            Stepper::start(Family::Tsrkc2, &STATE, 0.0, cooling([rate, rate])).unwrap();
        let figures = stepper.attempt(attempt(0.0, 1.0));
        assert_eq!(figures.map(|figures| figures.stages), stages);
        if stages.is_err() {
            assert_eq!(stepper.attempt(attempt(0.0, 0.5)), Err(Refusal::Phase));
            stepper.restart(Family::Tsrkc2, &STATE, 0.0).unwrap();
            assert!(stepper.attempt(attempt(0.0, 0.5)).is_ok());
        }
    }
}

/// r infinite needs too many stages, and r a NaN the least count. (The norm of every pass's departure from the first derivative,
/// 2e308, is no double; that of the state is not, or is. A row multiplies the state by up to 1.91.)
#[test]
fn radii_that_are_no_finite_numbers() {
    for (entry, nan) in [(0.92e308, true), (1.0, false)] {
        let first = Cell::new(true);
        let rhs = move |derivative: &mut [f64], _: &[f64], _: f64| {
            derivative.fill(if first.take() { -0.5e308 } else { 0.5e308 });
        };
        let mut stepper = Stepper::start(Family::Tsrkc2, &[entry; 4], 0.0, rhs).unwrap();
        match stepper.attempt(Attempt::new(0.0, 1.0e-306)) {
            Ok(figures) => assert!(nan && figures.scaled_radius.is_nan() && figures.stages == 2),
            refused => assert_eq!((refused, nan), (Err(Refusal::Stages), false)),
        }
    }
}
