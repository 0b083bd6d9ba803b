//! What a finished attempt tells: its evaluations are s + k, r and norm are finite though squares overflow, and the record
//! keeps s, k and r until the next attempt that is taken.
use stabilized::calls::Record;
use stabilized::{Attempt, Error, Family, Figures, Refusal, Stepper};
use std::cell::Cell;

const FAMILIES: [Family; 7] = [
    Family::Rkc,
    Family::Rkl1,
    Family::Rkl2,
    Family::Rkg1,
    Family::Rkg2,
    Family::Rkmc2,
    Family::Tsrkc2,
];

/// A rod of cells that exchange heat at this rate.
fn rod(rate: f64) -> impl Fn(&mut [f64], &[f64], f64) {
    move |derivative, state, _time| {
        for i in 0..state.len() {
            let left = if i == 0 { 0.0 } else { state[i - 1] };
            let right = state.get(i + 1).unwrap_or(&0.0);
            derivative[i] = rate * (left - 2.0 * state[i] + right);
        }
    }
}

/// s, k and r as the record holds them; r by its bits.
fn held(record: Record) -> (u64, u64, u64) {
    let (wholes, radius) = (record.wholes, record.doubles.scaled_radius);
    (wholes.stages, wholes.pass, radius.to_bits())
}

fn told(figures: Figures) -> (u64, u64, u64) {
    let Figures {
        stages,
        passes,
        scaled_radius,
        ..
    } = figures;
    (stages, passes, scaled_radius.to_bits())
}

#[test]
fn evaluations_are_stages_and_passes() {
    for family in FAMILIES {
        for step in [1.0e-6, -1.0e-3, 0.01, 0.3] {
            let mut stepper = Stepper::start(family, &[20.0; 8], 0.0, rod(500.0)).unwrap();
            let before = stepper.counters().evaluations;
            let figures = stepper.attempt(Attempt::new(0.0, step)).unwrap();
            let rise = stepper.counters().evaluations - before;
            assert_eq!(figures.stages + figures.passes, rise, "{family:?}, {step}");
            assert!((1..=12).contains(&figures.passes));
            assert_eq!(told(figures), held(stepper.record()));
        }
    }
}

/// RKL2's rule at the r that is told, which is no more than 1.2 × the step × the rod's radius, 4 × its rate.
#[test]
fn the_radius_gives_the_stages() {
    let mut stepper = Stepper::start(Family::Rkl2, &[20.0; 8], 0.0, rod(500.0)).unwrap();
    let figures = stepper.attempt(Attempt::new(0.0, 0.1)).unwrap();
    let r = figures.scaled_radius;
    assert!((100.0..=1.2 * 0.1 * 2000.0).contains(&r), "{r}");
    let by_rule = (((9.0 + 8.0 * r).sqrt() - 1.0) / 2.0).ceil() as u64;
    assert_eq!(figures.stages, by_rule | 1);
}

/// A sensor that sends 1e200, and an ordinary state whose rates are so fast that its derivative is as hot: the squares
/// overflow, and yet radius and norm are finite, and the stages are those that a stiff rod needs.
#[test]
fn hot_vectors_have_finite_figures() {
    for family in FAMILIES {
        for (sensor, rate, step) in [(1.0e200, 500.0, 0.1), (60.0, 5.0e202, 1.0e-201)] {
            let state = [20.0, sensor, 40.0, 5.0];
            let mut stepper = Stepper::start(family, &state, 0.0, rod(rate)).unwrap();
            let figures = stepper.attempt(Attempt::new(0.0, step)).unwrap();
            let r = figures.scaled_radius;
            assert!((100.0..=240.0).contains(&r), "{family:?}, {figures:?}");
            assert!(figures.norm.is_finite(), "{family:?}, {figures:?}");
            assert!(figures.stages > 9, "{family:?}, {figures:?}");
        }
    }
}

/// y' = -rate y on both sides of the rate whose square overflows: docs/DIFFERENCES.md, "A very stiff and hot model".
#[test]
fn a_stiff_model_stays_stiff_where_its_square_overflows() {
    let overflowing = 2.0_f64.powi(512);
    for rate in [overflowing.next_down(), overflowing] {
        for (family, evaluations) in [
            (Family::Rkg1, 180),
            (Family::Rkmc2, 328),
            (Family::Tsrkc2, 159),
        ] {
            let cooling = |derivative: &mut [f64], state: &[f64], _: f64| {
                derivative[0] = -rate * state[0];
            };
            let mut stepper = Stepper::start(family, &[1.0], 0.0, cooling).unwrap();
            let figures = stepper.attempt(Attempt::new(0.0, 1.0e-150)).unwrap();
            assert_eq!(figures.stages + figures.passes, evaluations, "{family:?}");
        }
    }
}

/// Four entries whose norm is no double, the first derivative 0 and every other reply the state: r is a NaN, and a row's
/// products overflow or not by the family (docs/DECISIONS.md, 70).
#[test]
fn a_norm_that_is_no_double() {
    let finishing = [Family::Rkl1, Family::Rkg1, Family::Rkmc2];
    for (entry, finishing) in [(1.0e308, &finishing[..]), (1.7e308, &[])] {
        for family in FAMILIES {
            let first = Cell::new(true);
            let rhs = move |derivative: &mut [f64], _: &[f64], _: f64| {
                derivative.fill(if first.take() { 0.0 } else { entry });
            };
            let mut stepper = Stepper::start(family, &[entry; 4], 0.0, rhs).unwrap();
            let ended = stepper.attempt(Attempt::new(0.0, 2.0_f64.powi(-20)));
            assert_eq!(
                ended.is_ok(),
                finishing.contains(&family),
                "{family:?}, {ended:?}"
            );
            assert!(ended.is_ok() || ended == Err(Refusal::Candidate));
            assert!(stepper.record().doubles.scaled_radius.is_nan());
        }
    }
}

#[test]
fn not_a_number_and_infinity_are_told() {
    // The norm of every pass's departure from the first derivative, 2e308, is no double; that of the state is not, or is.
    for (entry, nan) in [(1.0e308, true), (1.0, false)] {
        let first = Cell::new(true);
        let rhs = move |derivative: &mut [f64], _: &[f64], _: f64| {
            derivative.fill(if first.take() { -0.5e308 } else { 0.5e308 });
        };
        let mut stepper = Stepper::start(Family::Rkl1, &[entry; 4], 0.0, rhs).unwrap();
        let figures = stepper.attempt(Attempt::new(0.0, 1.0e-306)).unwrap();
        let r = figures.scaled_radius;
        assert_eq!((r.is_nan(), r.is_infinite()), (nan, !nan), "{r}");
        assert_eq!(figures.stages, if nan { 3 } else { 199 });
        assert_eq!(told(figures), held(stepper.record()));
    }
}

#[test]
fn the_record_keeps_them_until_the_next_attempt() {
    // Once this is set, every derivative holds a NaN.
    let spoiled = Cell::new(false);
    let rhs = |derivative: &mut [f64], state: &[f64], time: f64| {
        rod(500.0)(derivative, state, time);
        if spoiled.get() {
            derivative[0] = f64::NAN;
        }
    };
    let state = [20.0, 40.0, 5.0];
    let mut stepper = Stepper::start(Family::Rkg2, &state, 0.0, rhs).unwrap();
    let first = told(stepper.attempt(Attempt::new(0.0, 0.02)).unwrap());
    assert_ne!(first, (0, 0, 0));
    stepper.accept().unwrap();
    assert_eq!(held(stepper.record()), first, "accept");
    let bad = Attempt {
        absolute_tolerance: 0.0,
        ..Attempt::new(0.0, 0.02)
    };
    assert_eq!(stepper.attempt(bad), Err(Refusal::Tolerance));
    assert_eq!(held(stepper.record()), first, "an attempt turned away");

    let second = told(stepper.attempt(Attempt::new(0.02, 0.1)).unwrap());
    assert_ne!(second, first);
    assert_eq!(held(stepper.record()), second);
    stepper.accept_with_callback(&state, 1.0).unwrap();
    assert_eq!(held(stepper.record()), second, "callback and its reply");
    stepper.restart(Family::Rkc, &state, 0.0).unwrap();
    assert_eq!(held(stepper.record()), second, "start and its reply");
    spoiled.set(true);
    let refused = stepper.restart(Family::Rkc, &state, 0.0);
    assert_eq!(refused, Err(Error::Refused(Refusal::Derivative)));
    assert_eq!(held(stepper.record()), second, "a derivative turned away");
}
