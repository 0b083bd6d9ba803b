//! A stepper in the default floating-point environment, and its error by name in others. The environment is changed by the
//! control register of x86-64, for which alone the engine is built.
#![allow(deprecated)]
use stabilized::{Attempt, Error, Family, Stepper, WrongEnvironment, check_environment};
use std::arch::x86_64::{_mm_getcsr, _mm_setcsr};

const DENORMALS_ARE_ZERO: u32 = 0x0040;
const DOWNWARD: u32 = 0x2000;
const UPWARD: u32 = 0x4000;
const TOWARD_ZERO: u32 = 0x6000;
const FLUSH_TO_ZERO: u32 = 0x8000;

/// What is done with these bits set in the thread's control register, which is as it was afterwards.
fn within<T>(bits: u32, work: impl FnOnce() -> T) -> T {
    // SAFETY: every x86-64 has the register.
    let kept = unsafe { _mm_getcsr() };
    unsafe { _mm_setcsr(kept | bits) };
    let done = work();
    unsafe { _mm_setcsr(kept) };
    done
}

fn no_flow(derivative: &mut [f64], _state: &[f64], _time: f64) {
    derivative.fill(0.0);
}

#[test]
fn default_environment() {
    assert_eq!(check_environment(), Ok(()));
    let mut stepper = Stepper::start(Family::Rkl1, &[1.0], 0.0, no_flow).unwrap();
    stepper.attempt(Attempt::new(0.0, 1.0)).unwrap();
    assert_eq!(stepper.candidate()[0].to_bits(), 0x3FEF_FFFF_FFFF_FFFF);
    assert_eq!(stepper.counters().evaluations, 5);
}

#[test]
fn other_environments_by_name() {
    use WrongEnvironment::{Rounding, RoundingAndSubnormals, Subnormals};
    for (bits, wrong) in [
        (UPWARD, Rounding),
        (DOWNWARD, Rounding),
        (TOWARD_ZERO, Rounding),
        (FLUSH_TO_ZERO, Subnormals),
        (DENORMALS_ARE_ZERO, Subnormals),
        (FLUSH_TO_ZERO | DENORMALS_ARE_ZERO, Subnormals),
        (UPWARD | FLUSH_TO_ZERO, RoundingAndSubnormals),
        (DOWNWARD | DENORMALS_ARE_ZERO, RoundingAndSubnormals),
    ] {
        let start = || Stepper::start(Family::Rkl1, &[1.0], 0.0, no_flow).map(|_| ());
        assert_eq!(within(bits, check_environment), Err(wrong), "{bits:04x}");
        assert_eq!(
            within(bits, start),
            Err(Error::Environment(wrong)),
            "{bits:04x}"
        );
        assert_eq!(start(), Ok(()));
    }
}

#[test]
fn restart_asks_again() {
    let mut stepper = Stepper::start(Family::Rkl1, &[1.0], 0.0, no_flow).unwrap();
    let before = stepper.record();
    let refused = within(UPWARD, || stepper.restart(Family::Rkl2, &[2.0], 0.0));
    assert_eq!(refused, Err(Error::Environment(WrongEnvironment::Rounding)));
    assert_eq!((stepper.record(), stepper.state()), (before, &[1.0][..]));
    assert_eq!(stepper.restart(Family::Rkl2, &[2.0], 0.0), Ok(()));
    assert_eq!(
        (stepper.state(), stepper.counters().evaluations),
        (&[2.0][..], 2)
    );
}
