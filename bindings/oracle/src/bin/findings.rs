//! Runs the Rust on the smallest inputs at which it departs from the engine, or from what its user would expect. Attempts are
//! of the test build, which has the engine's stage formulas of RKG; those of the checkout are counted by themselves.
use oracle::thresholds::least;
use oracle::{
    Arguments, Figures, Oracle, RKMC2, Rows, SolveError, TSRKC2, checkout, two_step_count,
    two_step_overflows, two_step_rows, two_step_stages,
};
use std::cell::RefCell;
use std::panic::catch_unwind;

/// One attempt from a state with one entry: the points that were evaluated, and the norm.
fn attempt(
    family: u64,
    state: f64,
    step: f64,
    model: impl Fn(f64) -> f64,
) -> (Vec<f64>, Result<f64, SolveError>) {
    let points = RefCell::new(Vec::new());
    let rhs = |derivative: &mut [f64], point: &[f64], _: f64| {
        points.borrow_mut().push(point[0]);
        derivative[0] = model(point[0]);
        Ok(())
    };
    let mut rust = Oracle::new(family, 1);
    if let Err(error) = rust.initialize(&[state], 0.0, &rhs) {
        return (points.into_inner(), Err(error));
    }
    points.borrow_mut().clear();
    let arguments = Arguments {
        time: 0.0,
        step,
        absolute_tolerance: 1e-6,
        relative_tolerance: 1e-2,
        adaptive: true,
    };
    let norm = rust.attempt(arguments, &rhs);
    (points.into_inner(), norm)
}

fn rkc_overflow() {
    let overflows = |r: f64| (1.54 * r + 1.0).sqrt() >= 18_446_744_073_709_551_616.0;
    let r = least(1.0, f64::MAX, overflows);
    let below = f64::from_bits(r.to_bits() - 1);
    println!(
        "RKC's stage count overflows from r = {r:e} (bits {:016X}) on",
        r.to_bits()
    );
    println!("  one double below: s = {}", oracle::stages(1, below));
    for r in [r, f64::INFINITY] {
        match catch_unwind(|| oracle::stages(1, r)) {
            Ok(stages) => println!("  at {r:e}: s = {stages}"),
            Err(_) => println!("  at {r:e}: a panic (this build checks for overflow)"),
        }
    }
}

/// RKG's stage counts, which the checkout takes from formulas of its own: the smallest r at which it has another count than the
/// test build, and what both have at some r.
fn rkg_counts() {
    for family in oracle::RKG {
        let name = oracle::name(family);
        let both = |r| (checkout::stages(family, r), oracle::stages(family, r));
        let r = checkout::first_difference(family);
        let (old, new) = both(r);
        println!(
            "{name}: the smallest r at which the builds differ is {r:?} (bits {:016X}): s = {old} in the checkout, {new} in the test build",
            r.to_bits()
        );
        for r in checkout::SHOWN {
            let (old, new) = both(r);
            println!("  r = {r}: s = {old} in the checkout, {new} in the test build");
        }
    }
}

/// y' = rate × y from y = 1: at a hot and very stiff model the norm of the direction is infinite and the radius 0.
fn stiff_looks_easy() {
    for family in oracle::FAMILIES {
        let easy = |rate: f64| {
            let (points, norm) = attempt(family, 1.0, 1e-150, |y| -rate * y);
            norm.is_ok() && points.len() <= 5
        };
        let rate = least(1e154, 1e155, easy);
        let below = attempt(family, 1.0, 1e-150, |y| {
            -f64::from_bits(rate.to_bits() - 1) * y
        })
        .0
        .len();
        let at = attempt(family, 1.0, 1e-150, |y| -rate * y).0.len();
        println!(
            "{}: y' = -rate y, y = 1, step 1e-150: {below} evaluations below rate {rate:e} (bits {:016X}), {at} from there on",
            oracle::name(family),
            rate.to_bits()
        );
    }
}

/// A state whose norm is infinite: the right-hand side is evaluated at a point that is not finite.
fn hot_state() {
    let evaluated = |state: f64| attempt(2, state, 1.0, |_| 1.0).0[0];
    let state = least(1e154, 1e155, |state| !evaluated(state).is_finite());
    println!(
        "y' = 1 from y = {state:e} (bits {:016X}): the first pass evaluates {}",
        state.to_bits(),
        evaluated(state)
    );
    let (points, norm) = attempt(2, state, 1.0, |y| -y);
    println!(
        "  y' = -y from there: {} evaluations, {norm:?}",
        points.len()
    );
}

/// All derivatives 0: the candidate is not the state.
fn zero_derivative() {
    for family in oracle::FAMILIES {
        let (points, norm) = attempt(family, 1.0, 1.0, |_| 0.0);
        let candidate = points[points.len() - 1];
        println!(
            "{}: y' = 0, y = 1, step 1: the candidate is {candidate:?} (bits {:016X}), norm {norm:?}",
            oracle::name(family),
            candidate.to_bits()
        );
    }
}

/// A derivative that is not finite is written before it is tested, so that the kernel's vector holds it.
fn bad_derivative_written() {
    let rhs = |derivative: &mut [f64], _: &[f64], _: f64| {
        derivative[0] = f64::NAN;
        Ok(())
    };
    let mut rust = Oracle::new(2, 1);
    let result = rust.initialize(&[1.0], 0.0, &rhs);
    println!(
        "a first derivative NaN: {result:?}, and the vector holds {:?}",
        rust.vectors()[0]
    );
}

/// A candidate that is not finite is reported as a derivative that is not.
fn bad_candidate() {
    let (points, norm) = attempt(2, 1e308, 1.0, |_| 1e308);
    println!(
        "y' = 1e308 from 1e308, step 1: {norm:?} after {} evaluations, all replies finite",
        points.len()
    );
}

/// More stages than the largest count would be needed: it is cut without a word, and the step is unstable. The norm is
/// taken relatively to the candidate too: RKL2's stays below 1, and RKMC2's, which has the last derivative, does not.
fn cut_count() {
    for (family, rate) in [(3, 21_000.0), (RKMC2, 140_000.0)] {
        let (points, norm) = attempt(family, 1.0, 1.0, |y| -rate * y);
        println!(
            "{}: y' = -{rate} y, y = 1, step 1, relative tolerance 0.01: {} evaluations, candidate {:e}, {norm:?}",
            oracle::name(family),
            points.len(),
            points[points.len() - 1]
        );
    }
}

/// TSRKC2's count is not limited in the Rust, and its sum overflows.
fn two_step_counts() {
    for q in [None, Some(1.0)] {
        let many = |r| two_step_stages(r, q).is_none_or(|stages| stages > 1000);
        let r = least(0.0, 1e9, many);
        let [below, at] = [r.next_down(), r].map(|r| two_step_count(r, q));
        println!(
            "TSRKC2, q {q:?}: the least r that needs more than 1000 stages is {r:?} (bits {}): {at}, one double below {below}",
            bits(&[r])
        );
    }
    let r = least(1.0, f64::MAX, |r| two_step_overflows(r, 0.0));
    println!(
        "TSRKC2's count overflows without a history from r = {r:e} (bits {}) on",
        bits(&[r])
    );
    for r in [1e12, r, f64::INFINITY] {
        match catch_unwind(|| two_step_count(r, None)) {
            Ok(stages) => println!("  at {r:e}: s = {stages}"),
            Err(_) => println!("  at {r:e}: a panic (this build checks for overflow)"),
        }
    }
}

/// q and r at which TSRKC2's stage rule or omega_one comes to no number, and q at the ends of the doubles.
fn two_step_edges() {
    let edge = (1u64 << 52) as f64;
    let no_bracket = |q: &f64| !two_step_overflows(f64::INFINITY, *q);
    let near = (0..4096).map(|i| f64::from_bits(edge.to_bits() - 2048 + i));
    let q = near.into_iter().find(no_bracket).expect("a bracket of 0");
    let stages = two_step_count(f64::INFINITY, Some(q));
    println!(
        "TSRKC2, r infinite: the first q near 2^52 whose bracket is 0 is {q} (bits {}), where s = {stages}",
        bits(&[q])
    );
    let below = (0..4_000_000).map(|i| edge.powf(f64::from(i) / 4e6));
    println!(
        "  of 4,000,000 q from 1 to 2^52 {} have none above 0",
        below.filter(no_bracket).count()
    );
    let (large, small) = (2.0_f64.powi(-50), f64::from_bits(1));
    println!(
        "  q is infinite for {large:e} over {small:e}, and {:e} for the double below",
        large.next_down() / small
    );
    println!(
        "  q is {} for {small:e} over 2, and {:e} over the double below",
        small / 2.0,
        small / 2.0_f64.next_down()
    );
    let nan = |size: f64| two_step_rows(0.0, Some(-size)).omega_one.is_nan();
    let q = -least(1e300, f64::MAX, nan);
    println!(
        "  r = 0: omega_one is a NaN from q = {q:e} (bits {}) on, where its root is of a difference of infinities",
        bits(&[q])
    );
}

/// The argument of the root in omega_one, over its first term, which is a square.
fn root_argument(rows: &Rows, q: f64) -> f64 {
    let [first, second] = rows.two_step.expect("TSRKC2's locals").derivatives;
    let square = ((1.0 - q) * first).powi(2);
    (square + 4.0 * q * 1.1 * second) / square
}

/// That no q makes it negative: the least that it comes to, over all counts and q from −10^6 to −10^-6.
fn two_step_roots() {
    let mut lowest = (f64::INFINITY, 0, 0.0);
    for stages in oracle::permitted(TSRKC2) {
        let rows = oracle::rows(TSRKC2, stages);
        for exponent in -600..=600 {
            let q = -(10.0_f64.powf(f64::from(exponent) / 100.0));
            let argument = root_argument(&rows, q);
            if argument < lowest.0 {
                lowest = (argument, stages, q);
            }
        }
    }
    let (argument, stages, q) = lowest;
    println!(
        "TSRKC2: the argument of omega_one's root over its square is never below {argument:?} (s = {stages}, q = {q:?})"
    );
}

/// Stages of TSRKC2 are evaluated after the step's end.
fn two_step_times() {
    for q in [None, Some(0.5), Some(1.0), Some(2.0)] {
        for rows in [9.0, 100.0, 600_000.0].map(|r| two_step_rows(r, q)) {
            // the last row has no stage after it
            let evaluated = rows.rows.iter().filter(|row| row.stage < rows.stages);
            let latest = evaluated.fold(rows.first_mu_tilde, |latest, row| latest.max(row.theta));
            println!(
                "TSRKC2, q {q:?}, s {}: the latest stage is evaluated at time + {latest:.4} step",
                rows.stages
            );
        }
    }
}

/// The doubles' bits.
fn bits(values: &[f64]) -> String {
    let each = values.iter().map(|x| format!("{:016X}", x.to_bits()));
    each.collect::<Vec<_>>().join(" ")
}

/// A case that RustCase.antt or TwoStepCase.antt of session/proofs has: what a family evaluates of y' = -rate y with two
/// temperatures in attempts that are accepted, and where they end.
fn case(family: u64, steps: &[f64], state: [f64; 2], rates: [f64; 2]) {
    let rhs = |derivative: &mut [f64], point: &[f64], _: f64| {
        for i in 0..2 {
            derivative[i] = -rates[i] * point[i];
        }
        Ok(())
    };
    let printed = |derivative: &mut [f64], point: &[f64], time: f64| {
        rhs(derivative, point, time)?;
        let [time, point, reply] = [&[time], point, derivative].map(bits);
        println!("  time {time}, point {point}, reply {reply}");
        Ok(())
    };
    let name = oracle::name(family);
    println!("{name}: y' = -rate y, rates {rates:?}, y = {state:?}, tolerances 1e-6");
    let mut rust = Oracle::new(family, 2);
    rust.initialize(&state, 0.0, &printed)
        .expect("finite derivatives");
    let mut time = 0.0;
    for &step in steps {
        let arguments = Arguments {
            time,
            step,
            absolute_tolerance: 1e-6,
            relative_tolerance: 1e-6,
            adaptive: true,
        };
        println!("  step {step}");
        let iteration = rust.iteration(arguments, &rhs);
        let figures = rust.figures(&iteration, arguments, &printed);
        print_figures(&figures.expect("a candidate that is finite"), &rust);
        rust.accept(time, step);
        time += step;
    }
}

fn print_figures(figures: &Figures, rust: &Oracle) {
    let (stages, passes) = (figures.stages, figures.passes);
    let [radius, norm] = [figures.scaled_radius, figures.norm].map(|x| bits(&[x]));
    let candidate = bits(rust.vectors()[10]);
    println!("  r {radius}, s {stages}, k {passes}, candidate {candidate}, norm {norm}");
}

fn main() {
    std::panic::set_hook(Box::new(|_| {}));
    println!("{}", oracle::build());
    rkg_counts();
    rkc_overflow();
    stiff_looks_easy();
    hot_state();
    zero_derivative();
    bad_derivative_written();
    bad_candidate();
    cut_count();
    two_step_counts();
    two_step_edges();
    two_step_roots();
    two_step_times();
    case(RKMC2, &[0.37], [-13.9375, -1.375], [19.1, 4.5]);
    case(RKMC2, &[0.43], [-20.5625, 22.125], [3.0, 56.7]);
    case(
        TSRKC2,
        &[0.297001, 0.439274, 0.779309],
        [-20.25, -7.4375],
        [14.8, 6.4],
    );
}
