//! Times an attempt of the engine, called from C and from Rust, against the same attempt of the Rust's test build: same model,
//! same inputs, same run, in turns, and so the same stages.
//!
//! The model is a rod of n cells, in C and in Rust. An attempt is made again and again from the same state, as after a
//! rejection. In TSRKC2 one attempt was accepted before, so that every attempt has a history, with q = 1. Each time is the least
//! of many rounds. The model's share is the time of its evaluations alone over the Rust's attempt.
//!
//! An attempt's power iteration goes on where the one before ended, so that s can still grow from attempt to attempt.
//! Therefore all three make many attempts before the rounds, and the same number in all; s is that of the last.
use oracle::{Arguments, Oracle};
use stabilized::calls::{Answer, Record, code, vectors_of};
use stabilized::{Attempt, Family, Stepper};
use std::hint::black_box;
use std::time::{Duration, Instant};

/// Attempts before the rounds.
const BEFORE: u32 = 200;
const ROUNDS: usize = 60;
const ROUND: Duration = Duration::from_millis(3);

fn rod(rate: f64, derivative: &mut [f64], state: &[f64]) {
    let n = state.len();
    for i in 0..n {
        let left = if i == 0 { 0.0 } else { state[i - 1] };
        let right = if i + 1 == n { 0.0 } else { state[i + 1] };
        derivative[i] = rate * (left - 2.0 * state[i] + right);
    }
}

/// The caller in C, bindings/c/benchmark.c: the model, and what it lends to the engine.
#[repr(C)]
struct Rod {
    rate: f64,
    n: usize,
    area_length: usize,
    record: Record,
    evaluations: u64,
    attempts: u64,
    area: *mut f64,
    derivative: *mut f64,
}

unsafe extern "C" {
    fn rod_start(rod: *mut Rod, family: u64, state: *const f64) -> Answer;
    fn rod_attempt(rod: *mut Rod, step: f64, absolute: f64, relative: f64) -> Answer;
    fn rod_accept(rod: *mut Rod) -> Answer;
}

/// Whether an attempt is accepted before those that are timed.
fn has_history(family: Family) -> bool {
    family == Family::Tsrkc2
}

/// An attempt from C, again and again: the error norm.
fn from_c(family: Family, state: &[f64], rate: f64, attempt: Attempt) -> impl FnMut() -> f64 {
    let n = state.len();
    let area_length = vectors_of(family as u64) * n;
    let mut rod = Rod {
        rate,
        n,
        area_length,
        record: Record::default(),
        evaluations: 0,
        attempts: 0,
        area: vec![0.0; area_length].leak().as_mut_ptr(),
        derivative: vec![0.0; n].leak().as_mut_ptr(),
    };
    let Attempt {
        step,
        absolute_tolerance: absolute,
        relative_tolerance: relative,
        ..
    } = attempt;
    // SAFETY: the rod is lent alone, and its vectors are its own, of the lengths that benchmark.c takes.
    unsafe {
        rod_start(&mut rod, family as u64, state.as_ptr());
        if has_history(family) {
            rod_attempt(&mut rod, step, absolute, relative);
            assert_eq!(rod_accept(&mut rod).code, code::READY);
        }
    }
    // SAFETY: as before.
    move || unsafe { rod_attempt(&mut rod, black_box(step), absolute, relative) }.norm
}

/// The same from Rust.
fn from_rust<F: FnMut(&mut [f64], &[f64], f64)>(
    family: Family,
    state: &[f64],
    attempt: Attempt,
    right_hand_side: F,
) -> Stepper<F> {
    let mut stepper = Stepper::start(family, state, 0.0, right_hand_side).expect("a start");
    if has_history(family) {
        stepper.attempt(attempt).expect("a finished attempt");
        stepper.accept().expect("an accept");
    }
    stepper
}

/// The same by the Rust.
fn by_the_rust(family: Family, state: &[f64], rate: f64, attempt: Attempt) -> impl FnMut() -> f64 {
    let rhs = move |derivative: &mut [f64], state: &[f64], _: f64| {
        rod(rate, derivative, state);
        Ok(())
    };
    let mut rust = Oracle::new(family as u64, state.len());
    rust.initialize(state, 0.0, &rhs).expect("a start");
    let arguments = Arguments {
        time: attempt.time,
        step: attempt.step,
        absolute_tolerance: attempt.absolute_tolerance,
        relative_tolerance: attempt.relative_tolerance,
        adaptive: attempt.adaptive,
    };
    if has_history(family) {
        rust.attempt(arguments, &rhs).expect("a finished attempt");
        rust.accept(arguments.time, arguments.step);
    }
    move || {
        let norm = rust.attempt(black_box(arguments), &rhs);
        norm.expect("a finished attempt")
    }
}

/// Nanoseconds a turn, over turns that fill a round.
fn timed<T>(turns: u32, mut work: impl FnMut() -> T) -> f64 {
    let begin = Instant::now();
    for _ in 0..turns {
        black_box(work());
    }
    begin.elapsed().as_nanos() as f64 / f64::from(turns)
}

struct Times {
    stages: u64,
    passes: u64,
    from_c: f64,
    from_rust: f64,
    rust: f64,
    model: f64,
}

fn times(family: Family, n: usize, rate: f64, step: f64) -> Times {
    let state: Vec<f64> = (0..n).map(|i| 1.0 + 0.25 * ((i * 7) % 5) as f64).collect();
    let attempt = Attempt::new(0.0, step);
    let right_hand_side =
        |derivative: &mut [f64], state: &[f64], _: f64| rod(rate, derivative, state);
    let mut engine = from_rust(family, &state, attempt, right_hand_side);
    let mut rust = by_the_rust(family, &state, rate, attempt);
    let mut c = from_c(family, &state, rate, attempt);
    let once = timed(BEFORE, || {
        let ours = engine.attempt(attempt).expect("a finished attempt");
        assert_eq!([ours.norm, c()].map(f64::to_bits), [rust().to_bits(); 2]);
    });
    let turns = (3.0 * ROUND.as_nanos() as f64 / once).max(1.0) as u32;
    let mut least = [f64::INFINITY; 4];
    let mut derivative = vec![0.0; n];
    for _ in 0..ROUNDS {
        let evaluations = engine.record().wholes.stages + engine.record().wholes.pass;
        let round = [
            timed(turns, || engine.attempt(black_box(attempt)).ok()),
            timed(turns, &mut rust),
            timed(turns, || {
                for _ in 0..evaluations {
                    rod(rate, black_box(&mut derivative), black_box(&state));
                }
            }),
            timed(turns, &mut c),
        ];
        least = std::array::from_fn(|i| least[i].min(round[i]));
    }
    Times {
        stages: engine.record().wholes.stages,
        passes: engine.record().wholes.pass,
        from_rust: least[0],
        rust: least[1],
        model: least[2],
        from_c: least[3],
    }
}

/// The rod's rate at which a step of 1 has this scaled radius.
fn rate(n: usize, scaled_radius: f64) -> f64 {
    let radius = 2.0 * (1.0 + (std::f64::consts::PI / (n as f64 + 1.0)).cos());
    scaled_radius / (1.2 * radius)
}

/// Each family with scaled radii of its least count and its largest; RKMC2 and TSRKC2 with one of about 200 stages as well. RKMC2
/// has one for 1000 stages although the power iteration comes out a few percent low at n = 64 and 512. TSRKC2's largest is one
/// that its first attempt, which has no history and with it 994 stages, can have too.
///
/// In every attempt the Rust's `run_rkmc2` works omega_zero and omega_one out anew, by 50 halvings with cosh and sinh, and
/// `run_tsrkc2` works acosh and sinh out; the engine reads them from its tables.
const RADII: [(Family, &[f64]); 7] = [
    (Family::Rkc, &[0.5, 25_700.0]),
    (Family::Rkl1, &[0.5, 39_800.0]),
    (Family::Rkl2, &[0.5, 19_899.0]),
    (Family::Rkg1, &[0.5, 20_300.0]),
    (Family::Rkg2, &[0.5, 13_532.0]),
    (Family::Rkmc2, &[0.5, 6_400.0, 140_000.0]),
    (Family::Tsrkc2, &[0.5, 44_000.0, 650_000.0]),
];

fn main() {
    println!("{}\n", oracle::build());
    println!(
        "| family | n | s | k | from C, µs | from Rust, µs | the Rust, µs | C/Rust | Rust/Rust | model/Rust |"
    );
    println!("|---|---|---|---|---|---|---|---|---|---|");
    for (family, radii) in RADII {
        for n in [1, 8, 64, 512] {
            for &scaled_radius in radii {
                let t = times(family, n, rate(n, scaled_radius), 1.0);
                println!(
                    "| {} | {n} | {} | {} | {:.2} | {:.2} | {:.2} | {:.2} | {:.2} | {:.2} |",
                    oracle::name(family as u64),
                    t.stages,
                    t.passes,
                    t.from_c / 1000.0,
                    t.from_rust / 1000.0,
                    t.rust / 1000.0,
                    t.from_c / t.rust,
                    t.from_rust / t.rust,
                    t.model / t.rust
                );
            }
        }
    }
}
