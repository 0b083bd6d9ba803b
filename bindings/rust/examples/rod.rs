//! A rod of 64 cells, hot in the middle and cooled at both ends, over one second. The step is halved when the error norm
//! is above 1 and grows by half when it is small. At the end stand what was evaluated, by its use, and the attempt that ran
//! the most stages.
use stabilized::{Attempt, Error, Family, Figures, Stepper};

const CELLS: usize = 64;
const CONDUCTIVITY: f64 = 0.01;

fn heat_flow(derivative: &mut [f64], state: &[f64], _time: f64) {
    let rate = CONDUCTIVITY * (CELLS * CELLS) as f64;
    for i in 0..CELLS {
        let left = if i == 0 { 0.0 } else { state[i - 1] };
        let right = if i + 1 == CELLS { 0.0 } else { state[i + 1] };
        derivative[i] = rate * (left - 2.0 * state[i] + right);
    }
}

/// What the attempts came to.
fn report(attempts: &[Figures]) {
    let stages: u64 = attempts.iter().map(|figures| figures.stages).sum();
    let passes: u64 = attempts.iter().map(|figures| figures.passes).sum();
    println!("of these 1 at the start, {stages} by stages, {passes} by passes");
    if let Some(most) = attempts.iter().max_by_key(|figures| figures.stages) {
        let (s, k, r) = (most.stages, most.passes, most.scaled_radius);
        println!("most stages: s {s}, k {k}, r {r:.6}");
    }
}

fn main() -> Result<(), Error> {
    let mut state = [0.0; CELLS];
    state[CELLS / 4..3 * CELLS / 4].fill(100.0);
    let mut stepper = Stepper::start(Family::Rkl2, &state, 0.0, heat_flow)?;
    let (mut time, mut step) = (0.0, 0.001);
    let mut attempts = Vec::new();
    while time < 1.0 {
        step = f64::min(step, 1.0 - time);
        let figures = stepper.attempt(Attempt::new(time, step))?;
        if figures.norm <= 1.0 {
            stepper.accept()?;
            time += step;
        }
        step *= match figures.norm {
            norm if norm <= 0.25 => 1.5,
            norm if norm <= 1.0 => 1.0,
            _ => 0.5,
        };
        attempts.push(figures);
    }
    let counters = stepper.counters();
    println!("middle {:.6}", stepper.state()[CELLS / 2]);
    println!(
        "{} attempts, {} evaluations",
        counters.finished_attempts, counters.evaluations
    );
    report(&attempts);
    Ok(())
}
