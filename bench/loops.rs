//! Nanoseconds of the loops over the area, beside Rust loops with the same arithmetic over separate vectors. bench/run builds and runs it.

use std::hint::black_box;
use std::time::Instant;

extern "C" {
    fn timed_row(
        area: *mut f64,
        count: usize,
        n: usize,
        family: u64,
        mu: f64,
        nu: f64,
        mu_tilde: f64,
        gamma_tilde: f64,
        step: f64,
        derivative: *const f64,
        m: usize,
    );
    fn timed_finite(v: *const f64, n: usize) -> bool;
    fn timed_root(x: f64) -> f64;
    fn timed_norm(v: *const f64, n: usize) -> f64;
    fn timed_point(area: *mut f64, count: usize, n: usize, perturbation: f64);
    fn timed_point_from(area: *mut f64, count: usize, n: usize, perturbation: f64, norm: f64);
    fn timed_pass(area: *mut f64, count: usize, n: usize, perturbation: f64, derivative: *const f64, m: usize);
}

const PERTURBATION: f64 = 0.5;
const STEP: f64 = 0.5;
const ROW: Row = Row { mu: 0.3, nu: 0.25, mu_tilde: 0.1, gamma_tilde: -0.1 };

#[derive(Clone, Copy)]
struct Row {
    mu: f64,
    nu: f64,
    mu_tilde: f64,
    gamma_tilde: f64,
}

/// The Rust's vectors, each of its own.
#[derive(Default)]
struct Vectors {
    first_derivative: Vec<f64>,
    derivative: Vec<f64>,
    previous_two: Vec<f64>,
    previous_one: Vec<f64>,
    next_stage: Vec<f64>,
    eigenvector: Vec<f64>,
    perturbed_state: Vec<f64>,
    perturbed_derivative: Vec<f64>,
    state: Vec<f64>,
}

impl Vectors {
    fn of(area: &[f64], n: usize) -> Vectors {
        let part = |k: usize| area[k * n..(k + 1) * n].to_vec();
        Vectors {
            first_derivative: part(0),
            derivative: part(2),
            previous_two: part(3),
            previous_one: part(4),
            next_stage: part(5),
            eigenvector: part(6),
            perturbed_state: part(7),
            perturbed_derivative: part(8),
            state: part(9),
        }
    }

    fn stand_in(&self, area: &[f64], n: usize) -> bool {
        let other = Vectors::of(area, n);
        let pairs = [
            (&self.derivative, &other.derivative),
            (&self.previous_two, &other.previous_two),
            (&self.previous_one, &other.previous_one),
            (&self.next_stage, &other.next_stage),
            (&self.eigenvector, &other.eigenvector),
            (&self.perturbed_state, &other.perturbed_state),
            (&self.perturbed_derivative, &other.perturbed_derivative),
        ];
        pairs.iter().all(|(a, b)| a == b)
    }

    #[inline(never)]
    fn row(&mut self, family: u64, c: Row, derivative: &[f64]) {
        let Row { mu, nu, mu_tilde, gamma_tilde } = c;
        self.derivative.copy_from_slice(derivative);
        for ((((output, previous), previous_two), initial), (derivative, first)) in self
            .next_stage
            .iter_mut()
            .zip(&self.previous_one)
            .zip(&self.previous_two)
            .zip(&self.state)
            .zip(self.derivative.iter().zip(&self.first_derivative))
        {
            let sum = mu * previous + nu * previous_two + (1.0 - mu - nu) * initial;
            *output = match family {
                1 => sum + STEP * mu_tilde * (derivative - gamma_tilde * first),
                _ => sum + STEP * mu_tilde * derivative + STEP * gamma_tilde * first,
            };
        }
        std::mem::swap(&mut self.previous_two, &mut self.previous_one);
        std::mem::swap(&mut self.previous_one, &mut self.next_stage);
    }

    /// The Rust's point: it works the norm out.
    #[inline(never)]
    fn point(&mut self) {
        let norm = norm(&self.eigenvector);
        self.point_from(norm)
    }

    /// The same with the root that is worked out here.
    #[inline(never)]
    fn point_by_our_root(&mut self) {
        let norm = norm_by_our_root(&self.eigenvector);
        self.point_from(norm)
    }

    #[inline(always)]
    fn point_from(&mut self, norm: f64) {
        let scale = PERTURBATION / norm.max(f64::MIN_POSITIVE);
        for ((perturbed, value), direction) in self.perturbed_state.iter_mut().zip(&self.state).zip(&self.eigenvector) {
            *perturbed = value + scale * direction;
        }
    }

    /// The direction and its norm; the Rust works the norm out again for the next point.
    #[inline(never)]
    fn pass(&mut self, derivative: &[f64]) {
        self.perturbed_derivative.copy_from_slice(derivative);
        for ((direction, perturbed), base) in self.eigenvector.iter_mut().zip(&self.perturbed_derivative).zip(&self.first_derivative) {
            *direction = perturbed - base;
        }
        black_box(norm(&self.eigenvector) / PERTURBATION);
        self.point();
    }
}

#[inline(never)]
fn norm(v: &[f64]) -> f64 {
    v.iter().map(|x| x * x).sum::<f64>().sqrt()
}

/// The same sum with the root that is worked out here: what is left to compare is the loop.
#[inline(never)]
fn norm_by_our_root(v: &[f64]) -> f64 {
    // SAFETY: a number goes in and a number comes out.
    unsafe { timed_root(v.iter().map(|x| x * x).sum::<f64>()) }
}

#[inline(never)]
fn finite(v: &[f64]) -> bool {
    v.iter().all(|x| x.is_finite())
}

/// The best of many rounds, in nanoseconds a call; a round takes both in turn.
fn measure(name: &str, n: usize, mut ours: impl FnMut(), mut rust: impl FnMut()) {
    let calls = 40_000 / (n + 10);
    let once = |run: &mut dyn FnMut()| {
        let start = Instant::now();
        (0..calls).for_each(|_| run());
        start.elapsed().as_nanos() as f64 / calls as f64
    };
    let (mut a, mut b) = (f64::MAX, f64::MAX);
    for _ in 0..2000 {
        a = a.min(once(&mut ours));
        b = b.min(once(&mut rust));
    }
    println!("{n:4}   {name:34}{a:8.1}{b:8.1}{:8.2}", a / b);
}

fn main() {
    println!("   n   ns a call                             ours    Rust   ratio");
    for n in [8, 64, 512] {
        let entries: Vec<f64> = (0..11 * n).map(|i| (i as f64).sin()).collect();
        let derivative: Vec<f64> = (0..n).map(|i| (i as f64).cos()).collect();
        let (d, v) = (derivative.as_ptr(), derivative.clone());
        let mut area = entries.clone();
        let (a, count) = (area.as_mut_ptr(), area.len());
        let mut vectors = Vectors::of(&entries, n);
        // SAFETY: `a` and `d` are the vectors above with their counts; they live on and do not overlap.
        let row = |family| unsafe {
            timed_row(black_box(a), count, black_box(n), family, ROW.mu, ROW.nu, ROW.mu_tilde, ROW.gamma_tilde, STEP, d, n)
        };
        let point = || unsafe { timed_point(black_box(a), count, black_box(n), PERTURBATION) };
        let at_hand = norm(&derivative);
        let point_from = || unsafe { timed_point_from(black_box(a), count, black_box(n), PERTURBATION, black_box(at_hand)) };
        let pass = || unsafe { timed_pass(black_box(a), count, black_box(n), PERTURBATION, d, n) };
        let tested = || unsafe { black_box(timed_finite(black_box(d), n)) };
        for family in [1, 3] {
            row(family);
            vectors.row(family, ROW, &v);
        }
        pass();
        vectors.pass(&v);
        assert!(vectors.stand_in(&area, n) && unsafe { timed_norm(d, n) } == norm(&v));
        measure("row with exchange", n, || row(3), || black_box(&mut vectors).row(3, ROW, black_box(&v)));
        measure("row with exchange, RKC", n, || row(1), || black_box(&mut vectors).row(1, ROW, black_box(&v)));
        measure("finite test", n, || { tested(); }, || { black_box(finite(black_box(&v))); });
        measure("stage: test, row, exchange", n, || if tested() { row(3) }, || {
            if black_box(finite(black_box(&v))) {
                black_box(&mut vectors).row(3, ROW, &v)
            }
        });
        let ours = || unsafe { black_box(timed_norm(black_box(d), n)); };
        measure("norm", n, ours, || { black_box(norm(black_box(&v))); });
        measure("norm, our root in both", n, ours, || { black_box(norm_by_our_root(black_box(&v))); });
        measure("point, norm worked out", n, point, || black_box(&mut vectors).point());
        measure("point, our root in both", n, point, || black_box(&mut vectors).point_by_our_root());
        measure("point, norm at hand in ours", n, point_from, || black_box(&mut vectors).point());
        measure("pass: direction, norm, next point", n, pass, || black_box(&mut vectors).pass(black_box(&v)));
    }
}
