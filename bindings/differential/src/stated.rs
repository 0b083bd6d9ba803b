//! The definition of an attempt and of the calls around it, stated anew from documents 01 and 02 in plain doubles. Of the Rust
//! it takes the coefficients of the rows, with TSRKC2's gain, the order of the operations in a row, in RKMC2's candidate and in
//! TSRKC2's, TSRKC2's stage formula, and the stage counts of RKC and RKL, which are no matter of norms. RKG's counts are by the
//! formulas of document 02, CR 5, which the checkout does not have; RKMC2's are by the stored thresholds. Where a norm of the
//! Rust is infinite (CR 4), or its count overflows, this alone says what is right; where not, it is held against the Rust too.
use crate::build::stored_thresholds;
use oracle::thresholds::count_by;
use oracle::{
    Arguments, Figures, History, RKC, RKMC2, RightHandSide, Row, Rows, SolveError, TSRKC2,
};
use stabilized::calls::{VECTORS, vector};
use std::cell::RefCell;
use std::collections::BTreeMap;
use std::rc::Rc;
use std::sync::LazyLock;
use std::{array, mem};

pub fn finite(values: &[f64]) -> bool {
    values.iter().all(|value| value.is_finite())
}

/// "Sums run in index order", from +0.0.
fn sum_of_squares(entries: impl Iterator<Item = f64>) -> f64 {
    entries.fold(0.0, |sum, entry| sum + entry * entry)
}

/// "The sum is infinite and every entry is finite."
pub fn overflows(entries: &[f64]) -> bool {
    sum_of_squares(entries.iter().copied()) == f64::INFINITY && finite(entries)
}

/// 2^-520 and 2^520.
const LOWERING: f64 = f64::from_bits((1023 - 520) << 52);
const RAISING: f64 = f64::from_bits((1023 + 520) << 52);

/// The root of a sum of squares over a divisor. Where the sum overflows, "each entry is multiplied by 2^-520 before squaring
/// and the root by 2^520 after".
pub fn root_of_squares(divisor: f64, entries: &[f64]) -> f64 {
    if overflows(entries) {
        let lowered = entries.iter().map(|entry| entry * LOWERING);
        return (sum_of_squares(lowered) / divisor).sqrt() * RAISING;
    }
    (sum_of_squares(entries.iter().copied()) / divisor).sqrt()
}

pub fn vector_norm(values: &[f64]) -> f64 {
    root_of_squares(1.0, values)
}

/// "Perturbation is 2^-26 × max(norm of state, 1)."
pub fn perturbation(state: &[f64]) -> f64 {
    1.0 / (1 << 26) as f64 * vector_norm(state).max(1.0)
}

/// "It ends at radius 0, after the second or a later pass when the change is at most 0.01 × max(radius, 1), and always after
/// 12 passes."
pub fn last_pass(pass: u64, radius: f64, previous_radius: f64) -> bool {
    let change = (radius - previous_radius).abs();
    radius == 0.0 || (pass >= 2 && change <= 0.01 * radius.max(1.0)) || pass == 12
}

/// "`scaled_radius` r is |step| × radius", which is times 1.2.
pub fn scaled(step: f64, radius: f64) -> f64 {
    step.abs() * (1.2 * radius)
}

/// RKMC2's, as they are stored: read once.
static THRESHOLDS: LazyLock<Vec<f64>> = LazyLock::new(stored_thresholds);

/// RKG's count. "For RKG1 the number before limits becomes ceil((sqrt(9 + 8r) − 3) × 0.5)", "for RKG2, ceil((sqrt(25 + 12r) −
/// 3) × 0.5)"; the limits are 2 and 200, 3 and 200; "NaN and negatives count as 0".
fn rkg_stages(family: u64, scaled_radius: f64) -> usize {
    let r = scaled_radius.max(0.0);
    let (root, least) = match family {
        4 => ((9.0 + 8.0 * r).sqrt(), 2),
        5 => ((25.0 + 12.0 * r).sqrt(), 3),
        _ => panic!("family {family} is not RKG"),
    };
    let number = ((root - 3.0) * 0.5).ceil();
    (number as usize).clamp(least, 200)
}

/// The count for r in families 1 to 6: RKG's by its formulas, RKMC2's by the thresholds, 200 where the Rust's overflows in RKC,
/// and else the Rust's.
pub fn stages_for(family: u64, scaled_radius: f64) -> u64 {
    if oracle::overflows(family, scaled_radius) {
        return 200;
    }
    let stages = match family {
        4 | 5 => rkg_stages(family, scaled_radius),
        RKMC2 => count_by(&THRESHOLDS, scaled_radius),
        _ => oracle::stages(family, scaled_radius),
    };
    stages as u64
}

/// TSRKC2's: the number of the Rust's formula, whose sum does not overflow here, and at least 2. Nothing "when family 7 would need
/// more than 1000 stages". r is not limited below by 0, and a NaN is cast to 0.
pub fn two_step_stages(scaled_radius: f64, q: f64) -> Option<u64> {
    let bracket = 1.0 - q + (1.0 + q * (q - 0.598_626_091_572_911)).sqrt();
    let root = (1.0 + 0.759_782_816_506_459 * scaled_radius * bracket).sqrt();
    let number = (root.floor() as u64).saturating_add(1);
    (number <= 1000).then_some(number.max(2))
}

/// The count for r and q; nothing where TSRKC2 would need too many.
pub fn count_for(family: u64, scaled_radius: f64, q: f64) -> Option<u64> {
    match family {
        TSRKC2 => two_step_stages(scaled_radius, q),
        _ => Some(stages_for(family, scaled_radius)),
    }
}

/// "q, the last accepted step divided by the present one, or 0 without history."
pub fn quotient(previous_step: Option<f64>, step: f64) -> f64 {
    previous_step.map_or(0.0, |previous| previous / step)
}

/// An entry of TSRKC2's candidate, from those of the older state and of the last stage.
pub fn mixed_in(gain: f64, [older, last]: [f64; 2]) -> f64 {
    (1.0 - gain) * older + gain * last
}

thread_local! {
    /// The coefficients that were read, by family and count: reading them runs the Rust's recurrence.
    static READ: RefCell<BTreeMap<(u64, u64), Rc<Rows>>> = RefCell::default();
}

fn rows(family: u64, stages: u64) -> Rc<Rows> {
    READ.with_borrow_mut(|read| {
        let of_count = read.entry((family, stages));
        let rows = of_count.or_insert_with(|| Rc::new(oracle::rows(family, stages as usize)));
        rows.clone()
    })
}

/// An entry of the next stage, from those of the stage before, the one before that, the state, the derivative and the first
/// derivative.
fn next_stage(family: u64, step: f64, row: &Row, at: [f64; 5]) -> f64 {
    let [previous, previous_two, initial, derivative, first] = at;
    let Row {
        mu,
        nu,
        mu_tilde,
        gamma_tilde,
        ..
    } = *row;
    let left = 1.0 - mu - nu;
    match family {
        RKC => {
            mu * previous
                + nu * previous_two
                + left * initial
                + step * mu_tilde * (derivative - gamma_tilde * first)
        }
        RKMC2 => {
            left * initial
                + mu * previous
                + nu * previous_two
                + step * mu_tilde * (derivative - gamma_tilde * first)
        }
        TSRKC2 => mu * previous + nu * previous_two + step * mu_tilde * derivative,
        _ => {
            mu * previous
                + nu * previous_two
                + left * initial
                + step * mu_tilde * derivative
                + step * gamma_tilde * first
        }
    }
}

/// What RKMC2's candidate is made with.
#[derive(Clone, Copy, Debug)]
pub struct Combination {
    pub stages: u64,
    pub step: f64,
    pub omega_one: f64,
    /// b of the last stage, of the one before it and of the one before that.
    pub b: [f64; 3],
}

impl Combination {
    /// From the coefficients of all stages. They hold b before each stage; that of the last one is by the recurrence of the
    /// Chebyshev values.
    fn of_rows(rows: &Rows, step: f64) -> Self {
        let omega_zero = rows.omega_zero.expect("RKMC2's omega_zero");
        let last = (2..=rows.stages).fold([1.0, omega_zero], |[previous_two, previous], _| {
            [previous, 2.0 * omega_zero * previous - previous_two]
        });
        let before = |stage: usize| rows.rows[stage - 2].gamma_tilde;
        Self {
            stages: rows.stages as u64,
            step,
            omega_one: rows.omega_one,
            b: [
                1.0 / (1.0 + last[1]),
                before(rows.stages),
                before(rows.stages - 1),
            ],
        }
    }

    /// An entry of the candidate, from those of the state, the last stage, the one two before it and the first derivative.
    pub fn entry(&self, [initial, last, older, first]: [f64; 4]) -> f64 {
        let degree = self.stages as f64;
        let [b, b_previous, b_previous_two] = self.b;
        let gamma = b_previous / (2.0 * degree * self.omega_one);
        let delta = -b_previous / (2.0 * (degree - 2.0) * self.omega_one);
        (1.0 - gamma / b - delta / b_previous_two) * initial
            + (gamma / b) * last
            + (delta / b_previous_two) * older
            + self.step * b_previous * first
    }
}

/// An entry of the error, from those of the state, the candidate, the first derivative and the last.
fn error(family: u64, step: f64, [initial, last_stage, first, last]: [f64; 4]) -> f64 {
    match family {
        RKC => (4.0 * (initial - last_stage) + 2.0 * step * (first + last)) / 5.0,
        RKMC2 => (initial - last_stage + step * last) / 10.0,
        TSRKC2 => (initial - last_stage + step * last) / 3.0,
        _ => last_stage - (initial + step * first),
    }
}

/// The eleven vectors, TSRKC2's history, and the calls on them. As in the Rust a call has its right-hand side, and a
/// derivative is written before it is tested.
#[derive(Clone)]
pub struct Stated {
    family: u64,
    vectors: [Vec<f64>; VECTORS],
    history: Option<History>,
    evaluations: u64,
}

impl Stated {
    /// With vectors as they stand, in the order of the area, and a history.
    pub fn with_vectors(family: u64, vectors: [&[f64]; VECTORS], history: Option<History>) -> Self {
        Self {
            family,
            vectors: vectors.map(<[f64]>::to_vec),
            history,
            evaluations: 0,
        }
    }

    pub fn history(&self) -> Option<History> {
        self.history.clone()
    }

    /// q of a step.
    fn quotient(&self, step: f64) -> f64 {
        quotient(self.history.as_ref().map(|kept| kept.step), step)
    }

    pub fn vectors(&self) -> [&[f64]; VECTORS] {
        self.vectors.each_ref().map(Vec::as_slice)
    }

    /// Evaluations so far.
    pub fn evaluations(&self) -> u64 {
        self.evaluations
    }

    /// Start: the state is kept, the eigenvector zeroed, the history marked absent, and the first derivative evaluated.
    pub fn initialize<F: RightHandSide + ?Sized>(
        &mut self,
        state: &[f64],
        time: f64,
        rhs: &F,
    ) -> Result<(), SolveError> {
        self.vectors[vector::STATE].copy_from_slice(state);
        self.vectors[vector::EIGENVECTOR].fill(0.0);
        self.history = None;
        self.evaluate(vector::STATE, vector::FIRST_DERIVATIVE, time, rhs)
    }

    /// "It runs k passes, stages 2 to s, then evaluates the candidate at time + step." Where TSRKC2 would need too many stages,
    /// it ends after the passes.
    pub fn attempt<F: RightHandSide + ?Sized>(
        &mut self,
        arguments: Arguments,
        rhs: &F,
    ) -> Result<Figures, SolveError> {
        let Arguments { time, step, .. } = arguments;
        let (passes, radius) = self.power_iteration(time, rhs)?;
        let scaled_radius = scaled(step, radius);
        let stages = self.count_for(scaled_radius, step)?;
        let rows = self.rows(stages, scaled_radius, step);
        self.stages(&rows, time, step, rhs)?;
        self.all_finite(vector::CANDIDATE)?;
        let end = time + step;
        self.evaluate(vector::CANDIDATE, vector::LAST_DERIVATIVE, end, rhs)?;
        Ok(Figures {
            norm: self.error_norm(&arguments, stages),
            stages,
            passes,
            scaled_radius,
        })
    }

    /// s + k of the attempt that follows, if its power iteration comes to an end.
    pub fn length<F: RightHandSide + ?Sized>(
        &self,
        arguments: Arguments,
        rhs: &F,
    ) -> Result<u64, SolveError> {
        let (passes, radius) = self.clone().power_iteration(arguments.time, rhs)?;
        let step = arguments.step;
        Ok(passes + self.count_for(scaled(step, radius), step)?)
    }

    fn count_for(&self, scaled_radius: f64, step: f64) -> Result<u64, SolveError> {
        let count = count_for(self.family, scaled_radius, self.quotient(step));
        count.ok_or(SolveError::TooManyStages)
    }

    /// The coefficients of an attempt: TSRKC2's depend on q too.
    fn rows(&self, stages: u64, scaled_radius: f64, step: f64) -> Rc<Rows> {
        if self.family != TSRKC2 {
            return rows(self.family, stages);
        }
        let q = self.history.as_ref().map(|_| self.quotient(step));
        let rows = oracle::two_step_rows(scaled_radius, q);
        assert_eq!(
            rows.stages as u64, stages,
            "stages for {scaled_radius}, {q:?}"
        );
        Rc::new(rows)
    }

    /// Without a callback: "the last derivative becomes the first, the candidate becomes the kept state". In TSRKC2 the kept
    /// state before that and the step of the finished attempt are the history.
    pub fn accept(&mut self, step: f64) {
        if self.family == TSRKC2 {
            let state = self.vectors[vector::STATE].clone();
            self.history = Some(History { step, state });
        }
        self.copy(vector::LAST_DERIVATIVE, vector::FIRST_DERIVATIVE);
        self.copy(vector::CANDIDATE, vector::STATE);
    }

    /// With one: "that state is kept and evaluated, then the eigenvector is zeroed". The history is marked absent at the call.
    pub fn accept_with_callback<F: RightHandSide + ?Sized>(
        &mut self,
        state: &[f64],
        time: f64,
        rhs: &F,
    ) -> Result<(), SolveError> {
        self.vectors[vector::STATE].copy_from_slice(state);
        self.history = None;
        self.evaluate(vector::STATE, vector::FIRST_DERIVATIVE, time, rhs)?;
        self.vectors[vector::EIGENVECTOR].fill(0.0);
        Ok(())
    }

    /// k and the radius of the last pass.
    fn power_iteration<F: RightHandSide + ?Sized>(
        &mut self,
        time: f64,
        rhs: &F,
    ) -> Result<(u64, f64), SolveError> {
        let perturbation = self.begin_passes();
        let (mut pass, mut previous_radius) = (1, 0.0);
        loop {
            let (point, reply) = (vector::PERTURBED_STATE, vector::PERTURBED_DERIVATIVE);
            self.evaluate(point, reply, time, rhs)?;
            let radius = self.end_pass(perturbation);
            if last_pass(pass, radius, previous_radius) {
                return Ok((pass, radius));
            }
            self.perturb(perturbation);
            (pass, previous_radius) = (pass + 1, radius);
        }
    }

    /// The first direction and its point; the perturbation.
    pub fn begin_passes(&mut self) -> f64 {
        self.choose_direction();
        let perturbation = perturbation(&self.vectors[vector::STATE]);
        self.perturb(perturbation);
        perturbation
    }

    /// The next direction, which the reply to a pass makes; the radius.
    pub fn end_pass(&mut self, perturbation: f64) -> f64 {
        let from = [vector::PERTURBED_DERIVATIVE, vector::FIRST_DERIVATIVE];
        self.write(vector::EIGENVECTOR, from, |[reply, first]| reply - first);
        vector_norm(&self.vectors[vector::EIGENVECTOR]) / perturbation
    }

    /// "From the kept `eigenvector`, else the first derivative, else all ones; "else" means a norm of at most 2^-1022."
    fn choose_direction(&mut self) {
        let least = |values: &[f64]| vector_norm(values) <= f64::MIN_POSITIVE;
        if least(&self.vectors[vector::EIGENVECTOR]) {
            self.copy(vector::FIRST_DERIVATIVE, vector::EIGENVECTOR);
            if least(&self.vectors[vector::FIRST_DERIVATIVE]) {
                self.vectors[vector::EIGENVECTOR].fill(1.0);
            }
        }
    }

    /// The point of a pass: the state moved in the direction, by the perturbation.
    pub fn perturb(&mut self, perturbation: f64) {
        let norm = vector_norm(&self.vectors[vector::EIGENVECTOR]);
        let scale = perturbation / norm.max(f64::MIN_POSITIVE);
        let from = [vector::STATE, vector::EIGENVECTOR];
        self.write(vector::PERTURBED_STATE, from, |[initial, direction]| {
            initial + scale * direction
        });
    }

    /// Stages 1 to s, and the candidate.
    fn stages<F: RightHandSide + ?Sized>(
        &mut self,
        rows: &Rows,
        time: f64,
        step: f64,
        rhs: &F,
    ) -> Result<(), SolveError> {
        let first_step = step * rows.first_mu_tilde;
        self.copy(vector::STATE, vector::PREVIOUS_TWO);
        let from = [vector::STATE, vector::FIRST_DERIVATIVE];
        self.write(vector::PREVIOUS_ONE, from, |[initial, first]| {
            initial + first_step * first
        });
        let mut theta = rows.first_mu_tilde;
        for row in &rows.rows {
            let at = time + step * theta;
            self.evaluate(vector::PREVIOUS_ONE, vector::DERIVATIVE, at, rhs)?;
            self.row(row, step);
            if row.stage < rows.stages {
                self.vectors
                    .swap(vector::PREVIOUS_TWO, vector::PREVIOUS_ONE);
                self.vectors.swap(vector::PREVIOUS_ONE, vector::NEXT_STAGE);
            }
            theta = row.theta;
        }
        self.candidate(rows, step);
        Ok(())
    }

    fn row(&mut self, row: &Row, step: f64) {
        let family = self.family;
        let from = [
            vector::PREVIOUS_ONE,
            vector::PREVIOUS_TWO,
            vector::STATE,
            vector::DERIVATIVE,
            vector::FIRST_DERIVATIVE,
        ];
        self.write(vector::NEXT_STAGE, from, |at| {
            next_stage(family, step, row, at)
        });
    }

    /// The last stage; in RKMC2 made from it and others, in TSRKC2 from it and the older state.
    fn candidate(&mut self, rows: &Rows, step: f64) {
        match self.family {
            RKMC2 => self.combined(&Combination::of_rows(rows, step)),
            TSRKC2 => self.with_older(rows.two_step.expect("TSRKC2's gain").gain),
            _ => self.copy(vector::NEXT_STAGE, vector::CANDIDATE),
        }
    }

    /// "`previous_accepted_state`, or the state itself."
    fn with_older(&mut self, gain: f64) {
        let [state, last] = [vector::STATE, vector::NEXT_STAGE].map(|of| &self.vectors[of]);
        let older = self.history.as_ref().map_or(state, |kept| &kept.state);
        let entries = older.iter().zip(last);
        let candidate = entries.map(|(&older, &last)| mixed_in(gain, [older, last]));
        self.vectors[vector::CANDIDATE] = candidate.collect();
    }

    fn combined(&mut self, combination: &Combination) {
        let from = [
            vector::STATE,
            vector::NEXT_STAGE,
            vector::PREVIOUS_TWO,
            vector::FIRST_DERIVATIVE,
        ];
        self.write(vector::CANDIDATE, from, |at| combination.entry(at));
    }

    /// The norm of the error, which is left in the vector of the derivative; in RKL and RKG "their norm divided by s". "Without
    /// `adaptive` the norm is 0."
    pub fn error_norm(&mut self, arguments: &Arguments, stages: u64) -> f64 {
        if !arguments.adaptive {
            return 0.0;
        }
        let (family, step) = (self.family, arguments.step);
        let from = [
            vector::STATE,
            vector::CANDIDATE,
            vector::FIRST_DERIVATIVE,
            vector::LAST_DERIVATIVE,
        ];
        self.write(vector::DERIVATIVE, from, |at| error(family, step, at));
        let [errors, initial, last] =
            [vector::DERIVATIVE, vector::STATE, vector::CANDIDATE].map(|of| &self.vectors[of]);
        let ends = initial.iter().zip(last);
        let tolerances = ends.map(|(initial, last)| {
            arguments.absolute_tolerance
                + arguments.relative_tolerance * initial.abs().max(last.abs())
        });
        let scaled: Vec<f64> = errors.iter().zip(tolerances).map(|(e, t)| e / t).collect();
        let norm = root_of_squares(scaled.len() as f64, &scaled);
        match family {
            RKC | RKMC2 | TSRKC2 => norm,
            _ => norm / stages as f64,
        }
    }

    /// Each entry of a vector, from the entries of others at its place.
    fn write<const K: usize>(
        &mut self,
        to: usize,
        from: [usize; K],
        entry: impl Fn([f64; K]) -> f64,
    ) {
        let mut written = mem::take(&mut self.vectors[to]);
        let from = from.map(|of| self.vectors[of].as_slice());
        for (i, value) in written.iter_mut().enumerate() {
            *value = entry(array::from_fn(|of| from[of][i]));
        }
        self.vectors[to] = written;
    }

    fn copy(&mut self, from: usize, to: usize) {
        self.write(to, [from], |[value]| value);
    }

    /// The derivative at a vector; it is counted, and then tested.
    fn evaluate<F: RightHandSide + ?Sized>(
        &mut self,
        point: usize,
        reply: usize,
        time: f64,
        rhs: &F,
    ) -> Result<(), SolveError> {
        let mut derivative = mem::take(&mut self.vectors[reply]);
        let written = rhs(&mut derivative, &self.vectors[point], time);
        self.vectors[reply] = derivative;
        written?;
        self.evaluations += 1;
        self.all_finite(reply)
    }

    /// The one error that the Rust has, for a derivative and for the candidate.
    fn all_finite(&self, of: usize) -> Result<(), SolveError> {
        finite(&self.vectors[of])
            .then_some(())
            .ok_or(SolveError::NonFiniteDerivative)
    }
}
