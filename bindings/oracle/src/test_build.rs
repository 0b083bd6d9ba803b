//! The test build: the five files, family.rs with the stage formulas of RKG put in, and a kernel to run.
#![allow(dead_code)]

use crate::integrator::StepKernel;
use crate::{
    OdeFunction, OdeProblem, SolveError, SolveOptions, SolverStats, TSRKC2, two_step_stages,
};
use family::StabilizedFamily;
use std::fmt::{Display, Formatter};
use workspace::StabilizedKernel;

include!(concat!(env!("OUT_DIR"), "/test_build.rs"));

crate::shim::carried_families!();
crate::shim::other_families!(run_rock2, run_rock4, run_serk2, run_eserk);

/// What an attempt is given beside the state.
#[derive(Clone, Copy, Debug, PartialEq)]
pub struct Arguments {
    pub time: f64,
    pub step: f64,
    pub absolute_tolerance: f64,
    pub relative_tolerance: f64,
    pub adaptive: bool,
}

/// What the power iteration of an attempt comes to.
#[derive(Clone, Debug, PartialEq)]
pub struct Iteration {
    /// k.
    pub passes: u64,
    /// r: |step| times what `spectral_radius` gives, multiplied here as driver.rs does.
    pub scaled_radius: f64,
    /// As its last pass leaves it.
    eigenvector: Vec<f64>,
}

/// What a finished attempt comes to: its error norm, s, k and r.
#[derive(Clone, Copy, Debug, PartialEq)]
pub struct Figures {
    pub norm: f64,
    pub stages: u64,
    pub passes: u64,
    pub scaled_radius: f64,
}

impl Display for Figures {
    fn fmt(&self, formatter: &mut Formatter<'_>) -> std::fmt::Result {
        let Self {
            norm,
            stages,
            passes,
            scaled_radius: r,
        } = *self;
        let (norm_bits, r_bits) = (norm.to_bits(), r.to_bits());
        write!(
            formatter,
            "s {stages}, k {passes}, r {r:e} ({r_bits:016X}), norm {norm:e} ({norm_bits:016X})"
        )
    }
}

/// What TSRKC2 keeps of the last accepted step: the step, and the state before it.
#[derive(Clone, Debug, PartialEq)]
pub struct History {
    pub step: f64,
    pub state: Vec<f64>,
}

/// A right-hand side: writes the derivative at a point and time, or stops the attempt with an error.
pub trait RightHandSide: Fn(&mut [f64], &[f64], f64) -> Result<(), SolveError> {}

impl<F: Fn(&mut [f64], &[f64], f64) -> Result<(), SolveError> + ?Sized> RightHandSide for F {}

struct Closure<'a, F: ?Sized>(&'a F);

impl<F: RightHandSide + ?Sized> OdeFunction<()> for Closure<'_, F> {
    fn evaluate(
        &self,
        derivative: &mut [f64],
        state: &[f64],
        _: &(),
        time: f64,
    ) -> Result<(), SolveError> {
        (self.0)(derivative, state, time)
    }
}

fn problem<F: RightHandSide + ?Sized>(rhs: &F) -> OdeProblem<Closure<'_, F>, ()> {
    OdeProblem {
        rhs: Closure(rhs),
        parameters: (),
    }
}

/// The kernel of the Rust, with the two vectors that its caller owns: the state and the candidate.
pub struct Oracle {
    kernel: StabilizedKernel,
    state: Vec<f64>,
    candidate: Vec<f64>,
    stats: SolverStats,
}

impl Oracle {
    /// A kernel as the Rust makes it, every vector zeroed.
    pub fn new(family: u64, n: usize) -> Self {
        Self {
            kernel: StabilizedKernel::new(family_of(family), n),
            state: vec![0.0; n],
            candidate: vec![0.0; n],
            stats: SolverStats::default(),
        }
    }

    /// A kernel without a history whose eleven vectors hold what is given, the eigenvector zeroed.
    pub fn with_vectors(family: u64, n: usize, area: &[f64]) -> Self {
        let mut oracle = Self::new(family, n);
        for (vector, part) in oracle.vectors_mut().into_iter().zip(area.chunks(n)) {
            vector.copy_from_slice(part);
        }
        oracle.kernel.eigenvector.fill(0.0);
        oracle
    }

    /// `initialize` at this state and time.
    pub fn initialize<F: RightHandSide + ?Sized>(
        &mut self,
        state: &[f64],
        time: f64,
        rhs: &F,
    ) -> Result<(), SolveError> {
        self.state.copy_from_slice(state);
        self.kernel
            .initialize(&problem(rhs), &self.state, time, &mut self.stats)
    }

    /// `attempt_step` from the state; the error norm.
    pub fn attempt<F: RightHandSide + ?Sized>(
        &mut self,
        arguments: Arguments,
        rhs: &F,
    ) -> Result<f64, SolveError> {
        let options = SolveOptions {
            absolute_tolerance: arguments.absolute_tolerance,
            relative_tolerance: arguments.relative_tolerance,
            adaptive: arguments.adaptive,
        };
        let estimate = self.kernel.attempt_step(
            &problem(rhs),
            &self.state,
            arguments.time,
            arguments.step,
            &mut self.candidate,
            &options,
            &mut self.stats,
        )?;
        Ok(estimate.error_norm)
    }

    /// `accept_step` without a callback; the candidate becomes the state.
    pub fn accept(&mut self, time: f64, step: f64) {
        let never = |_: &mut [f64], _: &[f64], _: f64| Err(SolveError::Stopped);
        self.kernel
            .accept_step(
                &problem(&never),
                &self.state,
                &self.candidate,
                time + step,
                step,
                false,
                &mut self.stats,
            )
            .expect("no evaluation without a callback");
        self.state.copy_from_slice(&self.candidate);
    }

    /// `accept_step` with a callback, which brings a state and time.
    pub fn accept_with_callback<F: RightHandSide + ?Sized>(
        &mut self,
        state: &[f64],
        time: f64,
        step: f64,
        rhs: &F,
    ) -> Result<(), SolveError> {
        let previous = std::mem::replace(&mut self.state, state.to_vec());
        self.kernel.accept_step(
            &problem(rhs),
            &previous,
            &self.state,
            time,
            step,
            true,
            &mut self.stats,
        )
    }

    /// The power iteration of an attempt by itself, which is `spectral_radius`: r.
    pub fn iterate<F: RightHandSide + ?Sized>(
        &mut self,
        arguments: Arguments,
        rhs: &F,
    ) -> Result<f64, SolveError> {
        let radius = self.kernel.spectral_radius(
            &problem(rhs),
            &self.state,
            arguments.time,
            &mut self.stats,
        )?;
        Ok(arguments.step.abs() * radius)
    }

    /// The same on a copy of this kernel. What it evaluates are its passes.
    pub fn iteration<F: RightHandSide + ?Sized>(
        &self,
        arguments: Arguments,
        rhs: &F,
    ) -> Result<Iteration, SolveError> {
        let mut copy = self.clone();
        let scaled_radius = copy.iterate(arguments, rhs)?;
        Ok(Iteration {
            passes: copy.evaluations() - self.evaluations(),
            scaled_radius,
            eigenvector: copy.kernel.eigenvector,
        })
    }

    /// The stage count that the Rust gives for r and a step; nothing where TSRKC2's sum overflows.
    fn by_rule(&self, scaled_radius: f64, step: f64) -> Option<usize> {
        let kernel = &self.kernel;
        let q = kernel
            .previous_accepted_step
            .map(|previous| previous / step);
        let by_radius = kernel.family.stages(scaled_radius);
        by_radius.or_else(|| two_step_stages(scaled_radius, q))
    }

    /// Whether TSRKC2 would need more than its largest count, at which the Rust goes on and the engine does not.
    pub fn needs_too_many(&self, scaled_radius: f64, step: f64) -> bool {
        let (_, largest) = crate::ends(TSRKC2);
        let two_step = self.kernel.family == family_of(TSRKC2);
        let within = || {
            self.by_rule(scaled_radius, step)
                .filter(|count| *count <= largest)
        };
        two_step && within().is_none()
    }

    /// `attempt` after `iteration` on the same replies. What it evaluates beside the passes are its stages, stages 2 to s and
    /// the candidate, as many as the Rust's rule gives for r. `attempt_step` writes the eigenvector in the power iteration
    /// alone, so that the same bits afterwards show the same last pass. Where TSRKC2 would need too many stages, only the power
    /// iteration is made.
    pub fn figures<F: RightHandSide + ?Sized>(
        &mut self,
        iteration: &Result<Iteration, SolveError>,
        arguments: Arguments,
        rhs: &F,
    ) -> Result<Figures, SolveError> {
        if iteration
            .as_ref()
            .is_ok_and(|ended| self.needs_too_many(ended.scaled_radius, arguments.step))
        {
            self.iterate(arguments, rhs)?;
            return Err(SolveError::TooManyStages);
        }
        let before = self.evaluations();
        let norm = self.attempt(arguments, rhs)?;
        let ended = iteration.as_ref();
        let Iteration {
            passes,
            scaled_radius,
            ref eigenvector,
        } = *ended.expect("a finished attempt has ended its iteration");
        let bits = |vector: &[f64]| -> Vec<u64> { vector.iter().map(|x| x.to_bits()).collect() };
        let last_pass = bits(&self.kernel.eigenvector);
        assert_eq!(last_pass, bits(eigenvector), "the eigenvector");
        let stages = self.evaluations() - before - passes;
        let by_rule = self.by_rule(scaled_radius, arguments.step);
        assert_eq!(by_rule, Some(stages as usize), "stages for {scaled_radius}");
        Ok(Figures {
            norm,
            stages,
            passes,
            scaled_radius,
        })
    }

    /// Evaluations so far, as the Rust counts them.
    pub fn evaluations(&self) -> u64 {
        self.stats.rhs_evaluations as u64
    }

    /// What TSRKC2 keeps of the last accepted step. The kernel has either both parts or none.
    pub fn history(&self) -> Option<History> {
        let kernel = &self.kernel;
        let both = kernel
            .previous_accepted_step
            .zip(kernel.previous_accepted_state.clone());
        assert_eq!(both.is_some(), kernel.previous_accepted_step.is_some());
        both.map(|(step, state)| History { step, state })
    }

    /// The nine vectors in the order of workspace.rs, then the state, then the candidate.
    pub fn vectors(&self) -> [&[f64]; 11] {
        let kernel = &self.kernel;
        [
            &kernel.first_derivative,
            &kernel.last_derivative,
            &kernel.derivative,
            &kernel.previous_two,
            &kernel.previous_one,
            &kernel.next_stage,
            &kernel.eigenvector,
            &kernel.perturbed_state,
            &kernel.perturbed_derivative,
            &self.state,
            &self.candidate,
        ]
    }

    fn vectors_mut(&mut self) -> [&mut Vec<f64>; 11] {
        let kernel = &mut self.kernel;
        [
            &mut kernel.first_derivative,
            &mut kernel.last_derivative,
            &mut kernel.derivative,
            &mut kernel.previous_two,
            &mut kernel.previous_one,
            &mut kernel.next_stage,
            &mut kernel.eigenvector,
            &mut kernel.perturbed_state,
            &mut kernel.perturbed_derivative,
            &mut self.state,
            &mut self.candidate,
        ]
    }
}

impl Clone for Oracle {
    fn clone(&self) -> Self {
        let mut copy = Self {
            kernel: StabilizedKernel::new(self.kernel.family, self.state.len()),
            state: Vec::new(),
            candidate: Vec::new(),
            stats: self.stats,
        };
        for (to, from) in copy.vectors_mut().into_iter().zip(self.vectors()) {
            to.clear();
            to.extend_from_slice(from);
        }
        copy.kernel.previous_accepted_step = self.kernel.previous_accepted_step;
        copy.kernel.previous_accepted_state = self.kernel.previous_accepted_state.clone();
        copy
    }
}
