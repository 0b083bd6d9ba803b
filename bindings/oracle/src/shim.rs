//! Stand-ins for what the five files lean on, no more than they use.
#![allow(clippy::too_many_arguments)]

/// A right-hand side, as the Rust calls it.
pub trait OdeFunction<P> {
    fn evaluate(
        &self,
        derivative: &mut [f64],
        state: &[f64],
        parameters: &P,
        time: f64,
    ) -> Result<(), SolveError>;
}

pub struct OdeProblem<F, P> {
    pub(crate) rhs: F,
    pub(crate) parameters: P,
}

impl<F, P> OdeProblem<F, P> {
    pub(crate) fn parameters(&self) -> &P {
        &self.parameters
    }
}

/// The errors that the five files name, and two of ours: the right-hand side asks to stop, and TSRKC2 would need more than 1000
/// stages, which the Rust does not limit.
#[derive(Clone, Copy, Debug, Eq, PartialEq)]
pub enum SolveError {
    NonFiniteDerivative,
    InvalidTableau,
    InvalidMultistepHistory,
    Stopped,
    TooManyStages,
}

#[derive(Clone, Copy, Debug, Default, Eq, PartialEq)]
pub struct SolverStats {
    pub rhs_evaluations: usize,
}

#[derive(Clone, Debug, PartialEq)]
pub struct SolveOptions {
    pub(crate) absolute_tolerance: f64,
    pub(crate) relative_tolerance: f64,
    pub(crate) adaptive: bool,
}

pub mod integrator {
    use super::{OdeFunction, OdeProblem, SolveError, SolveOptions, SolverStats};

    pub(crate) struct KernelCapabilities;

    impl KernelCapabilities {
        pub(crate) const fn new(_: bool, _: usize) -> Self {
            Self
        }
    }

    pub(crate) struct StepEstimate {
        pub(crate) error_norm: f64,
    }

    impl StepEstimate {
        pub(crate) const fn new(error_norm: f64) -> Self {
            Self { error_norm }
        }
    }

    #[allow(dead_code)]
    pub(crate) trait StepKernel<F, P>
    where
        F: OdeFunction<P>,
    {
        fn capabilities(&self) -> KernelCapabilities;

        fn initialize(
            &mut self,
            problem: &OdeProblem<F, P>,
            state: &[f64],
            time: f64,
            stats: &mut SolverStats,
        ) -> Result<(), SolveError>;

        fn estimate_initial_step(
            &mut self,
            problem: &OdeProblem<F, P>,
            state: &[f64],
            time: f64,
            direction: f64,
            maximum_step: f64,
            candidate: &mut [f64],
            options: &SolveOptions,
            stats: &mut SolverStats,
        ) -> Result<f64, SolveError>;

        fn attempt_step(
            &mut self,
            problem: &OdeProblem<F, P>,
            state: &[f64],
            time: f64,
            step: f64,
            candidate: &mut [f64],
            options: &SolveOptions,
            stats: &mut SolverStats,
        ) -> Result<StepEstimate, SolveError>;

        fn accept_step(
            &mut self,
            problem: &OdeProblem<F, P>,
            previous_state: &[f64],
            state: &[f64],
            time: f64,
            accepted_step: f64,
            callback_applied: bool,
            stats: &mut SolverStats,
        ) -> Result<(), SolveError>;

        fn reject_step(&mut self);
    }
}

/// The families that are carried, by their numbers: each copy of family.rs has a type of its own for them.
macro_rules! carried_families {
    () => {
        fn family_of(number: u64) -> StabilizedFamily {
            match number {
                1 => StabilizedFamily::Rkc,
                2 => StabilizedFamily::Rkl1,
                3 => StabilizedFamily::Rkl2,
                4 => StabilizedFamily::Rkg1,
                5 => StabilizedFamily::Rkg2,
                6 => StabilizedFamily::Rkmc2,
                7 => StabilizedFamily::Tsrkc2,
                _ => panic!("no family {number}"),
            }
        }

        /// The stage count that this build gives for a scaled radius, of a family that has it by that alone.
        pub fn stages(family: u64, scaled_radius: f64) -> usize {
            family_of(family)
                .stages(scaled_radius)
                .expect("a count by the radius alone")
        }
    };
}
pub(crate) use carried_families;

/// The families that are not carried: driver.rs names their methods, which are never reached.
macro_rules! other_families {
    ($($method:ident),*) => {
        impl workspace::StabilizedKernel {
            $(
                #[allow(clippy::too_many_arguments)]
                fn $method<F, P>(
                    &mut self,
                    _: &crate::OdeProblem<F, P>,
                    _: &[f64],
                    _: f64,
                    _: f64,
                    _: f64,
                    _: &mut [f64],
                    _: &mut crate::SolverStats,
                ) -> Result<(), crate::SolveError>
                where
                    F: crate::OdeFunction<P>,
                {
                    Err(crate::SolveError::InvalidTableau)
                }
            )*
        }
    };
}
pub(crate) use other_families;
