//! Stabilized Runge-Kutta steps for stiff problems with a real spectrum, such as heat flow, by an engine whose every call
//! is proved against its definition.
//!
//! [`Stepper`] drives the engine with a right-hand side given as a closure. It takes single steps: whether a step is
//! accepted, and how long the next one is, its user decides. [`calls`] holds the six calls themselves.
//!
//! The results are those of IEEE 754's default floating-point environment; [`check_environment`] tells whether it is the
//! thread's, and a [`Stepper`] asks when it starts.
//!
//! ```
//! use stabilized::{Attempt, Family, Stepper};
//!
//! // A rod of eight cells, cooled at both ends.
//! let rod = |derivative: &mut [f64], state: &[f64], _time: f64| {
//!     for i in 0..8 {
//!         let left = if i == 0 { 0.0 } else { state[i - 1] };
//!         let right = if i == 7 { 0.0 } else { state[i + 1] };
//!         derivative[i] = 1000.0 * (left - 2.0 * state[i] + right);
//!     }
//! };
//! let mut stepper = Stepper::start(Family::Rkl2, &[20.0; 8], 0.0, rod)?;
//! let figures = stepper.attempt(Attempt::new(0.0, 0.01))?;
//! if figures.norm <= 1.0 {
//!     stepper.accept()?;
//! }
//! // The first derivative, and then the attempt's passes and stages.
//! assert_eq!(stepper.counters().evaluations, 1 + figures.passes + figures.stages);
//! # Ok::<(), stabilized::Error>(())
//! ```
pub mod calls;
mod environment;
mod error;
mod refusal;
mod stepper;

pub use calls::Counters;
pub use environment::{WrongEnvironment, check_environment};
pub use error::Error;
pub use refusal::Refusal;
pub use stepper::{Attempt, Family, Figures, Stepper};
