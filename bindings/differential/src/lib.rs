//! The proved engine held against the Rust, by its test build: [`pair`] runs it on the scenarios of [`scenarios`] beside the
//! other side, which [`other`] has: the Rust, and where that does not count, the definition as [`stated`] has it.
//! [`random_calls`] holds the engine's refusals against [`refusals`], a statement of document 01's table. [`stage_counts`] holds
//! the test build's stage counts against the checkout's.
pub mod build;
pub mod history;
pub mod hot;
pub mod model;
pub mod other;
pub mod pair;
pub mod random;
pub mod random_calls;
pub mod refusals;
pub mod scenarios;
pub mod stage_counts;
pub mod stated;
pub mod trace;
