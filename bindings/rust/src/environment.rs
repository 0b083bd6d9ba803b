//! The floating-point environment that the engine is proved for, IEEE 754's default one: to nearest, ties to even, subnormals
//! kept, exceptions masked.
//!
//! It belongs to a thread. Rust leaves it alone, but C code of the same process can change it, and a C program that is linked
//! with `-ffast-math` starts in another. Bits of results differ then (docs/DIFFERENCES.md).
use std::error::Error;
use std::fmt::{Display, Formatter};
use std::ptr;

/// What is wrong with this thread's floating-point environment.
#[derive(Clone, Copy, Debug, Eq, PartialEq)]
pub enum WrongEnvironment {
    /// Sums are not rounded to nearest, ties to even.
    Rounding,
    /// Subnormals are flushed to zero or taken as zero.
    Subnormals,
    RoundingAndSubnormals,
}

impl Display for WrongEnvironment {
    fn fmt(&self, formatter: &mut Formatter<'_>) -> std::fmt::Result {
        formatter.write_str(match self {
            Self::Rounding => "this thread does not round to nearest, ties to even",
            Self::Subnormals => "this thread loses subnormals",
            Self::RoundingAndSubnormals => {
                "this thread does not round to nearest, ties to even, and loses subnormals"
            }
        })
    }
}

impl Error for WrongEnvironment {}

/// A double that the compiler does not know: what is worked out from it is worked out when the thread comes here.
fn unknown(x: f64) -> f64 {
    // SAFETY: the pointer is that of a live local.
    unsafe { ptr::read_volatile(&x) }
}

/// Whether this thread's floating-point environment is the one that the engine is proved for, as far as a few operations
/// tell. Exceptions that are not masked cannot be found in this way: the check itself would trap.
pub fn check_environment() -> Result<(), WrongEnvironment> {
    let half = unknown(f64::EPSILON / 2.0);
    // Two sums halfway between doubles. The even one is below the first and above the second: upward rounding misses it at
    // the first, downward and toward zero at the second.
    let below = unknown(unknown(1.0) + half);
    let above = unknown(unknown(1.0 + f64::EPSILON) + half);
    // To a subnormal and back: lost if it is flushed when worked out, or taken as zero when used.
    let subnormal = unknown(unknown(f64::MIN_POSITIVE) / 2.0);
    let back = unknown(subnormal * 2.0);
    let nearest = below == 1.0 && above == 1.0 + 2.0 * f64::EPSILON;
    match (nearest, back == f64::MIN_POSITIVE) {
        (true, true) => Ok(()),
        (false, true) => Err(WrongEnvironment::Rounding),
        (true, false) => Err(WrongEnvironment::Subnormals),
        (false, false) => Err(WrongEnvironment::RoundingAndSubnormals),
    }
}
