use crate::{Refusal, WrongEnvironment};
use std::fmt::{Display, Formatter, Result};

/// Why a [`crate::Stepper`] does not start: the thread's environment, or the engine's refusal.
#[derive(Clone, Copy, Debug, Eq, PartialEq)]
pub enum Error {
    Environment(WrongEnvironment),
    Refused(Refusal),
}

impl From<WrongEnvironment> for Error {
    fn from(environment: WrongEnvironment) -> Self {
        Self::Environment(environment)
    }
}

impl From<Refusal> for Error {
    fn from(refusal: Refusal) -> Self {
        Self::Refused(refusal)
    }
}

impl Display for Error {
    fn fmt(&self, formatter: &mut Formatter<'_>) -> Result {
        match self {
            Self::Environment(environment) => environment.fmt(formatter),
            Self::Refused(refusal) => refusal.fmt(formatter),
        }
    }
}

impl std::error::Error for Error {}
