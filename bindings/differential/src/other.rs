//! What the engine is compared with: the Rust, or the definition as [`Stated`] has it, a call at a time on given replies.
//!
//! Document 02, CR 4: "A run against the Rust ends before its first attempt in which a Rust norm is infinite; from there the
//! definition alone counts." It ends likewise before an attempt in which the Rust's stage count of RKC overflows. [`cause`]
//! tells such an attempt by the Rust's own vectors.
use crate::random::{all_same, same};
use crate::stated::Stated;
use oracle::{Arguments, Figures, History, Iteration, Oracle, RightHandSide, SolveError};
use stabilized::calls::{VECTORS, vector};
use std::cell::{Cell, RefCell};
use std::fmt::Debug;

#[derive(Clone)]
pub enum Other {
    Rust(Oracle),
    Stated(Stated),
}

pub type Rhs<'a> = dyn Fn(&mut [f64], &[f64], f64) -> Result<(), SolveError> + 'a;

/// The replies to the evaluations of one call.
pub trait Replying {
    /// A right-hand side that gives them in turn, from the first on.
    fn in_turn(&self) -> impl RightHandSide;
}

/// What a call gives: of an attempt its figures.
pub type End = Result<Option<Figures>, SolveError>;

impl Other {
    pub fn name(&self) -> &'static str {
        match self {
            Self::Rust(_) => "the Rust",
            Self::Stated(_) => "the definition",
        }
    }

    pub fn vectors(&self) -> [&[f64]; VECTORS] {
        match self {
            Self::Rust(rust) => rust.vectors(),
            Self::Stated(stated) => stated.vectors(),
        }
    }

    pub fn history(&self) -> Option<History> {
        match self {
            Self::Rust(rust) => rust.history(),
            Self::Stated(stated) => stated.history(),
        }
    }

    /// Evaluations since it began.
    pub fn evaluations(&self) -> u64 {
        match self {
            Self::Rust(rust) => rust.evaluations(),
            Self::Stated(stated) => stated.evaluations(),
        }
    }

    pub fn initialize(&mut self, state: &[f64], time: f64, rhs: &Rhs) -> End {
        let ready = match self {
            Self::Rust(rust) => rust.initialize(state, time, rhs),
            Self::Stated(stated) => stated.initialize(state, time, rhs),
        };
        ready.map(|()| None)
    }

    /// The Rust's power iteration in the attempt that follows, by which its k and r are known. The definition needs none.
    pub fn iteration(
        &self,
        arguments: Arguments,
        replies: &impl Replying,
    ) -> Result<Iteration, SolveError> {
        match self {
            Self::Rust(rust) => rust.iteration(arguments, &replies.in_turn()),
            Self::Stated(_) => Err(SolveError::Stopped),
        }
    }

    /// An attempt, after that iteration on the same replies.
    pub fn attempt(
        &mut self,
        iteration: &Result<Iteration, SolveError>,
        arguments: Arguments,
        rhs: &Rhs,
    ) -> End {
        let figures = match self {
            Self::Rust(rust) => rust.figures(iteration, arguments, rhs),
            Self::Stated(stated) => stated.attempt(arguments, rhs),
        };
        figures.map(Some)
    }

    pub fn accept(&mut self, time: f64, step: f64) {
        match self {
            Self::Rust(rust) => rust.accept(time, step),
            Self::Stated(stated) => stated.accept(step),
        }
    }

    pub fn accept_with_callback(&mut self, state: &[f64], time: f64, step: f64, rhs: &Rhs) -> End {
        let ready = match self {
            Self::Rust(rust) => rust.accept_with_callback(state, time, step, rhs),
            Self::Stated(stated) => stated.accept_with_callback(state, time, rhs),
        };
        ready.map(|()| None)
    }
}

/// A call as it was made, whole or up to an evaluation whose derivative is not yet written: the kernel afterwards, what the
/// call gave, and where it evaluated.
pub struct Made<K, T> {
    pub kernel: K,
    pub end: Result<T, SolveError>,
    pub evaluated: Vec<(f64, Vec<f64>)>,
}

impl<K: Clone, T> Made<K, T> {
    /// On a copy of a kernel. At the evaluation `until` the right-hand side stops it.
    pub fn on(
        kernel: &K,
        replies: &impl Replying,
        until: Option<usize>,
        call: &impl Fn(&mut K, &Rhs) -> Result<T, SolveError>,
    ) -> Self {
        let mut kernel = kernel.clone();
        let (evaluated, reply) = (RefCell::new(Vec::new()), replies.in_turn());
        let end = call(&mut kernel, &|derivative, point, time| {
            let place = evaluated.borrow().len();
            evaluated.borrow_mut().push((time, point.to_vec()));
            if until == Some(place) {
                return Err(SolveError::Stopped);
            }
            reply(derivative, point, time)
        });
        let evaluated = evaluated.into_inner();
        Self {
            kernel,
            end,
            evaluated,
        }
    }
}

/// The kernel inside a call, at an evaluation whose derivative is not yet written.
pub fn stopped_at<K: Clone, T: Debug>(
    place: usize,
    kernel: &K,
    replies: &impl Replying,
    call: &impl Fn(&mut K, &Rhs) -> Result<T, SolveError>,
) -> K {
    let mut kernel = kernel.clone();
    let (left, reply) = (Cell::new(place), replies.in_turn());
    let end = call(&mut kernel, &|derivative, point, time| {
        if left.get() == 0 {
            return Err(SolveError::Stopped);
        }
        left.set(left.get() - 1);
        reply(derivative, point, time)
    });
    assert!(matches!(end, Err(SolveError::Stopped)), "{end:?}");
    kernel
}

fn same_end(a: &End, b: &End) -> bool {
    match (a, b) {
        (Ok(Some(a)), Ok(Some(b))) => {
            (a.stages, a.passes) == (b.stages, b.passes)
                && same(a.norm, b.norm)
                && same(a.scaled_radius, b.scaled_radius)
        }
        _ => a == b,
    }
}

/// Both absent, or the same step and state.
pub fn same_history([a, b]: &[Option<History>; 2]) -> bool {
    match (a, b) {
        (Some(a), Some(b)) => same(a.step, b.step) && all_same(&a.state, &b.state),
        _ => a.is_none() && b.is_none(),
    }
}

impl Made<Other, Option<Figures>> {
    /// Compares with the same call of another kernel: the evaluations, the end, every vector, and the history where the call
    /// came to its end: before that a callback has ended it on one side and not yet on the other.
    pub fn compare(&self, other: &Self) -> Result<(), String> {
        let evaluations = self.evaluated.iter().zip(&other.evaluated);
        let another = evaluations
            .enumerate()
            .find(|(_, (a, b))| !same(a.0, b.0) || !all_same(&a.1, &b.1));
        let (ours, theirs) = (self.kernel.name(), other.kernel.name());
        if let Some((place, (a, b))) = another {
            return Err(format!(
                "evaluation {place} of {ours} {a:?}, of {theirs} {b:?}"
            ));
        }
        if !same_end(&self.end, &other.end) || self.evaluated.len() != other.evaluated.len() {
            let ends = (&self.end, &other.end);
            return Err(format!("{ours} and {theirs} end with {ends:?}"));
        }
        let histories = [&self.kernel, &other.kernel].map(Other::history);
        if self.end.is_ok() && !same_history(&histories) {
            return Err(format!(
                "histories of {ours} and {theirs} at the end {histories:?}"
            ));
        }
        let vectors = self.kernel.vectors().into_iter();
        let mut vectors = vectors.zip(other.kernel.vectors()).enumerate();
        match vectors.find(|(_, (a, b))| !all_same(a, b)) {
            Some((number, (a, b))) => Err(format!(
                "vector {number} of {ours} at the end {a:?}, of {theirs} {b:?}"
            )),
            None => Ok(()),
        }
    }
}

/// Why the Rust does not count in an attempt: the first of its norms that is infinite there, or its stage count.
#[derive(Clone, Copy, Debug, PartialEq)]
pub enum Cause {
    Direction,
    State,
    Error,
    Count,
}

impl Cause {
    pub const ALL: [Self; 4] = [Self::Direction, Self::State, Self::Error, Self::Count];

    /// What a run that goes over there is counted as.
    pub const fn name(self) -> &'static str {
        match self {
            Self::Direction => "went over at an infinite norm of a direction",
            Self::State => "went over at an infinite norm of the state",
            Self::Error => "went over at an infinite norm of the error",
            Self::Count => "went over at an overflow of RKC's count",
        }
    }
}

/// Whether the Rust's norm of a vector is infinite: it is the root of the plain sum of squares.
fn infinite(values: &[f64]) -> bool {
    values.iter().map(|value| value * value).sum::<f64>() == f64::INFINITY
}

/// Why the Rust does not count in an attempt, made whole or up to an evaluation; nothing where it does.
pub fn cause(
    rust: &Oracle,
    family: u64,
    arguments: Arguments,
    replies: &impl Replying,
    until: Option<usize>,
) -> Option<Cause> {
    let iterate = |rust: &mut Oracle, rhs: &Rhs| rust.iterate(arguments, rhs);
    let attempt = |rust: &mut Oracle, rhs: &Rhs| rust.attempt(arguments, rhs);
    let iterated = Made::on(rust, replies, until, &iterate);
    let at = |place| stopped_at(place, rust, replies, &iterate);
    let hot = |rust: &Oracle| infinite(rust.vectors()[vector::EIGENVECTOR]);
    // the direction that was chosen: a kept eigenvector or first derivative whose norm is infinite is taken
    if hot(&at(0)) {
        return Some(Cause::Direction);
    }
    if infinite(rust.vectors()[vector::STATE]) {
        return Some(Cause::State);
    }
    if (1..iterated.evaluated.len()).any(|place| hot(&at(place))) || hot(&iterated.kernel) {
        return Some(Cause::Direction);
    }
    if iterated.end.is_ok_and(|r| oracle::overflows(family, r)) {
        return Some(Cause::Count);
    }
    // no stage is run, and so there is no error
    if iterated
        .end
        .is_ok_and(|r| rust.needs_too_many(r, arguments.step))
    {
        return None;
    }
    let made = Made::on(rust, replies, until, &attempt);
    (made.end == Ok(f64::INFINITY)).then_some(Cause::Error)
}
