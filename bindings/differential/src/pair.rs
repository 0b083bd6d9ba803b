//! The engine and the other side, side by side: each call goes to both, and time, point, answer, counts, norm, s, k, r, all
//! eleven vectors and TSRKC2's history are compared, bit for bit with NaN matching NaN.
//!
//! The other side is the Rust. k and s of the Rust are the evaluations of its power iteration and of the rest of its attempt;
//! r is |step| times what `spectral_radius` gives, multiplied there as driver.rs does. Before the first attempt in which the
//! Rust does not count ([`cause`]) a run goes over to the definition, and goes on against that to its end. Until then the
//! definition is held against the Rust at the end of every call that evaluates: it is shown to be right where the Rust counts.
//!
//! Both sides evaluate inside a call. To see the vectors at an evaluation, the call is made again from a copy up to there, where
//! the right-hand side stops it before a derivative is written. That is done at each evaluation of an attempt with up to 200
//! stages. Of a longer one it is done at every pass, at the candidate and at some stages (`looked_at`). At the other stages
//! [`check`] settles every vector but previous_one, and that is the point, which is compared; so all eleven are settled at
//! each evaluation.
use crate::model::Replies;
use crate::other::{Cause, End, Made, Other, Rhs, cause, same_history, stopped_at};
use crate::random::{Random, all_same, same};
use crate::refusals::{
    Arguments, Call, Given, Held, Kept, Outcome, Start, check, evaluate, finished, history_in,
    name, number, refused, same_answer, stands, without_values,
};
use crate::stated::{Stated, finite};
use crate::trace::Trace;
use oracle::{Figures, History, Oracle, SolveError, TSRKC2};
use stabilized::calls::{self, Answer, Counters, Record, Wholes, code, phase, vector, vectors_of};
use std::array;
use std::collections::BTreeMap;

/// The largest count of the families but RKMC2 and TSRKC2. Above it attempts are long: fewer are made, and less often all is
/// looked at.
pub const SHORT: usize = 200;

/// How a run of evaluations ended.
#[derive(Clone, Copy, Debug, PartialEq)]
pub enum Ending {
    Ready,
    Finished(Figures),
    BadDerivative,
    BadCandidate,
    TooManyStages,
    Abandoned,
    /// Left with an evaluation pending, for a start in the middle.
    Pending,
}

/// What is done at an evaluation instead of replying.
#[derive(Clone, Copy, Debug)]
pub enum Stop {
    Abandon,
    Leave,
}

pub type Compared = Result<Ending, String>;

pub struct Pair {
    pub record: Record,
    pub counters: Counters,
    /// Room for the largest of the families' areas. A call is lent as much of it as the family's is.
    pub room: Vec<f64>,
    /// The record's whole numbers at the latest evaluation.
    pub evaluated: Wholes,
    other: Other,
    /// Evaluations counted before this other side began.
    counted: u64,
    finished: u64,
    /// False while the other side's vectors began as zeros and the engine's did not: then only what an attempt reads is
    /// compared at an evaluation.
    strict: bool,
    /// Why the definition alone counts, once it does.
    pub went_over: Option<Cause>,
    /// q of the latest attempt; nothing without a history.
    pub quotient: Option<f64>,
    /// Of the latest finished answer, until an attempt is taken: what the record keeps.
    told: Option<Kept>,
    /// How many calls it was kept through, by name and the number that the call was turned away with, or 0.
    pub kept: BTreeMap<(&'static str, u64), u64>,
    /// For calls that are turned away, made between the others.
    random: Random,
    pub turned_away: u64,
    /// Where the calls are written down, if they are.
    trace: Option<Trace>,
}

fn arguments_of(arguments: oracle::Arguments) -> Arguments {
    Arguments {
        time: arguments.time,
        step: arguments.step,
        absolute_tolerance: arguments.absolute_tolerance,
        relative_tolerance: arguments.relative_tolerance,
        adaptive: u64::from(arguments.adaptive),
    }
}

/// How many vectors a pair has room for.
pub const ROOM: usize = vectors_of(TSRKC2);

/// How many doubles a call is lent of the room: the area of the family that it is about, by what start brings and by the record
/// of any other call.
fn area_length(call: &Call, record: &Record, n: usize) -> usize {
    let family = match call {
        Call::Start(start) => start.family,
        _ => record.wholes.family,
    };
    vectors_of(family) * n
}

impl Pair {
    /// Both sides before any start, with room as given.
    pub fn new(n: usize, room: Vec<f64>, strict: bool, seed: u64) -> Self {
        assert_eq!(room.len(), ROOM * n);
        Self {
            record: Record::default(),
            counters: Counters::default(),
            room,
            evaluated: Wholes::default(),
            other: Other::Rust(Oracle::new(1, n)),
            counted: 0,
            finished: 0,
            strict,
            went_over: None,
            quotient: None,
            told: None,
            kept: BTreeMap::new(),
            random: Random::new(seed),
            turned_away: 0,
            trace: None,
        }
    }

    /// From here on writes down every call. Only where the vectors of both sides began alike, so that all that is written
    /// is compared.
    pub fn write_down(&mut self, trace: &mut Option<Trace>) {
        if self.strict
            && let Some(mut trace) = trace.take()
        {
            assert_eq!(self.record, Record::default());
            trace.begin(self.n(), &self.counters, &self.room);
            self.trace = Some(trace);
        }
    }

    /// What was written, if it was.
    pub fn written(self) -> Option<Trace> {
        self.trace
    }

    pub fn n(&self) -> usize {
        self.room.len() / ROOM
    }

    pub fn vector(&self, number: usize) -> &[f64] {
        let n = self.n();
        &self.room[number * n..(number + 1) * n]
    }

    /// The engine's history.
    pub fn history(&self) -> Option<History> {
        history_in(&self.record, &self.room)
    }

    /// The definition with the engine's vectors and history.
    fn stated(&self, family: u64) -> Stated {
        let vectors = array::from_fn(|number| self.vector(number));
        Stated::with_vectors(family, vectors, self.history())
    }

    pub fn start(
        &mut self,
        family: u64,
        state: &[f64],
        time: f64,
        replies: &Replies,
        stop: Option<(usize, Stop)>,
    ) -> Compared {
        let n = self.n();
        self.counted = self.counters.evaluations;
        self.other = match self.other {
            Other::Stated(_) => Other::Stated(self.stated(family)),
            Other::Rust(_) if self.strict => {
                Other::Rust(Oracle::with_vectors(family, n, &self.room))
            }
            Other::Rust(_) => Other::Rust(Oracle::new(family, n)),
        };
        let call = Call::Start(Start {
            family,
            n: n as u64,
            state,
            time,
        });
        let outcome = self.engine(&call)?;
        self.follow(outcome, replies, stop, |other, rhs| {
            other.initialize(state, time, rhs)
        })
    }

    pub fn attempt(
        &mut self,
        arguments: oracle::Arguments,
        replies: &Replies,
        stop: Option<(usize, Stop)>,
    ) -> Compared {
        self.quotient = self.history().map(|kept| kept.step / arguments.step);
        self.go_over(arguments, replies, stop);
        let iteration = self.other.iteration(arguments, replies);
        let outcome = self.engine(&Call::Attempt(arguments_of(arguments)))?;
        self.follow(outcome, replies, stop, |other, rhs| {
            other.attempt(&iteration, arguments, rhs)
        })
    }

    pub fn accept(&mut self) -> Result<(), String> {
        let kept = self.record.doubles;
        let outcome = self.engine(&Call::Accept)?;
        self.other.accept(kept.time, kept.step);
        self.expect(&outcome.answer, &without_values(code::READY))?;
        self.compare(&self.other, true, "accept")
    }

    pub fn accept_with_callback(
        &mut self,
        state: &[f64],
        time: f64,
        replies: &Replies,
        stop: Option<(usize, Stop)>,
    ) -> Compared {
        let step = self.record.doubles.step;
        let outcome = self.engine(&Call::AcceptWithCallback { state, time })?;
        self.follow(outcome, replies, stop, |other, rhs| {
            other.accept_with_callback(state, time, step, rhs)
        })
    }

    /// How many evaluations an attempt makes by the definition.
    pub fn evaluations(&self, arguments: oracle::Arguments, replies: &Replies) -> usize {
        let stated = self.stated(self.record.wholes.family);
        let attempt = |stated: &mut Stated, rhs: &Rhs| stated.attempt(arguments, rhs);
        let made = Made::on(&stated, replies, None, &attempt);
        made.evaluated.len()
    }

    /// Goes over to the definition, if the Rust does not count in the attempt that follows. It begins with the engine's vectors,
    /// of which at least those that an attempt reads were compared with the Rust's.
    fn go_over(
        &mut self,
        arguments: oracle::Arguments,
        replies: &Replies,
        stop: Option<(usize, Stop)>,
    ) {
        let family = self.record.wholes.family;
        if let Other::Rust(rust) = &self.other
            && let Some(cause) = cause(rust, family, arguments, replies, place_of(stop))
        {
            self.other = Other::Stated(self.stated(family));
            self.counted = self.counters.evaluations;
            self.strict = true;
            self.went_over = Some(cause);
        }
    }

    /// One call of the engine; what document 01's table settles of it is checked.
    fn engine(&mut self, call: &Call) -> Result<Outcome, String> {
        let length = area_length(call, &self.record, self.n());
        self.lent(call, length)
    }

    /// One call that is lent so much of the room.
    fn lent(&mut self, call: &Call, length: usize) -> Result<Outcome, String> {
        let (n, before) = (self.n(), self.room.clone());
        let held = Held {
            record: self.record,
            counters: self.counters,
            area: &before[..length],
        };
        let area = &mut self.room[..length];
        let outcome = make(self.record, &mut self.counters, area, call);
        let given = Given {
            outcome,
            counters: self.counters,
            area,
        };
        check(&held, call, &given)?;
        // replay lends by the family
        if length == area_length(call, &self.record, n)
            && let Some(trace) = &mut self.trace
        {
            trace.call(&held, call, &given);
        }
        self.keeps(call, &held.record, &outcome)?;
        self.record = outcome.record;
        Ok(outcome)
    }

    /// s, k and r, after every call: a finished answer tells what the record holds, and the record keeps that until an attempt
    /// is taken, which sets k to 1 and r to 0. ([`check`] says how they move within an attempt.)
    fn keeps(&mut self, call: &Call, before: &Record, outcome: &Outcome) -> Result<(), String> {
        let (answer, held) = (&outcome.answer, Kept::in_record(&outcome.record));
        let mut expected = self.told;
        match (call, answer.code) {
            (Call::Attempt(_), code::EVALUATE) => {
                self.told = None;
                expected = Some(Kept {
                    stages: before.wholes.stages,
                    passes: 1,
                    scaled_radius: 0.0,
                });
            }
            (_, code::FINISHED) => {
                self.told = Some(Kept::in_answer(answer));
                expected = self.told;
            }
            _ if self.told.is_some() => {
                let through = (named(call, before), answer_number(answer));
                *self.kept.entry(through).or_default() += 1;
            }
            _ => {}
        }
        match expected {
            Some(expected) if !expected.is(&held) => {
                let call = named(call, before);
                Err(format!(
                    "after {call} the record holds {held:?}, expected {expected:?}"
                ))
            }
            _ => Ok(()),
        }
    }

    /// Drives the engine through all evaluations of one call of the other side.
    fn follow(
        &mut self,
        first: Outcome,
        replies: &Replies,
        stop: Option<(usize, Stop)>,
        call: impl Fn(&mut Other, &Rhs) -> End,
    ) -> Compared {
        let made = Made::on(&self.other, replies, place_of(stop), &call);
        self.hold_definition(&made, replies, stop, &call)?;
        let (mut outcome, mut passes) = (first, 0);
        let mut derivative = vec![0.0; self.n()];
        let mut at = self.other.clone();
        for (place, (time, point)) in made.evaluated.iter().enumerate() {
            let number = self.asks(&outcome.answer, *time, point, place)?;
            let stop = stop.filter(|(there, _)| *there == place);
            if stop.is_some() || looked_at(place, made.evaluated.len()) {
                at = stopped_at(place, &self.other, replies, &call);
                self.compare(&at, self.strict, &format!("evaluation {place}"))?;
            }
            passes += u64::from(self.evaluated.phase == phase::PASS);
            self.something_turned_away()?;
            if let Some((_, stop)) = stop {
                self.other = at;
                return self.stopped(stop);
            }
            let point = self.vector(number).to_vec();
            replies.evaluate(place, &mut derivative, &point, outcome.answer.time);
            outcome = self.engine(&Call::Reply {
                derivative: &derivative,
            })?;
        }
        let ending = self.ending(&outcome, &made, &derivative, passes)?;
        self.take_over(made.kernel, at, ending)?;
        Ok(ending)
    }

    /// The vector that the engine asks to evaluate, at the same time and point as the other side.
    fn asks(
        &mut self,
        answer: &Answer,
        time: f64,
        point: &[f64],
        place: usize,
    ) -> Result<usize, String> {
        self.evaluated = self.record.wholes;
        let number = asked(self.evaluated.phase);
        self.expect(answer, &evaluate(number, time))?;
        all_same(self.vector(number), point)
            .then_some(number)
            .ok_or_else(|| format!("another point at evaluation {place}"))
    }

    /// While the Rust counts: the same call by the definition, from the Rust's vectors, comes to the same.
    fn hold_definition(
        &self,
        made: &Made<Other, Option<Figures>>,
        replies: &Replies,
        stop: Option<(usize, Stop)>,
        call: &impl Fn(&mut Other, &Rhs) -> End,
    ) -> Result<(), String> {
        if let Other::Stated(_) = self.other {
            return Ok(());
        }
        let (family, history) = (self.record.wholes.family, self.other.history());
        let stated = Stated::with_vectors(family, self.other.vectors(), history);
        let stated = Other::Stated(stated);
        let stated = Made::on(&stated, replies, place_of(stop), call);
        stated.compare(made)
    }

    fn stopped(&mut self, stop: Stop) -> Compared {
        match stop {
            Stop::Leave => Ok(Ending::Pending),
            Stop::Abandon => {
                self.engine(&Call::Abandon)?;
                Ok(Ending::Abandoned)
            }
        }
    }

    /// Goes on with the other side as it is after the call; where number 9 turned a derivative away, as it was before that
    /// derivative was written.
    fn take_over(&mut self, after: Other, before: Other, ending: Ending) -> Result<(), String> {
        let counted = self.counted + after.evaluations();
        if self.counters.evaluations != counted {
            let (ours, theirs) = (self.counters.evaluations, after.name());
            return Err(format!("{ours} evaluations, by {theirs} {counted}"));
        }
        self.other = if ending == Ending::BadDerivative {
            before
        } else {
            after
        };
        self.counted = counted - self.other.evaluations();
        self.strict |= matches!(ending, Ending::Finished(_));
        self.compare(&self.other, self.strict, "the end")
    }

    fn ending(
        &mut self,
        outcome: &Outcome,
        made: &Made<Other, Option<Figures>>,
        last: &[f64],
        passes: u64,
    ) -> Compared {
        let answer = &outcome.answer;
        match made.end {
            Ok(None) => {
                self.expect(answer, &without_values(code::READY))?;
                Ok(Ending::Ready)
            }
            Ok(Some(figures)) => self.finished(answer, figures, passes),
            Err(SolveError::NonFiniteDerivative) if finite(last) => {
                self.expect(answer, &refused(10))?;
                Ok(Ending::BadCandidate)
            }
            Err(SolveError::NonFiniteDerivative) => {
                self.expect(answer, &refused(9))?;
                Ok(Ending::BadDerivative)
            }
            Err(SolveError::TooManyStages) => {
                self.expect(answer, &refused(11))?;
                Ok(Ending::TooManyStages)
            }
            Err(error) => Err(format!("{} ended with {error:?}", made.kernel.name())),
        }
    }

    /// A finished answer beside what the other side's attempt comes to, and beside the passes that the engine asked for.
    fn finished(&mut self, answer: &Answer, figures: Figures, passes: u64) -> Compared {
        self.expect(answer, &finished(figures.norm, &kept_of(&figures)))?;
        if passes != figures.passes {
            return Err(format!(
                "asked for {passes} passes, finished with {figures}"
            ));
        }
        self.finished += 1;
        if self.counters.finished_attempts != self.finished {
            return Err("another count of finished attempts".to_string());
        }
        Ok(Ending::Finished(figures))
    }

    fn expect(&self, answer: &Answer, expected: &Answer) -> Result<(), String> {
        let theirs = self.other.name();
        same_answer(answer, expected)
            .then_some(())
            .ok_or_else(|| format!("answered {answer:?}, by {theirs} {expected:?}"))
    }

    /// The engine's history against the other side's, but where the engine has marked it absent, or it no longer matters: at a
    /// callback's evaluation and in the empty phase.
    fn compare_history(&self, other: &Other, place: &str) -> Result<(), String> {
        let both = [self.history(), other.history()];
        let apart = [phase::CALLBACK, phase::EMPTY].contains(&self.record.wholes.phase);
        if apart || same_history(&both) {
            return Ok(());
        }
        let [ours, theirs] = both;
        let by = other.name();
        Err(format!("history at {place}: {ours:?}, by {by} {theirs:?}"))
    }

    /// The engine's vectors against the other side's: all of them, or those that an attempt reads; and the history.
    fn compare(&self, other: &Other, all: bool, place: &str) -> Result<(), String> {
        self.compare_history(other, place)?;
        const READ: [usize; 3] = [vector::EIGENVECTOR, vector::STATE, vector::FIRST_DERIVATIVE];
        let begun = ![phase::FIRST, phase::EMPTY].contains(&self.record.wholes.phase);
        let read = if begun { &READ[..] } else { &READ[..2] };
        for (number, theirs) in other.vectors().into_iter().enumerate() {
            if !all && !read.contains(&number) {
                continue;
            }
            let entries = self.vector(number).iter().zip(theirs).enumerate();
            if let Some((i, (ours, theirs))) =
                entries.into_iter().find(|(_, (a, b))| !same(**a, **b))
            {
                let by = other.name();
                return Err(format!(
                    "entry {i} of vector {number} at {place}: {ours:?}, by {by} {theirs:?}"
                ));
            }
        }
        Ok(())
    }

    /// Now and then one of the calls of [`bad_calls`], where it is turned away and changes nothing.
    pub fn something_turned_away(&mut self) -> Result<(), String> {
        if !self.random.chance(3) {
            return Ok(());
        }
        let which = self.random.below(BAD_CALLS);
        self.turn_away(which)
    }

    /// All calls of [`bad_calls`] that are turned away here.
    pub fn all_turned_away(&mut self) -> Result<(), String> {
        (0..BAD_CALLS).try_for_each(|which| self.turn_away(which))
    }

    /// One of the calls of [`bad_calls`], if it is turned away in this phase.
    fn turn_away(&mut self, which: usize) -> Result<(), String> {
        let n = self.n();
        let (one_too_long, infinite) = (vec![0.0; n + 1], vec![f64::INFINITY; n]);
        let call = bad_calls(&one_too_long, &infinite)[which];
        // the last ones are handed an area of the other size
        let other_size = (ROOM + calls::VECTORS) * n - area_length(&call, &self.record, n);
        let length = match which {
            ..OTHER_SIZE => area_length(&call, &self.record, n),
            _ => other_size,
        };
        let held = Held {
            record: self.record,
            counters: self.counters,
            area: &self.room[..length],
        };
        if number(&held, &call).is_some_and(stands) {
            self.turned_away += 1;
            self.lent(&call, length)?;
        }
        Ok(())
    }
}

const BAD_CALLS: usize = 18;

/// From here on what is bad of a call is that its area is as long as that of TSRKC2, or of another family in TSRKC2.
const OTHER_SIZE: usize = 15;

/// Calls that are turned away in every phase or in some: each brings something bad, is handed an area of the other size, or
/// comes out of turn. Together they are turned away with 1 to 7; with 8, for full counters, the random calls alone are.
fn bad_calls<'a>(one_too_long: &'a [f64], infinite: &'a [f64]) -> [Call<'a>; BAD_CALLS] {
    let n = infinite.len();
    let good = Start {
        family: 1,
        n: n as u64,
        state: &one_too_long[..n],
        time: 0.0,
    };
    // with tolerances of 0
    let attempt = |step| {
        Call::Attempt(Arguments {
            step,
            ..Arguments::default()
        })
    };
    let of_family = |family| Call::Start(Start { family, ..good });
    let start = |state| Call::Start(Start { state, ..good });
    let reply = |derivative| Call::Reply { derivative };
    let callback = |state, time| Call::AcceptWithCallback { state, time };
    let time = f64::NAN;
    [
        of_family(8),
        Call::Start(Start { n: 513, ..good }),
        start(one_too_long),
        Call::Start(Start { time, ..good }),
        start(infinite),
        attempt(0.0),
        attempt(1.0),
        reply(one_too_long),
        reply(good.state),
        callback(one_too_long, 0.0),
        callback(infinite, 0.0),
        callback(good.state, time),
        callback(good.state, 0.0),
        Call::Accept,
        Call::Abandon,
        of_family(1),
        of_family(TSRKC2),
        Call::Abandon,
    ]
}

/// The place of a stop, if there is one.
fn place_of(stop: Option<(usize, Stop)>) -> Option<usize> {
    stop.map(|(place, _)| place)
}

/// The most passes.
const PASSES: usize = 12;

/// How many evaluations of a long attempt are looked at from its beginning: the passes and some stages.
const FIRST: usize = PASSES + 8;
/// From its end: some stages and the candidate.
const LAST: usize = 4;
/// And between them one in so many.
const EVERY: usize = 16;

/// Whether a call is made again up to an evaluation, to see all vectors there: at each of a short attempt, of a long one at
/// some, since all would take the square of their number.
fn looked_at(place: usize, evaluations: usize) -> bool {
    evaluations <= SHORT + PASSES
        || place < FIRST
        || place + LAST >= evaluations
        || place.is_multiple_of(EVERY)
}

/// The vector that is evaluated in a phase.
fn asked(at: u64) -> usize {
    match at {
        phase::PASS => vector::PERTURBED_STATE,
        phase::STAGE => vector::PREVIOUS_ONE,
        phase::CANDIDATE => vector::CANDIDATE,
        _ => vector::STATE,
    }
}

/// A call's name; of a reply outside an attempt with what it replies to.
fn named(call: &Call, before: &Record) -> &'static str {
    match (call, before.wholes.phase) {
        (Call::Reply { .. }, phase::FIRST) => "reply to start",
        (Call::Reply { .. }, phase::CALLBACK) => "reply to callback",
        _ => name(call),
    }
}

/// The number that a call was turned away with, or 0.
pub fn answer_number(answer: &Answer) -> u64 {
    match answer.code {
        code::REFUSED => answer.number,
        _ => 0,
    }
}

fn kept_of(figures: &Figures) -> Kept {
    Kept {
        stages: figures.stages,
        passes: figures.passes,
        scaled_radius: figures.scaled_radius,
    }
}

/// One call of the engine, lent a copy of the record.
pub fn make(record: Record, counters: &mut Counters, area: &mut [f64], call: &Call) -> Outcome {
    let mut record = record;
    let lent = &mut record;
    let answer = match *call {
        Call::Start(s) => calls::start(lent, area, s.family, s.n, s.state, s.time),
        Call::Attempt(a) => calls::attempt(
            lent,
            area,
            a.time,
            a.step,
            a.absolute_tolerance,
            a.relative_tolerance,
            a.adaptive,
        ),
        Call::Reply { derivative } => calls::reply(lent, counters, area, derivative),
        Call::Accept => calls::accept(lent, area),
        Call::AcceptWithCallback { state, time } => {
            calls::accept_with_callback(lent, area, state, time)
        }
        Call::Abandon => calls::abandon(lent, area),
    };
    Outcome { answer, record }
}
