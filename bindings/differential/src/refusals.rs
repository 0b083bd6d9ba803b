//! Document 01, "When a call is turned away", stated anew, with what each call leaves; families 1 to 7 by document 02, CR 1 and
//! CR 6, by CR 2 what a finished answer carries and the record keeps, by CR 4 the norms, which [`crate::stated`] has, and by
//! CR 6 the history and number 11. It is stated from the documents alone, but for the stage count of RKC and RKL, which is the
//! Rust's, RKMC2's, which is by the stored thresholds, and TSRKC2's formula.
//!
//! [`number`] gives the number of the first test from 1 to 9 that a call fails. [`check`] compares what an engine answered
//! and left with what the documents settle, numbers 10 and 11 included: whether a candidate is finite is seen in the area, and
//! how many stages would be needed in what the reply makes of the record.
use crate::random::{all_same, same};
use crate::stated::{
    Combination, Stated, count_for, finite, last_pass, mixed_in, quotient, scaled,
};
use oracle::{History, RKMC2, TSRKC2};
use stabilized::calls::{Answer, Counters, Doubles, Record, code, phase, vector};
use std::array;

/// What start brings.
#[derive(Clone, Copy, Debug)]
pub struct Start<'a> {
    pub family: u64,
    pub n: u64,
    pub state: &'a [f64],
    pub time: f64,
}

/// What an attempt brings. `adaptive` is a no at 0, else a yes.
#[derive(Clone, Copy, Debug, Default)]
pub struct Arguments {
    pub time: f64,
    pub step: f64,
    pub absolute_tolerance: f64,
    pub relative_tolerance: f64,
    pub adaptive: u64,
}

/// A call with what it brings.
#[derive(Clone, Copy, Debug)]
pub enum Call<'a> {
    Start(Start<'a>),
    Attempt(Arguments),
    Reply { derivative: &'a [f64] },
    Accept,
    AcceptWithCallback { state: &'a [f64], time: f64 },
    Abandon,
}

/// What a call is handed beside what it brings.
#[derive(Clone, Copy, Debug)]
pub struct Held<'a> {
    pub record: Record,
    pub counters: Counters,
    pub area: &'a [f64],
}

/// A call's name.
pub fn name(call: &Call) -> &'static str {
    match call {
        Call::Start(_) => "start",
        Call::Attempt(_) => "attempt",
        Call::Reply { .. } => "reply",
        Call::Accept => "accept",
        Call::AcceptWithCallback { .. } => "accept with callback",
        Call::Abandon => "abandon",
    }
}

/// The numbers that a call can answer. "Every call has 1 to 4 (start: no phase); start and accept with a callback 5 and time
/// in 6; attempt 6 and 7; every reply 8 and 9; the reply that ends stage s also 10." The one that ends the power iteration 11.
pub fn numbers(call: &Call) -> &'static [u64] {
    match call {
        Call::Start(_) => &[1, 2, 3, 5, 6],
        Call::Attempt(_) => &[1, 2, 3, 4, 6, 7],
        Call::Reply { .. } => &[1, 2, 3, 4, 8, 9, 10, 11],
        Call::Accept | Call::Abandon => &[1, 2, 3, 4],
        Call::AcceptWithCallback { .. } => &[1, 2, 3, 4, 5, 6],
    }
}

/// Everything is left as it was; after any other number the reply is counted and the phase is empty.
pub fn stands(number: u64) -> bool {
    [1, 2, 3, 4, 5, 6, 7, 8].contains(&number)
}

/// The vectors of every family.
const VECTORS: usize = 11;
const LIMIT: u64 = u64::MAX;

/// In family 7 "its area is 12 × n", in the others 11 × n.
fn vectors_of(family: u64) -> u64 {
    if family == TSRKC2 { 12 } else { 11 }
}

pub fn permitted(family: u64, stages: u64) -> bool {
    match family {
        1 | 4 => (2..=200).contains(&stages),
        2 | 3 => (3..=199).contains(&stages) && stages % 2 == 1,
        5 => (3..=200).contains(&stages),
        6 => (3..=1000).contains(&stages),
        7 => (2..=1000).contains(&stages),
        _ => false,
    }
}

/// A pass that the power iteration has.
pub fn good_pass(pass: u64) -> bool {
    (1..=12).contains(&pass)
}

/// The phase waits for a derivative, and what it uses is in range: at the candidate also the pass, which the finished answer
/// tells as k.
fn pending(record: &Record) -> bool {
    let at = &record.wholes;
    match at.phase {
        phase::FIRST | phase::CALLBACK => true,
        phase::PASS => good_pass(at.pass),
        phase::STAGE => permitted(at.family, at.stages) && (2..=at.stages).contains(&at.stage),
        phase::CANDIDATE => good_pass(at.pass) && permitted(at.family, at.stages),
        _ => false,
    }
}

fn allowed(record: &Record, call: &Call) -> bool {
    match call {
        Call::Start(_) => true,
        Call::Attempt(_) => [phase::READY, phase::FINISHED].contains(&record.wholes.phase),
        Call::Reply { .. } | Call::Abandon => pending(record),
        Call::Accept | Call::AcceptWithCallback { .. } => record.wholes.phase == phase::FINISHED,
    }
}

/// Tests 1 to 3, on what start brings and on what the record of any other call holds.
fn shape(held: &Held, call: &Call) -> Option<u64> {
    let kept = held.record.wholes;
    let (family, n, brought) = match *call {
        Call::Start(start) => (start.family, start.n, Some(start.state)),
        Call::Reply { derivative } => (kept.family, kept.n, Some(derivative)),
        Call::AcceptWithCallback { state, .. } => (kept.family, kept.n, Some(state)),
        _ => (kept.family, kept.n, None),
    };
    if !(1..=7).contains(&family) {
        return Some(1);
    }
    if n == 0 || n > 512 {
        return Some(2);
    }
    let fits = held.area.len() as u64 == vectors_of(family) * n;
    (!fits || brought.is_some_and(|values| values.len() as u64 != n)).then_some(3)
}

/// Tests 5 to 9.
fn contents(held: &Held, call: &Call) -> Option<u64> {
    let counters = held.counters;
    match *call {
        Call::Start(Start { state, .. }) | Call::AcceptWithCallback { state, .. }
            if !finite(state) =>
        {
            Some(5)
        }
        Call::Start(Start { time, .. }) | Call::AcceptWithCallback { time, .. }
            if !time.is_finite() =>
        {
            Some(6)
        }
        Call::Attempt(a) if !a.time.is_finite() || a.step == 0.0 || !a.step.is_finite() => Some(6),
        Call::Attempt(a)
            if ![a.absolute_tolerance, a.relative_tolerance]
                .iter()
                .all(|t| t.is_finite() && *t > 0.0) =>
        {
            Some(7)
        }
        Call::Reply { .. } if counters.evaluations == LIMIT => Some(8),
        Call::Reply { .. }
            if held.record.wholes.phase == phase::CANDIDATE
                && counters.finished_attempts == LIMIT =>
        {
            Some(8)
        }
        Call::Reply { derivative } if !finite(derivative) => Some(9),
        _ => None,
    }
}

/// The number of the first test from 1 to 9 that the call fails.
pub fn number(held: &Held, call: &Call) -> Option<u64> {
    shape(held, call)
        .or_else(|| (!allowed(&held.record, call)).then_some(4))
        .or_else(|| contents(held, call))
}

/// s, k and r, as a finished answer tells them and the record keeps them.
#[derive(Clone, Copy, Debug)]
pub struct Kept {
    pub stages: u64,
    pub passes: u64,
    pub scaled_radius: f64,
}

impl Kept {
    pub fn in_record(record: &Record) -> Self {
        Self {
            stages: record.wholes.stages,
            passes: record.wholes.pass,
            scaled_radius: record.doubles.scaled_radius,
        }
    }

    pub fn in_answer(answer: &Answer) -> Self {
        Self {
            stages: answer.stages,
            passes: answer.passes,
            scaled_radius: answer.scaled_radius,
        }
    }

    /// NaN matching NaN.
    pub fn is(&self, other: &Self) -> bool {
        (self.stages, self.passes) == (other.stages, other.passes)
            && same(self.scaled_radius, other.scaled_radius)
    }
}

/// An answer, and the record as it was left.
#[derive(Clone, Copy, Debug)]
pub struct Outcome {
    pub answer: Answer,
    pub record: Record,
}

/// What an engine gave back and left.
#[derive(Clone, Copy, Debug)]
pub struct Given<'a> {
    pub outcome: Outcome,
    pub counters: Counters,
    pub area: &'a [f64],
}

/// How many doubles a record has.
const DOUBLES: usize = 21;

const _: () = assert!(size_of::<Doubles>() == DOUBLES * size_of::<f64>());

/// Every field.
fn listed(doubles: &Doubles) -> [f64; DOUBLES] {
    [
        doubles.time,
        doubles.step,
        doubles.absolute_tolerance,
        doubles.relative_tolerance,
        doubles.perturbation,
        doubles.previous_radius,
        doubles.scaled_radius,
        doubles.theta_previous,
        doubles.theta_previous_two,
        doubles.omega_zero,
        doubles.omega_one,
        doubles.b_previous,
        doubles.b_previous_two,
        doubles.value_previous,
        doubles.value_previous_two,
        doubles.first_previous,
        doubles.first_previous_two,
        doubles.second_previous,
        doubles.second_previous_two,
        doubles.gain,
        doubles.previous_accepted_step,
    ]
}

/// The same whole numbers, and the same doubles with NaN matching NaN.
pub fn same_record(a: &Record, b: &Record) -> bool {
    a.wholes == b.wholes && all_same(&listed(&a.doubles), &listed(&b.doubles))
}

pub fn same_answer(a: &Answer, b: &Answer) -> bool {
    (a.code, a.number) == (b.code, b.number)
        && same(a.time, b.time)
        && same(a.norm, b.norm)
        && Kept::in_answer(a).is(&Kept::in_answer(b))
}

pub fn refused(number: u64) -> Answer {
    Answer {
        number,
        ..without_values(code::REFUSED)
    }
}

pub fn evaluate(vector: usize, time: f64) -> Answer {
    Answer {
        number: vector as u64,
        time,
        ..without_values(code::EVALUATE)
    }
}

pub fn finished(norm: f64, kept: &Kept) -> Answer {
    Answer {
        norm,
        stages: kept.stages,
        passes: kept.passes,
        scaled_radius: kept.scaled_radius,
        ..without_values(code::FINISHED)
    }
}

/// An answer that carries nothing, as ready and empty: what an answer does not carry is 0.
pub fn without_values(code: u64) -> Answer {
    Answer {
        code,
        number: 0,
        time: 0.0,
        norm: 0.0,
        stages: 0,
        passes: 0,
        scaled_radius: 0.0,
    }
}

/// What the document settles of a call: the answer, the record, the counters, and the area but for the stage that a reply
/// makes.
struct Settled {
    answer: Option<Answer>,
    record: Record,
    counters: Counters,
    area: Vec<f64>,
    /// Vectors whose new contents are left to the differential run.
    open: &'static [usize],
}

fn with_phase(record: Record, phase: u64) -> Record {
    let mut after = record;
    after.wholes.phase = phase;
    after
}

fn at_time(record: Record, phase: u64, time: f64) -> Record {
    let mut after = with_phase(record, phase);
    after.doubles.time = time;
    after
}

/// With the history marked absent; the step stands.
fn without_history(record: Record) -> Record {
    let mut after = record;
    after.wholes.history = 0;
    after
}

/// At a pass of the power iteration: r is known once the passes end, and 0 before.
fn at_pass(record: Record, pass: u64, perturbation: f64, previous_radius: f64) -> Record {
    let mut after = record;
    after.wholes.pass = pass;
    after.doubles.perturbation = perturbation;
    after.doubles.previous_radius = previous_radius;
    after.doubles.scaled_radius = 0.0;
    after
}

/// With the position among the stages of another record, and what they carry on.
fn with_stages(record: Record, other: &Record) -> Record {
    let (wholes, doubles) = (record.wholes, record.doubles);
    let mut after = *other;
    after.wholes.family = wholes.family;
    after.wholes.n = wholes.n;
    after.wholes.phase = wholes.phase;
    after.wholes.adaptive = wholes.adaptive;
    after.wholes.pass = wholes.pass;
    after.wholes.history = wholes.history;
    after.doubles.previous_accepted_step = doubles.previous_accepted_step;
    after.doubles.time = doubles.time;
    after.doubles.step = doubles.step;
    after.doubles.absolute_tolerance = doubles.absolute_tolerance;
    after.doubles.relative_tolerance = doubles.relative_tolerance;
    after.doubles.perturbation = doubles.perturbation;
    after.doubles.previous_radius = doubles.previous_radius;
    after.doubles.scaled_radius = doubles.scaled_radius;
    after
}

/// What a record and an area hold of a history; none in a family that keeps none.
pub fn history_in(record: &Record, area: &[f64]) -> Option<History> {
    let (wholes, n) = (record.wholes, record.wholes.n as usize);
    let kept = wholes.family == TSRKC2 && wholes.history != 0;
    kept.then(|| History {
        step: record.doubles.previous_accepted_step,
        state: area[vector::OLDER_STATE * n..(vector::OLDER_STATE + 1) * n].to_vec(),
    })
}

impl Settled {
    /// Everything as it was.
    fn standing(held: &Held) -> Self {
        Self {
            answer: None,
            record: held.record,
            counters: held.counters,
            area: held.area.to_vec(),
            open: &[],
        }
    }

    fn vector(&self, vector: usize, n: usize) -> &[f64] {
        &self.area[vector * n..(vector + 1) * n]
    }

    fn put(&mut self, vector: usize, values: &[f64]) {
        let n = values.len();
        self.area[vector * n..(vector + 1) * n].copy_from_slice(values);
    }

    fn copy(&mut self, from: usize, to: usize, n: usize) {
        self.area.copy_within(from * n..(from + 1) * n, to * n);
    }

    /// The area as part of an attempt leaves it, and what that part gives. The older state stands in every part.
    fn by_definition<T>(&mut self, record: &Record, part: impl Fn(&mut Stated) -> T) -> T {
        let n = record.wholes.n as usize;
        let vectors = array::from_fn(|vector| self.vector(vector, n));
        let history = history_in(record, &self.area);
        let mut stated = Stated::with_vectors(record.wholes.family, vectors, history);
        let given = part(&mut stated);
        self.area[..VECTORS * n].copy_from_slice(&stated.vectors().concat());
        given
    }
}

/// A call that tests 1 to 9 do not turn away.
fn settled(held: &Held, call: &Call, given: &Given) -> Settled {
    let mut s = Settled::standing(held);
    let record = held.record;
    let n = record.wholes.n as usize;
    match *call {
        Call::Start(start) => {
            s.answer = Some(evaluate(vector::STATE, start.time));
            let mut after = without_history(at_time(record, phase::FIRST, start.time));
            after.wholes.family = start.family;
            after.wholes.n = start.n;
            s.record = after;
            s.put(vector::STATE, start.state);
            s.put(vector::EIGENVECTOR, &vec![0.0; start.n as usize]);
        }
        Call::Attempt(arguments) => settle_attempt(&mut s, record, arguments),
        Call::Accept => settle_accept(&mut s, record, n),
        Call::AcceptWithCallback { state, time } => {
            s.answer = Some(evaluate(vector::STATE, time));
            s.record = without_history(at_time(record, phase::CALLBACK, time));
            s.put(vector::STATE, state);
        }
        Call::Abandon => {
            s.answer = Some(without_values(code::EMPTY));
            s.record = without_history(with_phase(record, phase::EMPTY));
        }
        Call::Reply { derivative } => settle_reply(&mut s, record, derivative, given),
    }
    s
}

/// In TSRKC2 the kept state and the step are the history. A number that says so already stands.
fn settle_accept(s: &mut Settled, record: Record, n: usize) {
    s.answer = Some(without_values(code::READY));
    s.record = with_phase(record, phase::READY);
    if record.wholes.family == TSRKC2 {
        s.record.wholes.history = record.wholes.history.max(1);
        s.record.doubles.previous_accepted_step = record.doubles.step;
        s.copy(vector::STATE, vector::OLDER_STATE, n);
    }
    s.copy(vector::LAST_DERIVATIVE, vector::FIRST_DERIVATIVE, n);
    s.copy(vector::CANDIDATE, vector::STATE, n);
}

fn settle_attempt(s: &mut Settled, record: Record, arguments: Arguments) {
    s.answer = Some(evaluate(vector::PERTURBED_STATE, arguments.time));
    let mut after = at_time(record, phase::PASS, arguments.time);
    after.doubles.step = arguments.step;
    after.doubles.absolute_tolerance = arguments.absolute_tolerance;
    after.doubles.relative_tolerance = arguments.relative_tolerance;
    after.wholes.adaptive = arguments.adaptive;
    let perturbation = s.by_definition(&record, Stated::begin_passes);
    s.record = at_pass(after, 1, perturbation, 0.0);
}

fn settle_reply(s: &mut Settled, record: Record, derivative: &[f64], given: &Given) {
    let n = derivative.len();
    s.counters.evaluations += 1;
    match record.wholes.phase {
        phase::FIRST | phase::CALLBACK => {
            s.answer = Some(without_values(code::READY));
            s.record = with_phase(record, phase::READY);
            s.put(vector::FIRST_DERIVATIVE, derivative);
            if record.wholes.phase == phase::CALLBACK {
                s.put(vector::EIGENVECTOR, &vec![0.0; n]);
            }
        }
        phase::PASS => {
            s.put(vector::PERTURBED_DERIVATIVE, derivative);
            settle_pass(s, record, given);
        }
        phase::STAGE => {
            s.put(vector::DERIVATIVE, derivative);
            settle_stage(s, record, given, n);
        }
        _ => {
            s.put(vector::LAST_DERIVATIVE, derivative);
            settle_candidate(s, record);
        }
    }
}

/// The attempt is finished.
fn settle_candidate(s: &mut Settled, record: Record) {
    let arguments = oracle::Arguments {
        time: record.doubles.time,
        step: record.doubles.step,
        absolute_tolerance: record.doubles.absolute_tolerance,
        relative_tolerance: record.doubles.relative_tolerance,
        adaptive: record.wholes.adaptive != 0,
    };
    let stages = record.wholes.stages;
    let norm = s.by_definition(&record, |stated| stated.error_norm(&arguments, stages));
    s.answer = Some(finished(norm, &Kept::in_record(&record)));
    s.record = with_phase(record, phase::FINISHED);
    s.counters.finished_attempts += 1;
}

/// On to the next pass, or to stage 2, or turned away with 11: "the iteration's work kept, the reply counted, the phase empty
/// and all else standing".
fn settle_pass(s: &mut Settled, record: Record, given: &Given) {
    let n = record.wholes.n as usize;
    let (pass, doubles) = (record.wholes.pass, record.doubles);
    let perturbation = doubles.perturbation;
    let radius = s.by_definition(&record, |stated| stated.end_pass(perturbation));
    let (time, step) = (doubles.time, doubles.step);
    if !last_pass(pass, radius, doubles.previous_radius) {
        s.answer = Some(evaluate(vector::PERTURBED_STATE, time));
        s.record = at_pass(record, pass + 1, perturbation, radius);
        s.by_definition(&record, |stated| stated.perturb(perturbation));
        return;
    }
    let scaled_radius = scaled(step, radius);
    let Some(stages) = count_for(record.wholes.family, scaled_radius, quotient_in(&record)) else {
        s.answer = Some(refused(11));
        s.record = with_phase(record, phase::EMPTY);
        return;
    };
    let mut begun = with_stages(record, &given.outcome.record);
    begun.wholes.phase = phase::STAGE;
    begun.wholes.stages = stages;
    begun.wholes.stage = 2;
    begun.doubles.scaled_radius = scaled_radius;
    s.record = begun;
    let theta = begun.doubles.theta_previous;
    s.answer = Some(evaluate(vector::PREVIOUS_ONE, time + step * theta));
    s.copy(vector::STATE, vector::PREVIOUS_TWO, n);
    s.open = &[vector::PREVIOUS_ONE];
}

/// q of the attempt that a record is in.
fn quotient_in(record: &Record) -> f64 {
    let doubles = &record.doubles;
    let previous = (record.wholes.history != 0).then_some(doubles.previous_accepted_step);
    quotient(previous, doubles.step)
}

/// On to the next stage with the exchange, or to the candidate, which is turned away with 10 where it is not finite. It is
/// the last stage, but in RKMC2 made from it and others, and in TSRKC2 from it and the older state.
fn settle_stage(s: &mut Settled, record: Record, given: &Given, n: usize) {
    let (time, step) = (record.doubles.time, record.doubles.step);
    if record.wholes.stage < record.wholes.stages {
        let mut expected = with_stages(record, &given.outcome.record);
        expected.wholes.stages = record.wholes.stages;
        expected.wholes.stage = record.wholes.stage + 1;
        let theta = expected.doubles.theta_previous;
        s.answer = Some(evaluate(vector::PREVIOUS_ONE, time + step * theta));
        s.record = expected;
        let previous_two = s.vector(vector::PREVIOUS_TWO, n).to_vec();
        s.copy(vector::PREVIOUS_ONE, vector::PREVIOUS_TWO, n);
        s.put(vector::NEXT_STAGE, &previous_two);
        s.open = &[vector::PREVIOUS_ONE];
        return;
    }
    let last = &given.area[vector::NEXT_STAGE * n..(vector::NEXT_STAGE + 1) * n];
    s.put(vector::NEXT_STAGE, last);
    let candidate = match record.wholes.family {
        RKMC2 => combination(&record, &s.area, n),
        TSRKC2 => with_older(&record, &s.area, n),
        _ => last.to_vec(),
    };
    s.put(vector::CANDIDATE, &candidate);
    if finite(&candidate) {
        s.answer = Some(evaluate(vector::CANDIDATE, time + step));
        s.record = with_phase(record, phase::CANDIDATE);
    } else {
        s.answer = Some(refused(10));
        s.record = with_phase(record, phase::EMPTY);
    }
}

/// RKMC2's candidate, from the recurrence as it was carried into the last stage and the area with that stage in it.
fn combination(record: &Record, area: &[f64], n: usize) -> Vec<f64> {
    let carried = &record.doubles;
    let value = 2.0 * carried.omega_zero * carried.value_previous - carried.value_previous_two;
    let combination = Combination {
        stages: record.wholes.stages,
        step: carried.step,
        omega_one: carried.omega_one,
        b: [
            1.0 / (1.0 + value),
            carried.b_previous,
            carried.b_previous_two,
        ],
    };
    let from = [
        vector::STATE,
        vector::NEXT_STAGE,
        vector::PREVIOUS_TWO,
        vector::FIRST_DERIVATIVE,
    ];
    let entry = |i: usize| combination.entry(from.map(|of| area[of * n + i]));
    (0..n).map(entry).collect()
}

/// TSRKC2's candidate, from the gain that the record carries. Without a history the older state is the state.
fn with_older(record: &Record, area: &[f64], n: usize) -> Vec<f64> {
    let older = match record.wholes.history {
        0 => vector::STATE,
        _ => vector::OLDER_STATE,
    };
    let gain = record.doubles.gain;
    let entry = |i: usize| mixed_in(gain, [older, vector::NEXT_STAGE].map(|of| area[of * n + i]));
    (0..n).map(entry).collect()
}

/// What the document settles of a call that tests 1 to 9 turn away.
fn turned_away(held: &Held, number: u64) -> Settled {
    let mut s = Settled::standing(held);
    s.answer = Some(refused(number));
    if !stands(number) {
        s.record = with_phase(held.record, phase::EMPTY);
        s.counters.evaluations += 1;
    }
    s
}

/// The first thing in which an engine departs from the document.
pub fn check(held: &Held, call: &Call, given: &Given) -> Result<(), String> {
    let s = match number(held, call) {
        Some(number) => turned_away(held, number),
        None => settled(held, call, given),
    };
    let outcome = &given.outcome;
    let answer = s.answer.expect("every call has an answer");
    if answer.code == code::REFUSED && !numbers(call).contains(&answer.number) {
        return Err(format!("{} is no number of the call", answer.number));
    }
    if !same_answer(&answer, &outcome.answer) {
        return Err(format!("answer {:?}, expected {answer:?}", outcome.answer));
    }
    if !same_record(&s.record, &outcome.record) {
        let (record, expected) = (&outcome.record, &s.record);
        return Err(format!("record {record:?}, expected {expected:?}"));
    }
    if s.counters != given.counters {
        return Err(format!(
            "counters {:?}, expected {:?}",
            given.counters, s.counters
        ));
    }
    check_area(&s, given)
}

fn check_area(s: &Settled, given: &Given) -> Result<(), String> {
    let n = s.record.wholes.n as usize;
    if s.open.is_empty() || n == 0 {
        let same = all_same(&s.area, given.area);
        return same
            .then_some(())
            .ok_or_else(|| "the area changed".to_string());
    }
    for (vector, expected) in s.area.chunks(n).enumerate() {
        let range = vector * n..(vector + 1) * n;
        if !s.open.contains(&vector) && !all_same(expected, &given.area[range]) {
            return Err(format!("vector {vector} is not as expected"));
        }
    }
    Ok(())
}
