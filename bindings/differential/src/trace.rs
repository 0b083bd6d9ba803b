//! Calls and what they left, written down as words for the program `replay`, whose src/trace.rt has the layout.
use crate::refusals::{Call, Given, Held, Kept};
use stabilized::calls::{Answer, Counters, Record, code};

/// What is written so far.
#[derive(Default)]
pub struct Trace {
    pub words: Vec<u64>,
    n: usize,
}

/// A double's bits; one pattern for every NaN.
fn bits(value: f64) -> u64 {
    if value.is_nan() {
        f64::NAN.to_bits()
    } else {
        value.to_bits()
    }
}

/// s, k and r.
fn three(kept: &Kept) -> [u64; 3] {
    [kept.stages, kept.passes, bits(kept.scaled_radius)]
}

/// The time of an evaluation, or the norm of a finished attempt.
fn time_or_norm(answer: &Answer) -> f64 {
    match answer.code {
        code::EVALUATE => answer.time,
        code::FINISHED => answer.norm,
        _ => 0.0,
    }
}

/// Whether there is a history, and its step.
fn history(record: &Record) -> [u64; 2] {
    let present = record.wholes.history != 0;
    let step = record.doubles.previous_accepted_step;
    [u64::from(present), bits(step)]
}

/// Stand beside the bits of the vectors, where the record's s, k and r, and where its history, are not as before.
const KEPT: u64 = 1 << 16;
const HISTORY: u64 = 1 << 17;

/// What a call leaves in the record, where it is not as before.
#[derive(Default)]
struct Moved {
    kept: Option<[u64; 3]>,
    history: Option<[u64; 2]>,
}

impl Moved {
    fn between(before: &Record, after: &Record) -> Self {
        let kept = [before, after].map(|record| three(&Kept::in_record(record)));
        let histories = [before, after].map(history);
        Self {
            kept: (kept[0] != kept[1]).then_some(kept[1]),
            history: (histories[0] != histories[1]).then_some(histories[1]),
        }
    }

    fn marks(&self) -> u64 {
        self.kept.map_or(0, |_| KEPT) + self.history.map_or(0, |_| HISTORY)
    }
}

impl Trace {
    fn doubles(&mut self, values: &[f64]) {
        self.words.extend(values.iter().map(|value| bits(*value)));
    }

    fn counted(&mut self, values: &[f64]) {
        self.words.push(values.len() as u64);
        self.doubles(values);
    }

    /// The vectors that are not as before, and what of the record is not.
    fn left(&mut self, before: &[f64], after: &[f64], moved: &Moved) {
        let both = before.chunks(self.n).zip(after.chunks(self.n));
        let differ = |(before, after): (&[f64], &[f64])| {
            let mut entries = before.iter().zip(after);
            entries.any(|(before, after)| bits(*before) != bits(*after))
        };
        let changed: Vec<bool> = both.map(differ).collect();
        let vectors = changed.iter().enumerate();
        let vectors: u64 = vectors.map(|(at, changed)| u64::from(*changed) << at).sum();
        self.words.push(vectors + moved.marks());
        for (vector, _) in after
            .chunks(self.n)
            .zip(changed)
            .filter(|(_, changed)| *changed)
        {
            self.doubles(vector);
        }
        self.words.extend(moved.kept.into_iter().flatten());
        self.words.extend(moved.history.into_iter().flatten());
    }

    /// A session begins, with the default record, which holds zeros, and the room that its areas are part of.
    pub fn begin(&mut self, n: usize, counters: &Counters, room: &[f64]) {
        self.n = n;
        self.words.extend([
            0,
            n as u64,
            counters.evaluations,
            counters.finished_attempts,
        ]);
        self.left(&vec![0.0; room.len()], room, &Moved::default());
    }

    /// A call, and what it answered and left.
    pub fn call(&mut self, held: &Held, call: &Call, given: &Given) {
        self.brought(call);
        let answer = &given.outcome.answer;
        let Counters {
            evaluations,
            finished_attempts,
        } = given.counters;
        self.words.extend([
            answer.code,
            answer.number,
            bits(time_or_norm(answer)),
            evaluations,
            finished_attempts,
        ]);
        if answer.code == code::FINISHED {
            self.words.extend(three(&Kept::in_answer(answer)));
        }
        let moved = Moved::between(&held.record, &given.outcome.record);
        self.left(held.area, given.area, &moved);
    }

    fn brought(&mut self, call: &Call) {
        match *call {
            Call::Start(start) => {
                self.words
                    .extend([1, start.family, start.n, bits(start.time)]);
                self.counted(start.state);
            }
            Call::Attempt(a) => {
                self.words.push(2);
                self.doubles(&[a.time, a.step, a.absolute_tolerance, a.relative_tolerance]);
                self.words.push(a.adaptive);
            }
            Call::Reply { derivative } => {
                self.words.push(3);
                self.counted(derivative);
            }
            Call::Accept => self.words.push(4),
            Call::AcceptWithCallback { state, time } => {
                self.words.extend([5, bits(time)]);
                self.counted(state);
            }
            Call::Abandon => self.words.push(6),
        }
    }
}
