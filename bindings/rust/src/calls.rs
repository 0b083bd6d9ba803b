//! The six calls as the engine answers them: the record lent, the area and the inputs as slices, the answer as numbers.
//!
//! No call has a precondition: whatever it is handed, it answers, and a call that is turned away says so by its number
//! (document 01, "When a call is turned away"). The layouts are those of bindings/c/stabilized.h.

/// How many vectors the area of families 1 to 6 holds, each n doubles long. TSRKC2's holds one more, [`vector::OLDER_STATE`].
pub const VECTORS: usize = 11;

/// The number of TSRKC2, whose area is the larger one.
pub const TSRKC2: u64 = 7;

/// How many vectors the area of a family holds.
pub const fn vectors_of(family: u64) -> usize {
    VECTORS + (family == TSRKC2) as usize
}

/// The largest n.
pub const LARGEST: usize = 512;

/// Evaluations, and attempts that were finished.
#[derive(Clone, Copy, Debug, Default, Eq, PartialEq)]
pub struct Counters {
    pub evaluations: u64,
    pub finished_attempts: u64,
}

/// What the engine keeps in whole numbers. `adaptive` is a no at 0, else a yes; `pass` is the power iteration's, and after it
/// k; `stages` is s; `history` is 0 without a history, else there is one.
#[repr(C)]
#[derive(Clone, Copy, Debug, Default, Eq, PartialEq)]
pub struct Wholes {
    pub family: u64,
    pub n: u64,
    pub phase: u64,
    pub adaptive: u64,
    pub pass: u64,
    pub stages: u64,
    pub stage: u64,
    pub history: u64,
}

/// What it keeps in doubles: the attempt's arguments, the power iteration's position, what the stages carry on, and with a
/// history the last accepted step. The stages carry `theta`; RKC's, RKMC2's and TSRKC2's also `omega` and `value`; RKC's and
/// RKMC2's `b`; RKC's alone `first` and `second`; TSRKC2's alone `gain`. What one of these three does not use, it sets to 0 and
/// carries along. They stand in the order in which the engine reads them fastest, the last two as they came.
#[repr(C)]
#[derive(Clone, Copy, Debug, Default, PartialEq)]
pub struct Doubles {
    pub time: f64,
    pub step: f64,
    pub value_previous: f64,
    pub absolute_tolerance: f64,
    pub first_previous: f64,
    pub relative_tolerance: f64,
    pub second_previous: f64,
    pub perturbation: f64,
    pub value_previous_two: f64,
    pub previous_radius: f64,
    pub first_previous_two: f64,
    pub scaled_radius: f64,
    pub second_previous_two: f64,
    pub b_previous: f64,
    pub omega_one: f64,
    pub theta_previous: f64,
    pub b_previous_two: f64,
    pub theta_previous_two: f64,
    pub omega_zero: f64,
    pub gain: f64,
    pub previous_accepted_step: f64,
}

/// All that the engine keeps beside the area. The default one is in the empty phase.
///
/// `stages`, `pass` and `scaled_radius` are s, k and r of a finished answer from that answer until the next attempt that is
/// taken: accept, a callback or a start with its reply, abandon and every call that is turned away keep them. Such an attempt
/// sets `pass` to 1 and `scaled_radius` to 0; `stages` stands until its own stages begin. An attempt that is abandoned or turned
/// away with 9, 10 or 11 leaves the three as they stood at that call; they are then not those of a finished answer.
///
/// TSRKC2 has a history from an accept on: `previous_accepted_step` is then the step that was accepted, and the area's last
/// vector the state before it. A start, an accept with a callback and an abandon end it, in every family, and let step and vector
/// stand.
#[repr(C)]
#[derive(Clone, Copy, Debug, Default, PartialEq)]
pub struct Record {
    pub wholes: Wholes,
    pub doubles: Doubles,
}

/// The phases by number.
pub mod phase {
    pub const EMPTY: u64 = 0;
    pub const FIRST: u64 = 1;
    pub const READY: u64 = 2;
    pub const PASS: u64 = 3;
    pub const STAGE: u64 = 4;
    pub const CANDIDATE: u64 = 5;
    pub const FINISHED: u64 = 6;
    pub const CALLBACK: u64 = 7;
}

/// The answers' codes.
pub mod code {
    pub const EVALUATE: u64 = 1;
    pub const FINISHED: u64 = 2;
    pub const READY: u64 = 3;
    pub const REFUSED: u64 = 4;
    pub const EMPTY: u64 = 5;
}

/// The vectors of the area by number.
pub mod vector {
    pub const FIRST_DERIVATIVE: usize = 0;
    pub const LAST_DERIVATIVE: usize = 1;
    pub const DERIVATIVE: usize = 2;
    pub const PREVIOUS_TWO: usize = 3;
    pub const PREVIOUS_ONE: usize = 4;
    pub const NEXT_STAGE: usize = 5;
    pub const EIGENVECTOR: usize = 6;
    pub const PERTURBED_STATE: usize = 7;
    pub const PERTURBED_DERIVATIVE: usize = 8;
    pub const STATE: usize = 9;
    pub const CANDIDATE: usize = 10;
    /// In TSRKC2's area alone.
    pub const OLDER_STATE: usize = 11;
}

/// An answer: evaluate (vector `number` at `time`), finished (with `norm`, `stages`, `passes` and `scaled_radius`, which are
/// those of [`crate::Figures`]), ready, refused (`number`), empty. What an answer does not carry is 0.
#[repr(C)]
#[derive(Clone, Copy, Debug, Default, PartialEq)]
pub struct Answer {
    pub code: u64,
    pub number: u64,
    pub norm: f64,
    pub stages: u64,
    pub passes: u64,
    pub scaled_radius: f64,
    pub time: f64,
}

mod library {
    use super::{Answer, Doubles, Wholes};

    // Each part of the record is numbers of 64 bits without padding, which the engine has as an array; a slice is two
    // arguments, the pointer and the count. The engine is proved for every record, number and content, so only the
    // pointers can be wrong.
    unsafe extern "C" {
        pub fn stabilized_start(
            wholes: *mut Wholes,
            doubles: *mut Doubles,
            area: *mut f64,
            area_length: usize,
            family: u64,
            n: u64,
            state: *const f64,
            state_length: usize,
            time: f64,
        ) -> Answer;
        pub fn stabilized_attempt(
            wholes: *mut Wholes,
            doubles: *mut Doubles,
            area: *mut f64,
            area_length: usize,
            time: f64,
            step: f64,
            absolute_tolerance: f64,
            relative_tolerance: f64,
            adaptive: u64,
        ) -> Answer;
        pub fn stabilized_reply(
            wholes: *mut Wholes,
            doubles: *mut Doubles,
            evaluations: *mut u64,
            finished_attempts: *mut u64,
            area: *mut f64,
            area_length: usize,
            derivative: *const f64,
            derivative_length: usize,
        ) -> Answer;
        pub fn stabilized_accept(
            wholes: *mut Wholes,
            doubles: *mut Doubles,
            area: *mut f64,
            area_length: usize,
        ) -> Answer;
        pub fn stabilized_accept_with_callback(
            wholes: *mut Wholes,
            doubles: *mut Doubles,
            area: *mut f64,
            area_length: usize,
            state: *const f64,
            state_length: usize,
            time: f64,
        ) -> Answer;
        pub fn stabilized_abandon(
            wholes: *mut Wholes,
            doubles: *mut Doubles,
            area: *const f64,
            area_length: usize,
        ) -> Answer;
    }
}

/// Begins anew, in any phase: keeps the state and asks for the first derivative.
#[inline]
pub fn start(
    record: &mut Record,
    area: &mut [f64],
    family: u64,
    n: u64,
    state: &[f64],
    time: f64,
) -> Answer {
    // SAFETY: pointers and counts are those of a live record and live slices; what is written is lent alone, and the two
    // parts of a record overlap nothing.
    unsafe {
        library::stabilized_start(
            &mut record.wholes,
            &mut record.doubles,
            area.as_mut_ptr(),
            area.len(),
            family,
            n,
            state.as_ptr(),
            state.len(),
            time,
        )
    }
}

/// Steps from the kept state; when ready or after a finished attempt.
#[inline]
pub fn attempt(
    record: &mut Record,
    area: &mut [f64],
    time: f64,
    step: f64,
    absolute_tolerance: f64,
    relative_tolerance: f64,
    adaptive: u64,
) -> Answer {
    // SAFETY: as in `start`.
    unsafe {
        library::stabilized_attempt(
            &mut record.wholes,
            &mut record.doubles,
            area.as_mut_ptr(),
            area.len(),
            time,
            step,
            absolute_tolerance,
            relative_tolerance,
            adaptive,
        )
    }
}

/// Brings the derivative that was asked for.
#[inline]
pub fn reply(
    record: &mut Record,
    counters: &mut Counters,
    area: &mut [f64],
    derivative: &[f64],
) -> Answer {
    // SAFETY: as in `start`; the counters are two numbers, lent alone.
    unsafe {
        library::stabilized_reply(
            &mut record.wholes,
            &mut record.doubles,
            &mut counters.evaluations,
            &mut counters.finished_attempts,
            area.as_mut_ptr(),
            area.len(),
            derivative.as_ptr(),
            derivative.len(),
        )
    }
}

/// After a finished attempt: the candidate becomes the kept state.
#[inline]
pub fn accept(record: &mut Record, area: &mut [f64]) -> Answer {
    // SAFETY: as in `start`.
    unsafe {
        library::stabilized_accept(
            &mut record.wholes,
            &mut record.doubles,
            area.as_mut_ptr(),
            area.len(),
        )
    }
}

/// After a finished attempt: another state and time are kept, and its derivative is asked for.
#[inline]
pub fn accept_with_callback(
    record: &mut Record,
    area: &mut [f64],
    state: &[f64],
    time: f64,
) -> Answer {
    // SAFETY: as in `start`.
    unsafe {
        library::stabilized_accept_with_callback(
            &mut record.wholes,
            &mut record.doubles,
            area.as_mut_ptr(),
            area.len(),
            state.as_ptr(),
            state.len(),
            time,
        )
    }
}

/// While an evaluation is pending: ends it uncounted.
#[inline]
pub fn abandon(record: &mut Record, area: &[f64]) -> Answer {
    // SAFETY: as in `start`.
    unsafe {
        library::stabilized_abandon(
            &mut record.wholes,
            &mut record.doubles,
            area.as_ptr(),
            area.len(),
        )
    }
}
