use crate::calls::{self, Answer, Counters, LARGEST, Record, TSRKC2, code, vector, vectors_of};
use crate::{Error, Refusal, check_environment};

/// The methods that the engine carries.
#[derive(Clone, Copy, Debug, Eq, PartialEq)]
pub enum Family {
    /// Runge-Kutta-Chebyshev, second order (Sommeijer, Shampine and Verwer).
    Rkc = 1,
    /// Runge-Kutta-Legendre, first order (Meyer, Balsara and Aslam).
    Rkl1 = 2,
    /// Runge-Kutta-Legendre, second order.
    Rkl2 = 3,
    /// Runge-Kutta-Gegenbauer, first order (Skaras and others).
    Rkg1 = 4,
    /// Runge-Kutta-Gegenbauer, second order.
    Rkg2 = 5,
    /// RKMC2, another Runge-Kutta-Chebyshev method of second order, with up to 1000 stages.
    Rkmc2 = 6,
    /// TSRKC2, a two-step Runge-Kutta-Chebyshev method of second order: after an accept it takes the step and the state before
    /// into account. With up to 1000 stages; where more would be needed, an attempt is turned away.
    Tsrkc2 = 7,
}

/// What an attempt is given.
#[derive(Clone, Copy, Debug, PartialEq)]
pub struct Attempt {
    pub time: f64,
    pub step: f64,
    pub absolute_tolerance: f64,
    pub relative_tolerance: f64,
    /// Without it no error is worked out, and the norm is 0.
    pub adaptive: bool,
}

impl Attempt {
    /// An attempt with an error norm at the tolerances 1e-6 and 1e-3.
    pub fn new(time: f64, step: f64) -> Self {
        Self {
            time,
            step,
            absolute_tolerance: 1.0e-6,
            relative_tolerance: 1.0e-3,
            adaptive: true,
        }
    }
}

/// What a finished attempt tells. Its evaluations are `stages` + `passes`.
#[derive(Clone, Copy, Debug, PartialEq)]
pub struct Figures {
    /// The error norm; 0 without `adaptive`.
    pub norm: f64,
    /// s, the stage count that was chosen for the scaled radius.
    pub stages: u64,
    /// k, the passes of the power iteration, 1 to 12.
    pub passes: u64,
    /// r, the step's size times 1.2 times the radius of the last pass. It may be infinite, or a NaN, for which s is the least
    /// count.
    pub scaled_radius: f64,
}

impl Figures {
    /// Those of a finished answer.
    fn of_answer(answer: &Answer) -> Self {
        Self {
            norm: answer.norm,
            stages: answer.stages,
            passes: answer.passes,
            scaled_radius: answer.scaled_radius,
        }
    }
}

/// The engine with its area, its counters and a right-hand side `f(derivative, state, time)`.
pub struct Stepper<F> {
    rhs: F,
    record: Record,
    counters: Counters,
    /// With room for the largest of the families' areas, so that a restart may bring another family.
    room: Vec<f64>,
    derivative: Vec<f64>,
}

/// The part of the room that is the area of a family.
fn area_of(family: u64, room: &mut [f64]) -> &mut [f64] {
    let n = room.len() / vectors_of(TSRKC2);
    &mut room[..vectors_of(family) * n]
}

impl<F: FnMut(&mut [f64], &[f64], f64)> Stepper<F> {
    /// Begins at a state and time; evaluates the first derivative. The thread's floating-point environment is checked first.
    /// A stepper that goes on in another thread, or after C code that changes it, has [`check_environment`] for that.
    pub fn start(family: Family, state: &[f64], time: f64, rhs: F) -> Result<Self, Error> {
        let n = state.len();
        let held = if n > LARGEST { 0 } else { n };
        let mut stepper = Self {
            rhs,
            record: Record::default(),
            counters: Counters::default(),
            room: vec![0.0; vectors_of(TSRKC2) * held],
            derivative: vec![0.0; held],
        };
        stepper.restart(family, state, time)?;
        Ok(stepper)
    }

    /// Begins anew at another state of the same dimension, whatever went before, with the same check. The counters go on.
    pub fn restart(&mut self, family: Family, state: &[f64], time: f64) -> Result<(), Error> {
        check_environment()?;
        let (family, n) = (family as u64, state.len() as u64);
        let area = area_of(family, &mut self.room);
        let answer = calls::start(&mut self.record, area, family, n, state, time);
        self.run(answer)?;
        Ok(())
    }

    /// Steps from the kept state. Gives back the figures of the finished attempt, or why it was turned away. The step is good
    /// when the norm is at most 1. A step that is not wanted needs no call: attempt again.
    pub fn attempt(&mut self, attempt: Attempt) -> Result<Figures, Refusal> {
        let area = area_of(self.record.wholes.family, &mut self.room);
        let answer = calls::attempt(
            &mut self.record,
            area,
            attempt.time,
            attempt.step,
            attempt.absolute_tolerance,
            attempt.relative_tolerance,
            u64::from(attempt.adaptive),
        );
        let finished = self.run(answer)?;
        Ok(Figures::of_answer(&finished))
    }

    /// Takes the candidate of a finished attempt as the kept state. TSRKC2 has a history from here on.
    pub fn accept(&mut self) -> Result<(), Refusal> {
        let area = area_of(self.record.wholes.family, &mut self.room);
        let answer = calls::accept(&mut self.record, area);
        self.run(answer)?;
        Ok(())
    }

    /// After a finished attempt, keeps another state at another time, and evaluates its derivative. TSRKC2 has no history
    /// then.
    pub fn accept_with_callback(&mut self, state: &[f64], time: f64) -> Result<(), Refusal> {
        let area = area_of(self.record.wholes.family, &mut self.room);
        let answer = calls::accept_with_callback(&mut self.record, area, state, time);
        self.run(answer)?;
        Ok(())
    }

    /// Evaluates as long as the engine asks for it. The last answer, if it is no refusal.
    fn run(&mut self, first: Answer) -> Result<Answer, Refusal> {
        let mut answer = first;
        while answer.code == code::EVALUATE {
            self.evaluate(answer.number as usize, answer.time);
            let area = area_of(self.record.wholes.family, &mut self.room);
            answer = calls::reply(&mut self.record, &mut self.counters, area, &self.derivative);
        }
        match answer.code {
            code::REFUSED => Err(Refusal::of_number(answer.number).expect("a number of the list")),
            _ => Ok(answer),
        }
    }

    fn evaluate(&mut self, number: usize, time: f64) {
        let n = self.derivative.len();
        let point = &self.room[number * n..(number + 1) * n];
        (self.rhs)(&mut self.derivative, point, time);
    }
}

impl<F> Stepper<F> {
    /// The state that the next attempt steps from.
    pub fn state(&self) -> &[f64] {
        self.vector(vector::STATE)
    }

    /// The candidate of the last finished attempt.
    pub fn candidate(&self) -> &[f64] {
        self.vector(vector::CANDIDATE)
    }

    /// The derivative at the kept state.
    pub fn first_derivative(&self) -> &[f64] {
        self.vector(vector::FIRST_DERIVATIVE)
    }

    /// A vector of the area, by its number from 0 to 10, and in TSRKC2 11.
    pub fn vector(&self, number: usize) -> &[f64] {
        let n = self.derivative.len();
        &self.room[number * n..(number + 1) * n]
    }

    /// Evaluations and finished attempts so far.
    pub fn counters(&self) -> Counters {
        self.counters
    }

    /// The state before the last accepted step and that step, while TSRKC2 has a history.
    pub fn history(&self) -> Option<(&[f64], f64)> {
        let Record { wholes, doubles } = self.record;
        let kept = wholes.family == TSRKC2 && wholes.history != 0;
        kept.then(|| {
            let state = self.vector(vector::OLDER_STATE);
            (state, doubles.previous_accepted_step)
        })
    }

    /// What the engine keeps beside the area. From a finished attempt until the next one that is taken, `stages`, `pass` and
    /// `scaled_radius` are those of its [`Figures`].
    pub fn record(&self) -> Record {
        self.record
    }
}
