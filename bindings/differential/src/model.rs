//! Right-hand sides that both sides are given: functions of time, point and the evaluation's place in the attempt.
use crate::other::Replying;
use crate::random::{mixed, unit};
use crate::stated::perturbation;
use oracle::RightHandSide;
use std::cell::Cell;

/// A model of n temperatures.
#[derive(Clone, Debug)]
pub enum Model {
    /// Each cools at its own rate.
    Diagonal { least: f64, most: f64 },
    /// A rod: neighbors exchange heat, and a source warms.
    Rod { rate: f64, source: f64 },
    /// Growth with a limit.
    Logistic { rate: f64 },
    /// Follows a signal that depends on time.
    Forced { rate: f64 },
    /// Grows with its cube: overflows soon.
    Cubic { rate: f64 },
    /// The same derivative everywhere: radius 0.
    Constant { value: f64 },
    /// No function at all: numbers drawn for each place, of magnitude 2^least to 2^most and of a sign, if it is given.
    Noise {
        seed: u64,
        least: f64,
        most: f64,
        sign: Option<f64>,
    },
}

impl Model {
    pub fn evaluate(&self, place: usize, derivative: &mut [f64], point: &[f64], time: f64) {
        let n = point.len();
        for i in 0..n {
            let y = point[i];
            derivative[i] = match *self {
                Model::Diagonal { least, most } => {
                    -(least + (most - least) * (i as f64 / n as f64)) * y
                }
                Model::Rod { rate, source } => {
                    let left = if i == 0 { 0.0 } else { point[i - 1] };
                    let right = if i + 1 == n { 0.0 } else { point[i + 1] };
                    rate * (left - 2.0 * y + right) + source
                }
                Model::Logistic { rate } => rate * y * (1.0 - y),
                Model::Forced { rate } => rate * (time / (1.0 + time * time) - y),
                Model::Cubic { rate } => rate * y * y * y,
                Model::Constant { value } => value,
                Model::Noise {
                    seed,
                    least,
                    most,
                    sign,
                } => {
                    let draw = mixed(seed ^ mixed((place * n + i) as u64));
                    let magnitude = (least + (most - least) * unit(mixed(draw))).exp2();
                    let drawn = if draw & 1 == 0 { 1.0 } else { -1.0 };
                    sign.unwrap_or(drawn) * magnitude
                }
            };
        }
    }
}

/// Place, entry and value of a bad reply.
pub type Bad = (usize, usize, f64);

/// How the evaluations of one call are answered: by the model, except that the passes of the power iteration may be given
/// radii, and one reply may hold a double that is not finite.
#[derive(Clone, Debug)]
pub struct Replies {
    pub model: Model,
    pub radii: Vec<f64>,
    /// The first derivative and the perturbation, for the radii.
    pub base: Vec<f64>,
    pub perturbation: f64,
    pub bad: Option<Bad>,
}

impl Replies {
    pub fn of(model: &Model) -> Self {
        Self {
            model: model.clone(),
            radii: Vec::new(),
            base: Vec::new(),
            perturbation: 0.0,
            bad: None,
        }
    }

    /// Gives the passes these radii: each reply departs from the first derivative, in its first entry, by radius times
    /// perturbation.
    pub fn with_radii(mut self, radii: Vec<f64>, first: &[f64], state: &[f64]) -> Self {
        self.perturbation = perturbation(state);
        self.base = first.to_vec();
        self.radii = radii;
        self
    }

    pub fn evaluate(&self, place: usize, derivative: &mut [f64], point: &[f64], time: f64) {
        match self.radii.get(place) {
            Some(radius) => {
                derivative.copy_from_slice(&self.base);
                derivative[0] += radius * self.perturbation;
            }
            None => self.model.evaluate(place, derivative, point, time),
        }
        if let Some((at, entry, value)) = self.bad
            && at == place
        {
            derivative[entry % point.len()] = value;
        }
    }
}

impl Replying for Replies {
    fn in_turn(&self) -> impl RightHandSide {
        let place = Cell::new(0);
        move |derivative: &mut [f64], point: &[f64], time| {
            self.evaluate(place.replace(place.get() + 1), derivative, point, time);
            Ok(())
        }
    }
}
