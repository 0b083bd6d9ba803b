//! Scenarios of what overflows: failed sensors, whose norms are finite by document 02, CR 4, and radii that are no finite
//! numbers, both compared with the definition alone; an r at which RKC's count overflows in the Rust; and candidates.
use crate::model::{Model, Replies};
use crate::other::Cause;
use crate::pair::{Ending, Pair, ROOM, Stop};
use crate::random::{Random, mixed};
use crate::scenarios::{Coverage, ended, radii_for, with_radii};
use oracle::{Arguments, Figures, RKC, TSRKC2};
use stabilized::calls::vector;
use std::fmt::Debug;

/// What a failed sensor sends, and what its scenario is counted as.
pub const SENSORS: [(f64, &str); 3] = [
    (1e160, "sensors of 1e160"),
    (1e200, "sensors of 1e200"),
    (1e300, "sensors of 1e300"),
];

/// Which entries of a state are of failed sensors.
#[derive(Clone, Copy, Debug, PartialEq)]
pub enum Placement {
    One,
    All,
    /// Every other one, and those between are small.
    Mixed,
}

impl Placement {
    pub const ALL: [Self; 3] = [Self::One, Self::All, Self::Mixed];

    /// What a scenario with it is counted as.
    pub const fn name(self) -> &'static str {
        match self {
            Self::One => "sensors failed at one entry",
            Self::All => "sensors failed at all entries",
            Self::Mixed => "sensors failed at every other entry",
        }
    }

    /// The magnitude of an entry.
    fn magnitude(self, i: usize, n: usize, sensor: f64, random: &mut Random) -> f64 {
        let failed = match self {
            Self::One => i == n / 2,
            Self::All => true,
            Self::Mixed => i.is_multiple_of(2),
        };
        if failed {
            sensor * random.between(1.0, 2.0)
        } else if self == Self::Mixed {
            random.magnitude(-300.0, -100.0)
        } else {
            random.unit()
        }
    }
}

/// What is hot in a scenario.
#[derive(Clone, Copy, Debug, PartialEq)]
pub enum Heat {
    /// The state, and with it its derivative.
    Derivative(Placement),
    /// The state; the rates are so slow that its derivative is not.
    State(Placement),
    /// The error alone, by tolerances as small as the sensor is large.
    Error,
}

impl Heat {
    /// Those that differ in a dimension.
    pub fn of(n: usize) -> impl Iterator<Item = Self> {
        let placements = Placement::ALL.into_iter();
        let placements = placements.filter(move |at| n > 1 || *at == Placement::All);
        let states = placements.flat_map(|at| [Self::Derivative(at), Self::State(at)]);
        states.chain([Self::Error])
    }

    /// The norm of the Rust that is infinite first.
    fn cause(self) -> Cause {
        match self {
            Self::Derivative(_) => Cause::Direction,
            Self::State(_) => Cause::State,
            Self::Error => Cause::Error,
        }
    }
}

/// Whether an error norm is finite and so large that the sum of squares is not.
pub fn is_hot(norm: f64) -> bool {
    norm.is_finite() && norm > 1e155
}

/// The error norm of an attempt, which its tolerances make.
#[derive(Clone, Copy, Debug, PartialEq)]
enum Norm {
    /// It is finite, and not hot.
    Usual,
    Hot,
    /// An error over its tolerance is not finite.
    Infinite,
}

impl Norm {
    /// Both tolerances.
    fn tolerance(self, sensor: f64) -> f64 {
        match self {
            Self::Usual => 1e-3,
            Self::Hot => 1.0 / sensor,
            Self::Infinite => f64::from_bits(1),
        }
    }

    fn is(self, norm: f64) -> bool {
        match self {
            Self::Usual => norm.is_finite() && !is_hot(norm),
            Self::Hot => is_hot(norm),
            Self::Infinite => norm == f64::INFINITY,
        }
    }
}

/// Runs a scenario on a pair of its own, which begins with zeros on both sides.
pub fn run(
    scenario: &impl Debug,
    n: usize,
    seed: u64,
    coverage: &mut Coverage,
    follow: impl Fn(&mut Pair, &mut Random, &mut Coverage) -> Result<(), String>,
) -> Result<(), String> {
    let random = &mut Random::new(mixed(seed));
    let mut pair = Pair::new(n, vec![0.0; ROOM * n], true, random.draw());
    pair.write_down(&mut coverage.trace);
    follow(&mut pair, random, coverage)
        .map_err(|difference| format!("{scenario:?}: {difference}"))?;
    coverage.scenario(pair);
    Ok(())
}

/// An attempt's arguments, with usual tolerances.
pub fn arguments(step: f64) -> Arguments {
    Arguments {
        time: 0.5,
        step,
        absolute_tolerance: 1e-6,
        relative_tolerance: 1e-3,
        adaptive: true,
    }
}

/// The figures of an attempt, which must be finished.
pub fn finished(
    pair: &mut Pair,
    arguments: Arguments,
    replies: &Replies,
    coverage: &mut Coverage,
) -> Result<Figures, String> {
    let ending = pair.attempt(arguments, replies, None)?;
    coverage.attempt(pair, &arguments, &ending);
    match ending {
        Ending::Finished(figures) => Ok(figures),
        _ => Err(format!("got {ending:?}")),
    }
}

/// That something meant holds of what came.
pub fn meant(holds: bool, came: impl Debug) -> Result<(), String> {
    holds.then_some(()).ok_or_else(|| format!("got {came:?}"))
}

/// A stiff rod with failed sensors: attempts rejected, accepted and ended by a callback, and calls that are turned away. In
/// every attempt the radius is finite and the stages are more than the least count.
#[derive(Clone, Copy, Debug)]
pub struct Hot {
    pub family: u64,
    pub heat: Heat,
    /// Of [`SENSORS`].
    pub sensor: usize,
    pub n: usize,
}

impl Hot {
    /// Every sensor, and all that can be hot, in three dimensions.
    pub fn all_of(family: u64) -> impl Iterator<Item = Self> {
        let dimensions = [1, 3, 8].into_iter();
        let heats = dimensions.flat_map(|n| Heat::of(n).map(move |heat| (n, heat)));
        heats.flat_map(move |(n, heat)| {
            (0..SENSORS.len()).map(move |sensor| Self {
                family,
                heat,
                sensor,
                n,
            })
        })
    }

    fn sensor(&self) -> f64 {
        SENSORS[self.sensor].0
    }

    /// Neighbors have opposite signs, so that the second pass finds a radius which is near the rod's.
    fn state(&self, random: &mut Random) -> Vec<f64> {
        let sign = random.sign();
        let mut magnitude = |i| match self.heat {
            Heat::Derivative(at) | Heat::State(at) => {
                at.magnitude(i, self.n, self.sensor(), random)
            }
            Heat::Error => random.between(0.5, 1.0),
        };
        let signs = [sign, -sign].into_iter().cycle();
        let entries = (0..self.n).zip(signs);
        entries.map(|(i, sign)| sign * magnitude(i)).collect()
    }

    /// The rod's rate. A step is ten times its inverse, so that the radius is much the same in all.
    fn rate(&self) -> f64 {
        match self.heat {
            Heat::State(_) => 1.0 / self.sensor(),
            _ => 50.0,
        }
    }

    /// The rod that cools in the direction of a step.
    fn replies(&self, step: f64) -> Replies {
        Replies::of(&Model::Rod {
            rate: step.signum() * self.rate(),
            source: 0.0,
        })
    }

    fn attempt(
        &self,
        pair: &mut Pair,
        step: f64,
        norm: Norm,
        coverage: &mut Coverage,
    ) -> Result<(), String> {
        let tolerance = norm.tolerance(self.sensor());
        let arguments = Arguments {
            absolute_tolerance: tolerance,
            relative_tolerance: tolerance,
            ..arguments(step)
        };
        let figures = finished(pair, arguments, &self.replies(step), coverage)?;
        let (least, _) = oracle::ends(self.family);
        let stiff = figures.scaled_radius.is_finite() && figures.stages > least as u64;
        meant(stiff && norm.is(figures.norm), figures)
    }

    fn follow(
        &self,
        pair: &mut Pair,
        random: &mut Random,
        coverage: &mut Coverage,
    ) -> Result<(), String> {
        let step = random.sign() * 10.0 / self.rate();
        let (state, brought) = (self.state(random), self.state(random));
        let replies = self.replies(step);
        let started = pair.start(self.family, &state, 0.5, &replies, None)?;
        ended(started, Ending::Ready)?;
        self.attempt(pair, step, Norm::Hot, coverage)?;
        meant(pair.went_over == Some(self.heat.cause()), pair.went_over)?;
        pair.all_turned_away()?;
        self.attempt(pair, 2.0 * step, Norm::Usual, coverage)?;
        pair.accept()?;
        self.attempt(pair, step, Norm::Infinite, coverage)?;
        let brought = pair.accept_with_callback(&brought, 0.25, &replies, None)?;
        ended(brought, Ending::Ready)?;
        self.attempt(pair, step, Norm::Usual, coverage)
    }

    pub fn run(&self, seed: u64, coverage: &mut Coverage) -> Result<(), String> {
        let counts = self.sensor << 16 | self.n;
        let seed = seed ^ mixed(self.family << 32 | counts as u64);
        run(self, self.n, seed, coverage, |pair, random, coverage| {
            self.follow(pair, random, coverage)
        })?;
        if let Heat::Derivative(at) | Heat::State(at) = self.heat {
            coverage.count(at.name());
            coverage.count(SENSORS[self.sensor].1);
        }
        Ok(())
    }
}

/// A scaled radius that is no finite number.
#[derive(Clone, Copy, Debug, PartialEq)]
pub enum Unbounded {
    /// The norms of the direction and of the state overflow for good, and with the latter the perturbation.
    Nan,
    /// The direction's over the perturbation alone.
    Infinite,
}

impl Unbounded {
    const ALL: [Self; 2] = [Self::Nan, Self::Infinite];

    fn is(self, radius: f64) -> bool {
        match self {
            Self::Nan => radius.is_nan(),
            Self::Infinite => radius == f64::INFINITY,
        }
    }

    /// The least dimension that it is run in: in a smaller one a state whose norm overflows has entries so large that a row's
    /// products overflow too.
    pub fn least_dimension(self) -> usize {
        match self {
            Self::Nan => 8,
            Self::Infinite => 1,
        }
    }
}

/// Attempts with such a radius, and after each what keeps its s, k and r: the calls of `bad_calls`, accept, a callback and its
/// reply, good and bad, a start abandoned and a start.
#[derive(Clone, Copy, Debug)]
pub struct Keeping {
    pub family: u64,
    pub radius: Unbounded,
    pub n: usize,
}

impl Keeping {
    /// Both radii, in those of these dimensions that are small and not too small. TSRKC2 finishes no attempt with an infinite
    /// one here.
    pub fn all_of(family: u64, dimensions: &[usize]) -> impl Iterator<Item = Self> {
        let radii = Unbounded::ALL.into_iter();
        let radii = radii.filter(move |radius| (family, *radius) != (TSRKC2, Unbounded::Infinite));
        radii.flat_map(move |radius| {
            let dimensions = dimensions.iter().copied();
            let dimensions = dimensions.filter(move |n| (radius.least_dimension()..=8).contains(n));
            dimensions.map(move |n| Self { family, radius, n })
        })
    }

    /// The replies are drawn for each place and no function of the point. Every radius is infinite or a NaN, so no change is
    /// small and twelve passes run.
    fn replies(&self, sign: f64, random: &mut Random) -> Replies {
        Replies::of(&Model::Noise {
            seed: random.draw(),
            least: 1022.5,
            most: 1022.9,
            sign: Some(sign),
        })
    }

    fn state(&self, random: &mut Random) -> Vec<f64> {
        let scale = match self.radius {
            Unbounded::Nan => f64::MAX / (self.n as f64).sqrt() * 1.05,
            Unbounded::Infinite => 1.0,
        };
        (0..self.n)
            .map(|_| random.sign() * random.between(0.98, 1.02) * scale)
            .collect()
    }

    /// An attempt whose step is so short that it hardly moves the state. The replies have the other sign than the first
    /// derivative, so that all their departures from it are as hot.
    fn attempt(
        &self,
        pair: &mut Pair,
        random: &mut Random,
        coverage: &mut Coverage,
    ) -> Result<(), String> {
        let sign = -pair.vector(vector::FIRST_DERIVATIVE)[0].signum();
        let replies = self.replies(sign, random);
        let figures = finished(pair, arguments(1e-306), &replies, coverage)?;
        meant(self.radius.is(figures.scaled_radius), figures)?;
        pair.all_turned_away()
    }

    fn follow(
        &self,
        pair: &mut Pair,
        random: &mut Random,
        coverage: &mut Coverage,
    ) -> Result<(), String> {
        let (state, good) = (self.state(random), self.replies(1.0, random));
        let bad = Replies {
            bad: Some((0, 0, f64::NAN)),
            ..good.clone()
        };
        let start = |pair: &mut Pair, replies: &Replies, stop| {
            pair.start(self.family, &state, 0.5, replies, stop)
        };
        let callback = |pair: &mut Pair, replies: &Replies| {
            pair.accept_with_callback(&state, 0.25, replies, None)
        };
        ended(start(pair, &good, None)?, Ending::Ready)?;
        self.attempt(pair, random, coverage)?;
        pair.accept()?;
        pair.all_turned_away()?;
        self.attempt(pair, random, coverage)?;
        ended(callback(pair, &good)?, Ending::Ready)?;
        let abandoned = Some((0, Stop::Abandon));
        ended(start(pair, &good, abandoned)?, Ending::Abandoned)?;
        pair.all_turned_away()?;
        ended(start(pair, &good, None)?, Ending::Ready)?;
        self.attempt(pair, random, coverage)?;
        ended(callback(pair, &bad)?, Ending::BadDerivative)?;
        ended(start(pair, &bad, None)?, Ending::BadDerivative)
    }

    pub fn run(&self, seed: u64, coverage: &mut Coverage) -> Result<(), String> {
        let seed = seed ^ mixed(self.family);
        run(self, self.n, seed, coverage, |pair, random, coverage| {
            self.follow(pair, random, coverage)
        })
    }
}

/// An attempt with an r so large that the Rust's count overflows in RKC, where the run goes over and 200 stages are run. TSRKC2
/// is turned away with 11. In the other families the Rust gives the largest count.
#[derive(Clone, Copy, Debug)]
pub struct Overflowing {
    pub family: u64,
    pub step: f64,
    pub n: usize,
}

impl Overflowing {
    /// With the first of these steps r is finite, with the second infinite.
    pub const STEPS: [f64; 2] = [1e-100, 1e150];

    fn follow(
        &self,
        pair: &mut Pair,
        random: &mut Random,
        coverage: &mut Coverage,
    ) -> Result<(), String> {
        let replies = Replies::of(&Model::Diagonal {
            least: 0.1 / self.step,
            most: 1.0 / self.step,
        });
        let state: Vec<f64> = (0..self.n).map(|_| random.between(-1.0, 1.0)).collect();
        let started = pair.start(self.family, &state, 0.5, &replies, None)?;
        ended(started, Ending::Ready)?;
        let replies = with_radii(replies, radii_for(3, 1e160), pair);
        if self.family == TSRKC2 {
            return refused_with_11(pair, arguments(self.step), &replies, None, coverage);
        }
        let figures = finished(pair, arguments(self.step), &replies, coverage)?;
        let over = (self.family == RKC).then_some(Cause::Count);
        meant(pair.went_over == over, pair.went_over)?;
        let (_, largest) = oracle::ends(self.family);
        meant(figures.stages == largest as u64, figures)
    }

    pub fn run(&self, seed: u64, coverage: &mut Coverage) -> Result<(), String> {
        let seed = seed ^ mixed(self.step.to_bits());
        run(self, self.n, seed, coverage, |pair, random, coverage| {
            self.follow(pair, random, coverage)
        })
    }
}

/// An attempt of TSRKC2 that needs too many stages, with what the run has then gone over for.
pub fn refused_with_11(
    pair: &mut Pair,
    arguments: Arguments,
    replies: &Replies,
    over: Option<Cause>,
    coverage: &mut Coverage,
) -> Result<(), String> {
    let ending = pair.attempt(arguments, replies, None)?;
    coverage.attempt(pair, &arguments, &ending);
    meant(pair.went_over == over, pair.went_over)?;
    ended(ending, Ending::TooManyStages)?;
    pair.all_turned_away()
}

/// An infinite r of TSRKC2 by the definition, where the norm of a direction overflows for good: it is turned away with 11.
pub fn infinite_by_definition(seed: u64, coverage: &mut Coverage) -> Result<(), String> {
    let keeping = Keeping {
        family: TSRKC2,
        radius: Unbounded::Infinite,
        n: 3,
    };
    run(
        &keeping,
        3,
        mixed(seed),
        coverage,
        |pair, random, coverage| {
            let (state, good) = (keeping.state(random), keeping.replies(1.0, random));
            let started = pair.start(TSRKC2, &state, 0.5, &good, None)?;
            ended(started, Ending::Ready)?;
            let replies = keeping.replies(-1.0, random);
            let over = Some(Cause::Direction);
            refused_with_11(pair, arguments(1e-306), &replies, over, coverage)
        },
    )
}

/// A candidate that overflows while every norm of the Rust is finite: the attempt ends with 10 on both sides.
pub fn overflowing_candidate(
    family: u64,
    seed: u64,
    coverage: &mut Coverage,
) -> Result<(), String> {
    let (n, replies) = (3, Replies::of(&Model::Constant { value: 1e150 }));
    let arguments = arguments(1e200);
    let scenario = ("a candidate that overflows", family);
    let seed = seed ^ mixed(family);
    run(&scenario, n, seed, coverage, |pair, random, coverage| {
        let state: Vec<f64> = (0..n).map(|_| random.between(-1.0, 1.0)).collect();
        let started = pair.start(family, &state, 0.5, &replies, None)?;
        ended(started, Ending::Ready)?;
        let ending = pair.attempt(arguments, &replies, None)?;
        coverage.attempt(pair, &arguments, &ending);
        meant(pair.went_over.is_none(), pair.went_over)?;
        ended(ending, Ending::BadCandidate)
    })
}
