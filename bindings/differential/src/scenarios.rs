//! Seeded scenarios: the stage counts and pass counts one by one, and random sessions of starts, attempts, rejections,
//! accepts, callbacks and failures. [`crate::hot`] has those in which the Rust does not count, [`crate::history`] those of
//! TSRKC2's history. Here stands also what all of them reach.
use crate::history;
use crate::hot::{Placement, SENSORS, is_hot};
use crate::model::{Bad, Model, Replies};
use crate::other::Cause;
use crate::pair::{Ending, Pair, ROOM, SHORT, Stop};
use crate::random::{Random, mixed};
use crate::trace::Trace;
use oracle::{Arguments, Figures, RKC, TSRKC2};
use stabilized::calls::{Wholes, phase, vector};
use std::collections::BTreeMap;
use std::fmt::{Display, Formatter};

pub const DIMENSIONS: [usize; 8] = [1, 2, 3, 5, 8, 16, 64, 512];

/// What a finished attempt with such a radius is counted as.
pub const RADIUS_NAN: &str = "radius NaN";
pub const RADIUS_INFINITE: &str = "radius infinite";
const RADIUS_ZERO: &str = "radius zero";

/// What a finished attempt is counted as where the Rust's count overflows.
pub const OVERFLOWED: &str = "200 stages at an overflow of RKC's count";

/// What an attempt is counted as, and a finished one once more, by what it was compared with: the Rust, or after its run went
/// over the definition alone.
pub const WITH_THE_RUST: &str = "attempts compared with the Rust";
pub const BY_THE_DEFINITION: &str = "attempts compared with the definition alone";
pub const FINISHED_WITH_THE_RUST: &str = "finished attempts compared with the Rust";
pub const FINISHED_BY_THE_DEFINITION: &str = "finished attempts compared with the definition alone";

/// What a finished attempt is counted as whose norm is hot.
pub const NORM_HOT: &str = "norm finite and above 1e155";

/// What every run reaches.
const WANTED: [&str; 24] = [
    "abandoned",
    "accepted attempts",
    "areas of any doubles",
    "areas of zeros",
    "attempts without adaptive",
    "callbacks",
    "callbacks not brought to an end",
    "ended with 10",
    "ended with 9",
    "finished attempts",
    "huge states",
    "left for a start in the middle",
    "negative steps",
    NORM_HOT,
    "norm not finite",
    "positive steps",
    RADIUS_NAN,
    RADIUS_INFINITE,
    RADIUS_ZERO,
    "rejected attempts",
    "starts",
    "starts not brought to an end",
    "subnormal states",
    "tiny steps",
];

/// The calls that a record keeps s, k and r through in every run, by name and number: those that are taken (0), the calls of
/// `bad_calls`, which leave everything, and a reply that is turned away with 9. With 8 the random calls alone are turned away.
const KEPT_THROUGH: [(&str, u64); 24] = [
    ("accept", 0),
    ("accept with callback", 0),
    ("reply to callback", 0),
    ("start", 0),
    ("reply to start", 0),
    ("abandon", 0),
    ("start", 1),
    ("start", 2),
    ("start", 3),
    ("start", 5),
    ("start", 6),
    ("attempt", 4),
    ("attempt", 6),
    ("attempt", 7),
    ("reply", 3),
    ("reply", 4),
    ("accept", 4),
    ("accept with callback", 3),
    ("accept with callback", 4),
    ("accept with callback", 5),
    ("accept with callback", 6),
    ("abandon", 4),
    ("reply to callback", 9),
    ("reply to start", 9),
];

/// What every run reaches of hot runs: each norm that can be infinite first, and each kind of sensor.
pub fn wanted_of_hot() -> impl Iterator<Item = &'static str> {
    let causes = [Cause::Direction, Cause::State, Cause::Error].map(Cause::name);
    let placements = Placement::ALL.map(Placement::name);
    let sensors = SENSORS.map(|(_, name)| name);
    causes.into_iter().chain(placements).chain(sensors)
}

/// How attempts of every family end in every run.
const ENDINGS: [&str; 5] = [
    "finished attempts",
    "ended with 9",
    "ended with 10",
    "abandoned",
    "left for a start in the middle",
];

/// What an attempt is counted as that needs too many stages. TSRKC2 alone is turned away there.
pub const TOO_MANY: &str = "ended with 11";

/// How attempts of a family end in every run.
pub fn endings_of(family: u64) -> impl Iterator<Item = &'static str> {
    let own = (family == TSRKC2).then_some(TOO_MANY);
    ENDINGS.into_iter().chain(own)
}

/// The endings that can be at every evaluation, and where they are wanted in every family.
pub const EARLY: [&str; 3] = [
    "ended with 9",
    "abandoned",
    "left for a start in the middle",
];
const PLACES: [&str; 3] = ["at a pass", "at a stage", "at the candidate"];

/// Where they are wanted too of a family with more than 200 stages: at a later stage or at the candidate.
const LATE: &str = "past 200 stages";

/// The early endings that are wanted of a family, with their places.
fn early_of(family: u64) -> impl Iterator<Item = (&'static str, &'static str)> {
    let (_, largest) = oracle::ends(family);
    let late = (largest > SHORT).then_some(LATE);
    let places = PLACES.into_iter().chain(late);
    places.flat_map(|place| EARLY.map(|ending| (ending, place)))
}

/// The places that an evaluation with this record counts for.
fn places(at: &Wholes) -> impl Iterator<Item = &'static str> {
    let (place, stage) = match at.phase {
        phase::PASS => (PLACES[0], 0),
        phase::STAGE => (PLACES[1], at.stage),
        _ => (PLACES[2], at.stages),
    };
    let late = (stage > SHORT as u64).then_some(LATE);
    [place].into_iter().chain(late)
}

/// What the scenarios reached.
#[derive(Default)]
pub struct Coverage {
    pub scenarios: u64,
    pub attempts: u64,
    pub evaluations: u64,
    pub turned_away: u64,
    /// Finished attempts whose norm was compared with the Rust's, by family and stages.
    pub norms: BTreeMap<(u64, u64), u64>,
    /// Finished attempts that were compared with the Rust, by family and passes.
    pub passes: BTreeMap<(u64, u64), u64>,
    /// Attempts that were compared with the Rust, by family and ending; finished ones with an infinite r; and all by what they
    /// were compared with.
    pub endings: BTreeMap<(u64, &'static str), u64>,
    /// Attempts that were compared with the Rust and ended early, by family, ending and place.
    pub early: BTreeMap<(u64, &'static str, &'static str), u64>,
    /// TSRKC2's attempts that were compared with the Rust, by the kind of their q and their ending.
    pub quotients: BTreeMap<(&'static str, &'static str), u64>,
    /// Those that were finished with a history, by stages.
    pub with_history: BTreeMap<u64, u64>,
    /// By dimension.
    pub dimensions: BTreeMap<usize, u64>,
    /// Calls that a record kept s, k and r of a finished attempt through, by name and number.
    pub kept: BTreeMap<(&'static str, u64), u64>,
    /// Everything else that is counted, by name.
    pub kinds: BTreeMap<&'static str, u64>,
    /// Whether every finished attempt is told on standard error.
    pub told: bool,
    /// Where a scenario is written down: taken by the first, and left to be read after it.
    pub trace: Option<Trace>,
}

impl Coverage {
    /// What is wanted of a run with these families and was not reached.
    pub fn missing(&self, families: &[u64]) -> Vec<String> {
        let of_families = families.iter().flat_map(|family| self.missing_of(*family));
        let kinds = self.kinds_missing(WANTED.into_iter().chain(wanted_of_hot()));
        let dimensions = DIMENSIONS
            .into_iter()
            .filter(|n| !self.dimensions.contains_key(n))
            .map(|n| format!("n = {n}"));
        let kept = self.kept_missing();
        let histories = families.contains(&TSRKC2).then(|| history::missing(self));
        of_families
            .chain(histories.into_iter().flatten())
            .chain(kinds)
            .chain(dimensions)
            .chain(kept)
            .collect()
    }

    /// Those of these kinds that were not counted.
    pub fn kinds_missing(
        &self,
        kinds: impl Iterator<Item = &'static str>,
    ) -> impl Iterator<Item = String> {
        kinds
            .filter(|kind| self.counted(kind) == 0)
            .map(str::to_string)
    }

    /// What s, k and r were kept through in no scenario.
    pub fn kept_missing(&self) -> impl Iterator<Item = String> {
        KEPT_THROUGH
            .into_iter()
            .filter(|through| !self.kept.contains_key(through))
            .map(|(name, number)| format!("s, k and r kept through {name}, {number}"))
    }

    /// How often this was counted.
    pub fn counted(&self, kind: &str) -> u64 {
        self.kinds.get(kind).copied().unwrap_or(0)
    }

    /// How many finished attempts there were, what they were compared with, and how many of them had a special radius.
    pub fn finished(&self) -> String {
        format!(
            "{} finished attempts, with the Rust in {}, with the definition alone in {}: r NaN in {}, infinite in {}, zero in {}",
            self.counted("finished attempts"),
            self.counted(FINISHED_WITH_THE_RUST),
            self.counted(FINISHED_BY_THE_DEFINITION),
            self.counted(RADIUS_NAN),
            self.counted(RADIUS_INFINITE),
            self.counted(RADIUS_ZERO)
        )
    }

    /// Of RKC also that a run goes over where the Rust's count overflows, and that an attempt is finished there; of the others
    /// that one with an infinite r is compared with the Rust.
    fn missing_of(&self, family: u64) -> Vec<String> {
        let norms = oracle::permitted(family)
            .filter(|stages| !self.norms.contains_key(&(family, *stages as u64)))
            .map(|stages| format!("a norm with {stages} stages"));
        let passes = (1..=12)
            .filter(|passes| !self.passes.contains_key(&(family, *passes)))
            .map(|passes| format!("{passes} passes"));
        let compared = [
            WITH_THE_RUST,
            BY_THE_DEFINITION,
            FINISHED_WITH_THE_RUST,
            FINISHED_BY_THE_DEFINITION,
        ];
        let endings = endings_of(family)
            .chain(compared)
            .chain((family != RKC).then_some(RADIUS_INFINITE))
            .filter(|ending| !self.endings.contains_key(&(family, ending)))
            .map(str::to_string);
        let overflows = [OVERFLOWED, Cause::Count.name()].into_iter();
        let overflows = self.kinds_missing(overflows.filter(|_| family == RKC));
        let early = early_of(family)
            .filter(|(ending, place)| !self.early.contains_key(&(family, ending, place)))
            .map(|(ending, place)| format!("{ending} {place}"));
        let all = norms.chain(passes).chain(endings).chain(overflows);
        let all = all.chain(early);
        let name = oracle::name(family);
        all.map(|what| format!("{name}, {what}")).collect()
    }

    pub fn count(&mut self, kind: &'static str) {
        *self.kinds.entry(kind).or_default() += 1;
    }

    /// The same, and of a family.
    fn count_of(&mut self, family: u64, kind: &'static str) {
        self.count(kind);
        *self.endings.entry((family, kind)).or_default() += 1;
    }

    /// A scenario at its end.
    pub fn scenario(&mut self, pair: Pair) {
        self.scenarios += 1;
        if let Some(cause) = pair.went_over {
            self.count(cause.name());
        }
        self.evaluations += pair.counters.evaluations;
        self.turned_away += pair.turned_away;
        for (through, count) in &pair.kept {
            *self.kept.entry(*through).or_default() += count;
        }
        self.trace = pair.written();
    }

    /// An attempt at its end.
    pub fn attempt(&mut self, pair: &Pair, arguments: &Arguments, ending: &Ending) {
        self.attempts += 1;
        let compared = match pair.went_over {
            None => WITH_THE_RUST,
            Some(_) => BY_THE_DEFINITION,
        };
        self.count_of(pair.record.wholes.family, compared);
        *self.dimensions.entry(pair.n()).or_default() += 1;
        self.count(if arguments.step < 0.0 {
            "negative steps"
        } else {
            "positive steps"
        });
        if arguments.step.abs() < 1e-100 {
            self.count("tiny steps");
        }
        if !arguments.adaptive {
            self.count("attempts without adaptive");
        }
        if let Some(name) = named(ending) {
            self.ended(pair, name);
            history::count(self, pair, arguments, name);
        }
        if let Ending::Finished(figures) = *ending {
            self.finish(pair, arguments, figures);
        }
    }

    fn finish(&mut self, pair: &Pair, arguments: &Arguments, figures: Figures) {
        let family = pair.record.wholes.family;
        if self.told {
            eprintln!("{}, n {}: {figures}", oracle::name(family), pair.n());
        }
        if pair.went_over.is_some() {
            self.count_of(family, FINISHED_BY_THE_DEFINITION);
        } else {
            self.count_of(family, FINISHED_WITH_THE_RUST);
            if figures.scaled_radius == f64::INFINITY {
                *self.endings.entry((family, RADIUS_INFINITE)).or_default() += 1;
            }
            *self.passes.entry((family, figures.passes)).or_default() += 1;
            if arguments.adaptive {
                *self.norms.entry((family, figures.stages)).or_default() += 1;
            }
        }
        self.values(family, figures.scaled_radius, figures.norm);
    }

    fn ended(&mut self, pair: &Pair, name: &'static str) {
        let family = pair.record.wholes.family;
        self.count(name);
        if pair.went_over.is_some() {
            return;
        }
        *self.endings.entry((family, name)).or_default() += 1;
        if EARLY.contains(&name) {
            for place in places(&pair.evaluated) {
                *self.early.entry((family, name, place)).or_default() += 1;
            }
        }
    }

    /// The radius and norm of a finished attempt, where they are special.
    fn values(&mut self, family: u64, scaled_radius: f64, norm: f64) {
        if oracle::overflows(family, scaled_radius) {
            self.count(OVERFLOWED);
        }
        match scaled_radius {
            r if r.is_nan() => self.count(RADIUS_NAN),
            0.0 => self.count(RADIUS_ZERO),
            f64::INFINITY => self.count(RADIUS_INFINITE),
            _ => {}
        }
        if !norm.is_finite() {
            self.count("norm not finite");
        } else if is_hot(norm) {
            self.count(NORM_HOT);
        }
    }
}

/// What an ending of an attempt is counted as.
fn named(ending: &Ending) -> Option<&'static str> {
    match ending {
        Ending::Finished(_) => Some("finished attempts"),
        Ending::BadDerivative => Some("ended with 9"),
        Ending::BadCandidate => Some("ended with 10"),
        Ending::TooManyStages => Some(TOO_MANY),
        Ending::Abandoned => Some("abandoned"),
        Ending::Pending => Some("left for a start in the middle"),
        Ending::Ready => None,
    }
}

/// An r for which the Rust gives this count, without a history: the middle of those below the next count.
fn radius_for(family: u64, stages: usize) -> f64 {
    if family == TSRKC2 {
        return oracle::radius_for(stages);
    }
    let first_at_least = |count: usize| {
        let (mut low, mut high) = (0.0, 1.0e6);
        for _ in 0..80 {
            let middle = 0.5 * (low + high);
            if oracle::stages(family, middle) >= count {
                high = middle
            } else {
                low = middle
            }
        }
        high
    };
    let low = if oracle::stages(family, 0.0) >= stages {
        0.0
    } else {
        first_at_least(stages)
    };
    let radius = 0.5 * (low + first_at_least(stages + 1).min(2.0 * low + 10.0));
    assert_eq!(oracle::stages(family, radius), stages);
    radius
}

/// Radii that end the power iteration after just these passes, at the last of them.
pub fn radii_for(passes: usize, last: f64) -> Vec<f64> {
    (1..=passes)
        .map(|pass| match passes - pass {
            0 => last,
            1 if passes < 12 => last,
            left => last * [3.0, 2.0][left % 2],
        })
        .collect()
}

/// The replies with these radii in the passes of the attempt that follows.
pub fn with_radii(replies: Replies, radii: Vec<f64>, pair: &Pair) -> Replies {
    replies.with_radii(
        radii,
        pair.vector(vector::FIRST_DERIVATIVE),
        pair.vector(vector::STATE),
    )
}

/// An attempt that is asked for by its counts.
#[derive(Clone, Copy, Debug)]
pub struct Counted {
    pub family: u64,
    pub stages: usize,
    /// One pass means a radius of 0, and so the least count of stages.
    pub passes: usize,
    pub n: usize,
}

impl Display for Counted {
    fn fmt(&self, formatter: &mut Formatter<'_>) -> std::fmt::Result {
        let Self {
            family,
            stages,
            passes,
            n,
        } = *self;
        let name = oracle::name(family);
        write!(formatter, "{name} s {stages} k {passes} n {n}")
    }
}

impl Counted {
    /// A seed of its own for each, so that no two share state, time and step.
    fn seed(&self, seed: u64) -> u64 {
        let counts = self.stages << 16 | self.passes << 10 | self.n;
        mixed(seed ^ mixed(self.family << 32 | counts as u64))
    }

    /// Starts at a random state, and gives the replies to an attempt with these counts. The model's rates go with the step: in
    /// its direction every entry decays, at no more than half of the radius, where the stages are stable.
    fn start(
        &self,
        pair: &mut Pair,
        random: &mut Random,
        arguments: &Arguments,
    ) -> Result<Replies, String> {
        let radius = radius_for(self.family, self.stages) / (1.2 * arguments.step.abs());
        let rate = 0.5 * radius * arguments.step.signum();
        let model = Model::Diagonal {
            least: 0.1 * rate,
            most: rate,
        };
        let replies = Replies::of(&model);
        let state: Vec<f64> = (0..self.n).map(|_| random.between(-1.0, 1.0)).collect();
        pair.start(self.family, &state, arguments.time, &replies, None)?;
        let radii = match self.passes {
            1 => vec![0.0],
            passes => radii_for(passes, radius),
        };
        Ok(with_radii(replies, radii, pair))
    }

    /// Runs it, with a bad reply or a stop if there is one.
    fn run(
        &self,
        seed: u64,
        bad: Option<Bad>,
        stop: Option<(usize, Stop)>,
        coverage: &mut Coverage,
    ) -> Result<Ending, String> {
        let random = &mut Random::new(self.seed(seed));
        let room = vec![0.0; ROOM * self.n];
        let mut pair = Pair::new(self.n, room, true, random.draw());
        pair.write_down(&mut coverage.trace);
        let arguments = Arguments {
            time: random.between(-2.0, 2.0),
            step: random.sign() * random.magnitude(-2.0, 0.0),
            absolute_tolerance: 1e-6,
            relative_tolerance: 1e-3,
            adaptive: true,
        };
        let replies = self.start(&mut pair, random, &arguments)?;
        let ending = pair.attempt(arguments, &Replies { bad, ..replies }, stop)?;
        coverage.attempt(&pair, &arguments, &ending);
        coverage.scenario(pair);
        Ok(ending)
    }
}

/// One attempt with given counts, from a random state.
pub fn counted_attempt(
    counted: &Counted,
    seed: u64,
    coverage: &mut Coverage,
) -> Result<(), String> {
    let ending = counted
        .run(seed, None, None, coverage)
        .map_err(|difference| format!("{counted}: {difference}"))?;
    let meant = (counted.stages as u64, counted.passes as u64);
    match ending {
        Ending::Finished(figures) if (figures.stages, figures.passes) == meant => Ok(()),
        other => Err(format!("{counted}: got {other:?}")),
    }
}

/// Such an attempt ended early, in every way at its last pass, its last stage and its candidate.
pub fn early_attempts(counted: &Counted, seed: u64, coverage: &mut Coverage) -> Result<(), String> {
    let last = counted.passes + counted.stages - 1;
    for place in [counted.passes - 1, last - 1, last] {
        let ways = [
            (Ending::BadDerivative, Some((place, 0, f64::NAN)), None),
            (Ending::Abandoned, None, Some((place, Stop::Abandon))),
            (Ending::Pending, None, Some((place, Stop::Leave))),
        ];
        for (meant, bad, stop) in ways {
            let ending = counted
                .run(seed, bad, stop, coverage)
                .map_err(|difference| format!("{counted}, {meant:?} at {place}: {difference}"))?;
            ended(ending, meant).map_err(|other| format!("{counted} at {place}: {other}"))?;
        }
    }
    Ok(())
}

/// That a run of evaluations ended as it was meant to.
pub fn ended(ending: Ending, meant: Ending) -> Result<(), String> {
    if ending == meant {
        return Ok(());
    }
    Err(format!("got {ending:?}, and not {meant:?}"))
}

fn model(random: &mut Random, wild: bool) -> Model {
    let rate = random.magnitude(-2.0, 5.0);
    match random.below(if wild { 8 } else { 5 }) {
        0 => Model::Diagonal {
            least: random.between(0.0, 2.0),
            most: rate,
        },
        1 => Model::Rod {
            rate,
            source: random.between(-1.0, 1.0),
        },
        2 => Model::Logistic {
            rate: random.sign() * rate,
        },
        3 => Model::Forced { rate },
        4 => Model::Constant {
            value: random.sign() * rate,
        },
        5 => Model::Cubic {
            rate: random.sign() * random.magnitude(-3.0, 60.0),
        },
        _ => {
            let least = random.between(-1080.0, 1000.0);
            let most = if random.chance(50) {
                least + 8.0
            } else {
                1020.0
            };
            Model::Noise {
                seed: random.draw(),
                least,
                most,
                sign: None,
            }
        }
    }
}

fn state(random: &mut Random, n: usize, coverage: &mut Coverage, wild: bool) -> Vec<f64> {
    let kind = if wild { random.below(6) } else { 0 };
    let scale = match kind {
        1 => {
            coverage.count("huge states");
            random.magnitude(150.0, 308.0)
        }
        2 => {
            coverage.count("subnormal states");
            random.magnitude(-322.0, -308.0)
        }
        _ => 1.0,
    };
    (0..n)
        .map(|_| match kind {
            3 => random.finite_double(),
            4 => 0.0,
            _ => random.between(-1.0, 1.0) * scale,
        })
        .collect()
}

fn step(random: &mut Random, wild: bool) -> f64 {
    let step = match random.below(if wild { 12 } else { 8 }) {
        8 => random.magnitude(-320.0, -100.0),
        9 => random.magnitude(10.0, 308.0),
        10 => f64::MIN_POSITIVE * random.between(0.01, 4.0),
        _ => random.magnitude(-7.0, 1.0),
    };
    random.sign()
        * if step == 0.0 || step.is_infinite() {
            1.0
        } else {
            step
        }
}

fn time(random: &mut Random, wild: bool) -> f64 {
    if wild && random.chance(10) {
        random.finite_double()
    } else {
        random.between(-10.0, 10.0)
    }
}

fn tolerance(random: &mut Random, wild: bool) -> f64 {
    let low = if wild && random.chance(10) {
        -323.0
    } else {
        -9.0
    };
    let value = random.magnitude(low, -1.0);
    if value == 0.0 { 5e-324 } else { value }
}

/// Now and then something else than a reply, at a place that is drawn.
fn stop(random: &mut Random, place: impl Fn(&mut Random) -> usize) -> Option<(usize, Stop)> {
    random.chance(4).then(|| {
        let stop = if random.chance(50) {
            Stop::Abandon
        } else {
            Stop::Leave
        };
        (place(random), stop)
    })
}

/// Now and then a bad reply, at a place that is drawn.
fn bad(random: &mut Random, place: impl Fn(&mut Random) -> usize) -> Option<Bad> {
    random.chance(4).then(|| {
        let value = random.pick(&[f64::NAN, f64::INFINITY, f64::NEG_INFINITY]);
        (place(random), random.below(512), value)
    })
}

/// A place for the one evaluation of a start or callback: it, or one that is not reached.
fn at_once(random: &mut Random) -> usize {
    random.below(3)
}

/// The reply of a start or callback.
fn spoiled(random: &mut Random, model: &Model) -> Replies {
    Replies {
        bad: bad(random, at_once),
        ..Replies::of(model)
    }
}

/// How many evaluations of an attempt are its first: the passes and some stages.
const FIRST: usize = 20;

/// A place in an attempt: among the first evaluations, anywhere, or one of the last two, which are a stage and the candidate
/// if it comes so far.
fn within(random: &mut Random, evaluations: impl Fn() -> usize) -> usize {
    match random.below(4) {
        0 | 1 => random.below(FIRST),
        2 => random.below(evaluations()),
        _ => evaluations().saturating_sub(1 + random.below(2)),
    }
}

/// A random session: starts, and attempts each rejected, accepted, or ended by a callback. Wild ones hold doubles of every
/// kind and models that overflow.
pub fn session(
    seed: u64,
    largest: usize,
    families: &[u64],
    coverage: &mut Coverage,
) -> Result<(), String> {
    let random = &mut Random::new(seed);
    let wild = random.chance(60);
    let dimensions: Vec<usize> = DIMENSIONS.into_iter().filter(|n| *n <= largest).collect();
    let n = random.pick(&dimensions);
    let garbage = random.chance(40);
    let room: Vec<f64> = (0..ROOM * n)
        .map(|_| if garbage { random.any_double() } else { 0.0 })
        .collect();
    let strict = !garbage || random.chance(50);
    coverage.count(if garbage {
        "areas of any doubles"
    } else {
        "areas of zeros"
    });
    let mut pair = Pair::new(n, room, strict, random.draw());
    pair.write_down(&mut coverage.trace);
    let result = starts(&mut pair, random, wild, families, coverage);
    coverage.scenario(pair);
    result
}

fn starts(
    pair: &mut Pair,
    random: &mut Random,
    wild: bool,
    families: &[u64],
    coverage: &mut Coverage,
) -> Result<(), String> {
    for _ in 0..random.below(3) + 1 {
        let family = random.pick(families);
        let model = model(random, wild);
        let state = state(random, pair.n(), coverage, wild);
        let replies = spoiled(random, &model);
        let (time, stop) = (time(random, wild), stop(random, at_once));
        coverage.count("starts");
        if pair.start(family, &state, time, &replies, stop)? != Ending::Ready {
            coverage.count("starts not brought to an end");
            continue;
        }
        attempts(pair, random, wild, &model, coverage)?;
    }
    Ok(())
}

/// Attempts until one is not finished.
fn attempts(
    pair: &mut Pair,
    random: &mut Random,
    wild: bool,
    model: &Model,
    coverage: &mut Coverage,
) -> Result<(), String> {
    for _ in 0..random.below(10) + 1 {
        let arguments = arguments(random, wild);
        let replies = replies(pair, random, wild, model);
        let place = |random: &mut Random| within(random, || pair.evaluations(arguments, &replies));
        let (bad, stop) = (bad(random, place), stop(random, place));
        let ending = pair.attempt(arguments, &Replies { bad, ..replies }, stop)?;
        coverage.attempt(pair, &arguments, &ending);
        if !matches!(ending, Ending::Finished(_)) {
            return Ok(());
        }
        pair.something_turned_away()?;
        if afterwards(pair, random, wild, model, coverage)? != Ending::Ready {
            return Ok(());
        }
    }
    Ok(())
}

fn arguments(random: &mut Random, wild: bool) -> Arguments {
    Arguments {
        time: time(random, wild),
        step: step(random, wild),
        absolute_tolerance: tolerance(random, wild),
        relative_tolerance: tolerance(random, wild),
        adaptive: random.chance(85),
    }
}

/// The replies of an attempt: by the model, now and then with radii.
fn replies(pair: &Pair, random: &mut Random, wild: bool, model: &Model) -> Replies {
    let replies = Replies::of(model);
    if !random.chance(20) {
        return replies;
    }
    let most = if wild && random.chance(30) {
        300.0
    } else {
        6.0
    };
    let radius = random.magnitude(-1.0, most);
    let radii = radii_for(random.below(11) + 2, radius);
    with_radii(replies, radii, pair)
}

/// What follows a finished attempt: it is rejected, accepted, or ended by a callback.
fn afterwards(
    pair: &mut Pair,
    random: &mut Random,
    wild: bool,
    model: &Model,
    coverage: &mut Coverage,
) -> Result<Ending, String> {
    match random.below(10) {
        0..4 => coverage.count("rejected attempts"),
        4..8 => {
            coverage.count("accepted attempts");
            pair.accept()?;
        }
        _ => {
            let state = state(random, pair.n(), coverage, wild);
            let replies = spoiled(random, model);
            coverage.count("callbacks");
            let (time, stop) = (time(random, wild), stop(random, at_once));
            let ending = pair.accept_with_callback(&state, time, &replies, stop)?;
            if ending != Ending::Ready {
                coverage.count("callbacks not brought to an end");
            }
            return Ok(ending);
        }
    }
    Ok(Ending::Ready)
}
