//! Scenarios of TSRKC2's history: every stage count with one; attempts rejected and accepted in turn, in which the step grows,
//! shrinks and changes sign; callbacks, starts and abandons in the middle; the ends of what a count serves, to the double; and
//! steps so far apart that q is 0 or infinite, or the stage rule comes to no number. Here stands also what every run reaches of
//! them.
use crate::hot::{arguments, finished, meant, refused_with_11, run};
use crate::model::{Model, Replies};
use crate::pair::{Ending, Pair, Stop};
use crate::random::{Random, mixed};
use crate::scenarios::{Coverage, TOO_MANY, ended, radii_for, with_radii};
use oracle::thresholds::least;
use oracle::{Arguments, TSRKC2, two_step_stages};
use stabilized::calls::vector;

/// What an attempt is counted as by its history.
const NONE: &str = "no history";
const USUAL: &str = "q from 0.1 to 10";
const LARGE: &str = "q above 10";
const SMALL: &str = "q below 0.1";
const NEGATIVE: &str = "q negative";
const BEYOND: &str = "q from 2^52 on";
const HUGE: &str = "q beyond 1e290";
const TINY: &str = "q within 1e-290";
const ZERO: &str = "q 0 by underflow";
const INFINITE: &str = "q infinite";

fn kind(q: Option<f64>) -> &'static str {
    let Some(q) = q else {
        return NONE;
    };
    match q.abs() {
        f64::INFINITY => INFINITE,
        0.0 => ZERO,
        size if size > 1e290 => HUGE,
        size if size < 1e-290 => TINY,
        _ if q < 0.0 => NEGATIVE,
        size if size >= (1u64 << 52) as f64 => BEYOND,
        size if size > 10.0 => LARGE,
        size if size < 0.1 => SMALL,
        _ => USUAL,
    }
}

const FINISHED: &str = "finished attempts";
const BAD_CANDIDATE: &str = "ended with 10";

/// What every run reaches beside the Rust, by q and ending.
const WANTED: [(&str, &str); 22] = [
    (NONE, FINISHED),
    (NONE, BAD_CANDIDATE),
    (NONE, TOO_MANY),
    (USUAL, FINISHED),
    (USUAL, BAD_CANDIDATE),
    (USUAL, TOO_MANY),
    (USUAL, "abandoned"),
    (USUAL, "left for a start in the middle"),
    (LARGE, FINISHED),
    (LARGE, TOO_MANY),
    (SMALL, FINISHED),
    (SMALL, TOO_MANY),
    (NEGATIVE, FINISHED),
    (NEGATIVE, TOO_MANY),
    (BEYOND, FINISHED),
    (BEYOND, TOO_MANY),
    (HUGE, BAD_CANDIDATE),
    (HUGE, TOO_MANY),
    (TINY, FINISHED),
    (ZERO, FINISHED),
    (INFINITE, BAD_CANDIDATE),
    (INFINITE, TOO_MANY),
];

/// Counts an attempt of TSRKC2 that was compared with the Rust.
pub fn count(coverage: &mut Coverage, pair: &Pair, arguments: &Arguments, ending: &'static str) {
    let at = pair.record.wholes;
    if at.family != TSRKC2 || pair.went_over.is_some() {
        return;
    }
    let counted = coverage.quotients.entry((kind(pair.quotient), ending));
    *counted.or_default() += 1;
    if ending == FINISHED && arguments.adaptive && pair.quotient.is_some() {
        *coverage.with_history.entry(at.stages).or_default() += 1;
    }
}

/// What was not reached: a stage count with a history and its norm, or a kind of q with an ending.
pub fn missing(coverage: &Coverage) -> Vec<String> {
    let counts = oracle::permitted(TSRKC2)
        .filter(|stages| !coverage.with_history.contains_key(&(*stages as u64)))
        .map(|stages| format!("{stages} stages with a history"));
    let kinds = WANTED
        .into_iter()
        .filter(|both| !coverage.quotients.contains_key(both))
        .map(|(kind, ending)| format!("{kind}, {ending}"));
    let all = counts.chain(kinds);
    all.map(|what| format!("TSRKC2, {what}")).collect()
}

/// An r for which the Rust gives this count with this q: between the least for it and the least for the next.
fn radius_with(q: Option<f64>, stages: usize) -> f64 {
    let first = |count: usize| {
        let enough = |r| two_step_stages(r, q).is_none_or(|stages| stages >= count);
        if enough(0.0) {
            return 0.0;
        }
        least(0.0, f64::MAX, enough)
    };
    let radius = 0.5 * (first(stages) + first(stages + 1));
    assert_eq!(two_step_stages(radius, q), Some(stages), "q {q:?}");
    radius
}

fn state(random: &mut Random, n: usize) -> Vec<f64> {
    (0..n).map(|_| random.between(-1.0, 1.0)).collect()
}

/// Entries that decay in the direction of a step, at up to this rate.
fn decay(rate: f64) -> Replies {
    Replies::of(&Model::Diagonal {
        least: 0.1 * rate,
        most: rate,
    })
}

/// The replies of an attempt whose passes find this r.
fn with_scaled_radius(replies: &Replies, passes: usize, r: f64, step: f64, pair: &Pair) -> Replies {
    let radius = r / (1.2 * step.abs());
    with_radii(replies.clone(), radii_for(passes, radius), pair)
}

/// q of a step after what the pair has.
fn quotient(pair: &Pair, step: f64) -> Option<f64> {
    pair.history().map(|kept| kept.step / step)
}

/// A stage count with a history of one accepted step.
#[derive(Clone, Copy, Debug)]
pub struct Counted {
    pub stages: usize,
    pub n: usize,
}

impl Counted {
    fn q(&self, random: &mut Random) -> f64 {
        match self.stages % 5 {
            0 => 1.0,
            1 => random.between(0.5, 2.0),
            2 => random.between(0.01, 0.5),
            3 => random.between(2.0, 20.0),
            _ => -random.between(0.1, 3.0),
        }
    }

    /// In the direction of the second step every entry decays, at no more than half of the radius, where its stages are stable.
    fn follow(
        &self,
        pair: &mut Pair,
        random: &mut Random,
        coverage: &mut Coverage,
    ) -> Result<(), String> {
        let step = random.sign() * random.magnitude(-2.0, 0.0);
        let before = self.q(random) * step;
        let q = Some(before / step);
        let r = radius_with(q, self.stages);
        let replies = decay(0.5 * r / (1.2 * step));
        let started = pair.start(TSRKC2, &state(random, self.n), 0.5, &replies, None)?;
        ended(started, Ending::Ready)?;
        let slow = decay(0.1 / before);
        let first = with_scaled_radius(&slow, 2, 4.0, before, pair);
        finished(pair, arguments(before), &first, coverage)?;
        pair.accept()?;
        let passes = 2 + self.stages % 11;
        let second = with_scaled_radius(&replies, passes, r, step, pair);
        let figures = finished(pair, arguments(step), &second, coverage)?;
        let counts = (figures.stages, figures.passes);
        meant(counts == (self.stages as u64, passes as u64), figures)
    }

    pub fn run(&self, seed: u64, coverage: &mut Coverage) -> Result<(), String> {
        let seed = seed ^ mixed((self.stages << 16 | self.n) as u64);
        run(self, self.n, seed, coverage, |pair, random, coverage| {
            self.follow(pair, random, coverage)
        })
    }
}

/// Histories of every kind, each what is done in turn after a start. A number is the step of a finished attempt, which is
/// rejected unless `accept` or `callback` comes next. What a word with an `!` does cannot be gone on from but by a start: a
/// callback or an attempt with a bad reply, an attempt abandoned or left at a part of its evaluations, one whose last stage
/// overflows, or one that needs too many stages. `rkl2` and `rkmc2` start that family, and accept an attempt.
const SEQUENCES: [(&str, &str); 15] = [
    ("none", "1 0.5 -2"),
    ("one", "1 accept 1"),
    (
        "growing",
        "0.01 accept 0.02 accept 0.05 accept 0.2 accept 1 accept 8",
    ),
    (
        "shrinking",
        "1 accept 0.9 accept 0.3 accept 0.02 accept 0.001",
    ),
    (
        "changing sign",
        "1 accept -1 accept 0.5 accept 1.5 accept -0.25",
    ),
    (
        "by 1e300",
        "1e-153 accept 1e147 accept 1e-153!many start -1e-153 accept 1e147 accept -1e-153!many",
    ),
    (
        "by 1e150",
        "1e-75 accept 1e75 accept 1e-75 accept -1e75 accept 1e75",
    ),
    ("rejected", "1 0.5 accept 2 0.25 accept 0.5 -0.5 1 accept 1"),
    (
        "a callback",
        "1 accept 0.5 callback 0.5 accept 1 callback 2 accept 1",
    ),
    (
        "a bad callback",
        "1 accept 0.5 !callback start 0.5 accept 1",
    ),
    ("a start", "1 accept start 0.5 accept 0.5 start 1 accept 1"),
    (
        "an abandon",
        "1 accept 1!abandon-pass start 2 accept 1!abandon-stage start 1 accept 3!abandon-last start 1",
    ),
    (
        "a start in the middle",
        "1 accept 1!leave-pass start 2 accept 1!leave-stage start 1 accept 3!leave-last start 1",
    ),
    (
        "too many stages",
        "1 accept 0.05!many start 0.05 accept 1!many start 1 accept -1!many start 1 accept 1!many",
    ),
    (
        "other families and refusals",
        "1 accept rkl2 start 1 accept 0.5!many rkmc2 start 2 accept 1!bad start 50 accept 99!over",
    ),
];

/// One of [`SEQUENCES`].
#[derive(Clone, Copy, Debug)]
pub struct Sequence {
    pub name: &'static str,
    script: &'static str,
    pub n: usize,
}

impl Sequence {
    pub fn all(n: usize) -> impl Iterator<Item = Self> {
        SEQUENCES
            .into_iter()
            .map(move |(name, script)| Self { name, script, n })
    }

    /// The steps that are named, by their size.
    fn largest_step(&self) -> f64 {
        let sizes = self.script.split(' ').map(|word| word.split('!').next());
        let sizes = sizes.filter_map(|size| size?.parse::<f64>().ok());
        sizes.fold(0.0, |largest: f64, step| largest.max(step.abs()))
    }

    /// So slow that no step changes the state by much.
    fn replies(&self) -> Replies {
        decay(0.3 / self.largest_step())
    }

    fn start(&self, family: u64, pair: &mut Pair, random: &mut Random) -> Result<(), String> {
        let state = state(random, self.n);
        let started = pair.start(family, &state, 0.5, &self.replies(), None)?;
        ended(started, Ending::Ready)
    }

    fn callback(&self, pair: &mut Pair, random: &mut Random, good: bool) -> Result<(), String> {
        let replies = Replies {
            bad: (!good).then_some((0, 0, f64::NAN)),
            ..self.replies()
        };
        let state = state(random, self.n);
        let ending = pair.accept_with_callback(&state, 0.25, &replies, None)?;
        let wanted = [Ending::BadDerivative, Ending::Ready][usize::from(good)];
        ended(ending, wanted)
    }

    /// An attempt with some stages.
    fn attempt(
        &self,
        pair: &mut Pair,
        random: &mut Random,
        step: f64,
        coverage: &mut Coverage,
    ) -> Result<(), String> {
        let q = quotient(pair, step);
        // where the bracket of the stage rule is 0, every r has the least count
        let bounded = two_step_stages(f64::MAX, q) == Some(2);
        let stages = if bounded { 2 } else { 2 + random.below(12) };
        let r = if bounded {
            50.0
        } else {
            radius_with(q, stages)
        };
        let replies = with_scaled_radius(&self.replies(), 2, r, step, pair);
        let figures = finished(pair, arguments(step), &replies, coverage)?;
        meant(figures.stages == stages as u64, figures)
    }

    /// An attempt that is not finished: its step, and after an `!` why.
    fn broken(
        &self,
        pair: &mut Pair,
        step: f64,
        how: &str,
        coverage: &mut Coverage,
    ) -> Result<(), String> {
        let (passes, stages) = (3, 5);
        let replies = |pair: &Pair, r| with_scaled_radius(&self.replies(), passes, r, step, pair);
        if how == "many" {
            let replies = replies(pair, 2.5e6);
            return refused_with_11(pair, arguments(step), &replies, None, coverage);
        }
        let (what, part) = how.split_once('-').unwrap_or((how, "stage"));
        let place = match part {
            "pass" => passes - 1,
            "stage" => passes + stages - 2,
            _ => passes + stages - 1,
        };
        let bad = |value| Some((place, 0, value));
        let (bad, stop, wanted) = match what {
            "abandon" => (None, Some((place, Stop::Abandon)), Ending::Abandoned),
            "leave" => (None, Some((place, Stop::Leave)), Ending::Pending),
            "over" => (bad(f64::MAX), None, Ending::BadCandidate),
            _ => (bad(f64::INFINITY), None, Ending::BadDerivative),
        };
        let replies = replies(pair, radius_with(quotient(pair, step), stages));
        let ending = pair.attempt(arguments(step), &Replies { bad, ..replies }, stop)?;
        coverage.attempt(pair, &arguments(step), &ending);
        ended(ending, wanted)
    }

    /// A start of another family, with an attempt that is accepted: it keeps no history.
    fn another(
        &self,
        family: u64,
        pair: &mut Pair,
        random: &mut Random,
        coverage: &mut Coverage,
    ) -> Result<(), String> {
        self.start(family, pair, random)?;
        finished(pair, arguments(1.0), &self.replies(), coverage)?;
        pair.accept()?;
        meant(pair.history().is_none(), pair.history())
    }

    fn act(
        &self,
        word: &str,
        pair: &mut Pair,
        random: &mut Random,
        coverage: &mut Coverage,
    ) -> Result<(), String> {
        match word {
            "start" => self.start(TSRKC2, pair, random),
            "accept" => pair.accept(),
            "callback" => self.callback(pair, random, true),
            "!callback" => self.callback(pair, random, false),
            "rkl2" => self.another(3, pair, random, coverage),
            "rkmc2" => self.another(oracle::RKMC2, pair, random, coverage),
            _ => {
                let (step, how) = word.split_once('!').unwrap_or((word, ""));
                let step = step.parse().expect("a step");
                match how {
                    "" => self.attempt(pair, random, step, coverage),
                    _ => self.broken(pair, step, how, coverage),
                }
            }
        }
    }

    fn follow(
        &self,
        pair: &mut Pair,
        random: &mut Random,
        coverage: &mut Coverage,
    ) -> Result<(), String> {
        self.start(TSRKC2, pair, random)?;
        for word in self.script.split(' ') {
            let done = self.act(word, pair, random, coverage);
            done.map_err(|difference| format!("{word}: {difference}"))?;
            pair.something_turned_away()?;
        }
        meant(pair.went_over.is_none(), pair.went_over)
    }

    pub fn run(&self, seed: u64, coverage: &mut Coverage) -> Result<(), String> {
        let seed = seed ^ mixed((self.script.len() << 16 | self.n) as u64);
        run(self, self.n, seed, coverage, |pair, random, coverage| {
            self.follow(pair, random, coverage)
        })
    }
}

/// How an attempt of [`Far`] is meant to end.
#[derive(Clone, Copy, Debug)]
enum End {
    Finished,
    /// Finished with the least count.
    Least,
    /// With 10, and the least count in the record.
    Candidate,
    /// With 11.
    Many,
}

/// r of such an attempt.
#[derive(Clone, Copy, Debug)]
enum R {
    Zero,
    Finite,
    Infinite,
}

/// 2^500: times a radius of 1e160 it is infinite.
const FAR: f64 = f64::from_bits((1023 + 500) << 52);

/// 2^52 + 1, the least q whose bracket in the stage rule is 0.
const EDGE: f64 = ((1u64 << 52) + 1) as f64;

/// Two steps far apart, the first accepted, and r and the ending of the second: every q goes on as IEEE 754 says.
const FARS: [(&str, [f64; 2], R, End); 17] = [
    ("q 2^52", [(EDGE - 1.0) * FAR, FAR], R::Infinite, End::Many),
    ("q 2^52 + 1", [EDGE * FAR, FAR], R::Infinite, End::Least),
    ("q 2^52 + 1", [EDGE * FAR, FAR], R::Finite, End::Least),
    ("q 1e150", [1e75, 1e-75], R::Finite, End::Least),
    ("q 1e300", [1e150, 1e-150], R::Finite, End::Many),
    ("q 1e300", [1e150, 1e-150], R::Zero, End::Candidate),
    ("q -1e300", [-1e150, 1e-150], R::Finite, End::Many),
    ("q -1e300", [-1e150, 1e-150], R::Zero, End::Candidate),
    // the root is of a difference of infinities
    ("q -1e307", [-1e157, 1e-150], R::Zero, End::Candidate),
    ("q infinite", [1e160, 1e-150], R::Finite, End::Candidate),
    ("q infinite", [1e160, 1e-150], R::Zero, End::Candidate),
    ("q minus infinity", [1e160, -1e-150], R::Finite, End::Many),
    (
        "q minus infinity",
        [-1e160, 1e-150],
        R::Zero,
        End::Candidate,
    ),
    ("q 1e-300", [1e-150, 1e150], R::Finite, End::Finished),
    ("q subnormal", [1e-150, 1e170], R::Zero, End::Least),
    ("q 0", [1e-150, 1e180], R::Zero, End::Least),
    ("q -0", [-1e-150, 1e180], R::Zero, End::Least),
];

/// One of [`FARS`], with one temperature.
#[derive(Clone, Copy, Debug)]
pub struct Far {
    pub name: &'static str,
    steps: [f64; 2],
    r: R,
    end: End,
}

impl Far {
    pub fn all() -> impl Iterator<Item = Self> {
        FARS.into_iter().map(|(name, steps, r, end)| Self {
            name,
            steps,
            r,
            end,
        })
    }

    /// The same derivative everywhere, whose product with the step is ordinary.
    fn replies(&self, which: usize) -> Replies {
        let value = 0.3 / self.steps[which];
        Replies::of(&Model::Constant { value })
    }

    /// The first attempt, with one pass and two stages, and its accept. The reply to the candidate is that of the second step,
    /// so that the older state is another than the state and yet the first derivative suits the second step. Its product with
    /// the first step may overflow, so no error is asked for.
    fn first(&self, pair: &mut Pair, coverage: &mut Coverage) -> Result<(), String> {
        let started = pair.start(TSRKC2, &[0.5], 0.5, &self.replies(0), None)?;
        ended(started, Ending::Ready)?;
        let replies = Replies {
            bad: Some((2, 0, 0.3 / self.steps[1])),
            ..with_radii(self.replies(0), vec![0.0], pair)
        };
        let arguments = Arguments {
            adaptive: false,
            ..arguments(self.steps[0])
        };
        let figures = finished(pair, arguments, &replies, coverage)?;
        meant((figures.stages, figures.passes) == (2, 1), figures)?;
        pair.accept()?;
        let [older, state] = [vector::OLDER_STATE, vector::STATE].map(|of| pair.vector(of)[0]);
        meant((older - state).abs() > 0.1, (older, state))
    }

    fn radii(&self) -> Vec<f64> {
        match self.r {
            R::Zero => vec![0.0],
            R::Finite => radii_for(3, 10.0 / self.steps[1].abs()),
            R::Infinite => radii_for(3, 1e160),
        }
    }

    fn second(&self, pair: &mut Pair, coverage: &mut Coverage) -> Result<(), String> {
        let arguments = arguments(self.steps[1]);
        let replies = with_radii(self.replies(1), self.radii(), pair);
        let ending = pair.attempt(arguments, &replies, None)?;
        coverage.attempt(pair, &arguments, &ending);
        let least = pair.record.wholes.stages == 2;
        let as_meant = match self.end {
            End::Finished => count_of(ending).is_some(),
            End::Least => count_of(ending).is_some() && least,
            End::Candidate => ending == Ending::BadCandidate && least,
            End::Many => ending == Ending::TooManyStages,
        };
        meant(as_meant, ending)?;
        meant(pair.went_over.is_none(), pair.went_over)?;
        pair.all_turned_away()
    }

    /// Both attempts, and a start, after which there is no history.
    pub fn run(&self, seed: u64, coverage: &mut Coverage) -> Result<(), String> {
        let seed = seed ^ mixed(self.steps[0].to_bits());
        run(self, 1, seed, coverage, |pair, _, coverage| {
            self.first(pair, coverage)?;
            self.second(pair, coverage)?;
            self.first(pair, coverage)
        })
    }
}

/// The end of what a count serves: at one double of the radius this count, at the next one more, or 11.
#[derive(Clone, Copy, Debug)]
pub struct Limit {
    pub stages: usize,
    pub q: Option<f64>,
}

impl Limit {
    pub fn all() -> impl Iterator<Item = Self> {
        let quotients = [
            None,
            Some(1.0),
            Some(0.5),
            Some(3.0),
            Some(-0.25),
            Some(-2.0),
        ];
        let counts = [2, 3, 10, 200, 201, 999, 1000];
        let both = quotients.into_iter();
        both.flat_map(move |q| counts.map(|stages| Self { stages, q }))
    }

    /// Every derivative is 0 and the step is 1, so that the passes find the very radius, and r is 1.2 times it.
    fn attempt(
        &self,
        pair: &mut Pair,
        radius: f64,
        coverage: &mut Coverage,
    ) -> Result<Ending, String> {
        let still = Replies::of(&Model::Constant { value: 0.0 });
        let started = pair.start(TSRKC2, &[0.5], 0.5, &still, None)?;
        ended(started, Ending::Ready)?;
        if let Some(q) = self.q {
            let replies = with_radii(still.clone(), vec![0.0], pair);
            finished(pair, arguments(q), &replies, coverage)?;
            pair.accept()?;
        }
        let replies = with_radii(still, vec![radius; 2], pair);
        let ending = pair.attempt(arguments(1.0), &replies, None)?;
        coverage.attempt(pair, &arguments(1.0), &ending);
        Ok(ending)
    }

    pub fn run(&self, seed: u64, coverage: &mut Coverage) -> Result<(), String> {
        let count = |radius: f64| two_step_stages(1.2 * radius, self.q).expect("no overflow");
        let beyond = least(0.0, 1e9, |radius| count(radius) > self.stages);
        let seed = seed ^ mixed(self.stages as u64);
        run(self, 1, seed, coverage, |pair, _, coverage| {
            let within = self.attempt(pair, beyond.next_down(), coverage)?;
            meant(count_of(within) == Some(self.stages as u64), within)?;
            let beyond = self.attempt(pair, beyond, coverage)?;
            if self.stages == 1000 {
                return ended(beyond, Ending::TooManyStages);
            }
            meant(count_of(beyond) == Some(self.stages as u64 + 1), beyond)
        })
    }
}

fn count_of(ending: Ending) -> Option<u64> {
    match ending {
        Ending::Finished(figures) => Some(figures.stages),
        _ => None,
    }
}

/// A bad reply at the pass that would end with a need of too many stages: number 9 comes before 11.
pub fn bad_before_many(seed: u64, coverage: &mut Coverage) -> Result<(), String> {
    let scenario = "a bad reply where too many stages are needed";
    run(
        &scenario,
        3,
        mixed(seed),
        coverage,
        |pair, random, coverage| {
            let replies = decay(1.0);
            let started = pair.start(TSRKC2, &state(random, 3), 0.5, &replies, None)?;
            ended(started, Ending::Ready)?;
            let replies = Replies {
                bad: Some((2, 1, f64::NAN)),
                ..with_scaled_radius(&replies, 3, 1e9, 1.0, pair)
            };
            let ending = pair.attempt(arguments(1.0), &replies, None)?;
            coverage.attempt(pair, &arguments(1.0), &ending);
            ended(ending, Ending::BadDerivative)
        },
    )
}
