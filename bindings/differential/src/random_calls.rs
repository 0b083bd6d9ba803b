//! Calls with any record, lengths, counters and doubles, each held against document 01's table.
use crate::hot::is_hot;
use crate::pair::{answer_number, make};
use crate::random::Random;
use crate::refusals::{
    Arguments, Call, Given, Held, Start, check, good_pass, name, numbers, permitted,
};
use crate::stated::overflows;
use oracle::TSRKC2;
use stabilized::calls::{
    Counters, Doubles, Record, VECTORS, Wholes, code, phase, vector, vectors_of,
};
use std::collections::{BTreeMap, BTreeSet};

/// How often each call gave each answer: 0 for a call that was not turned away, else the number.
#[derive(Default)]
pub struct Answers {
    pub calls: u64,
    pub given: BTreeMap<(&'static str, u64), u64>,
    /// The numbers that each call can answer.
    pub lists: BTreeMap<&'static str, &'static [u64]>,
    /// Families that were turned away with 1.
    families: BTreeSet<u64>,
    /// Family and stage count of records in the candidate's phase whose reply was turned away with 4 for that count.
    stages: BTreeSet<(u64, u64)>,
    /// Replies and abandons in that phase with a permitted stage count, by name, the record's pass, and whether they were
    /// turned away with 4, which is then for the pass alone.
    passes: BTreeSet<(&'static str, u64, bool)>,
    /// Calls with one of [`HOT_NORMS`].
    pub hot: BTreeMap<&'static str, u64>,
}

/// The norms that are of finite entries whose sum of squares overflows, in some calls of every run: an attempt has the
/// state's, a reply to a pass the direction's, and a reply to the candidate the error's.
const HOT_NORMS: [&str; 3] = ["state", "direction", "error"];

/// The hot norm of a call that was taken, if it has one, by the area that it left.
fn hot_norm(call: &Call, given: &Given, before: &Record) -> Option<&'static str> {
    let answer = &given.outcome.answer;
    let n = before.wholes.n as usize;
    let [state, direction, error] = HOT_NORMS;
    let overflows = |vector: usize| overflows(&given.area[vector * n..(vector + 1) * n]);
    match (call, before.wholes.phase, answer.code) {
        (Call::Attempt(_), _, code::EVALUATE) => overflows(vector::STATE).then_some(state),
        (Call::Reply { .. }, phase::PASS, code::EVALUATE) => {
            overflows(vector::EIGENVECTOR).then_some(direction)
        }
        (Call::Reply { .. }, _, code::FINISHED) => is_hot(answer.norm).then_some(error),
        _ => None,
    }
}

/// The passes that a record in the candidate's phase has in every run.
const PASSES: [u64; 5] = [0, 1, 12, 13, u64::MAX];

/// One less than the least permitted count of stages, and one more than the largest.
fn outside(family: u64) -> [u64; 2] {
    let (least, largest) = oracle::ends(family);
    [least as u64 - 1, largest as u64 + 1]
}

impl Answers {
    /// The numbers of the lists that no call gave; the families and counts next to the permitted ones that none had; the
    /// passes of [`PASSES`] that no reply or no abandon had; and the norms of [`HOT_NORMS`] that none had.
    pub fn missing(&self) -> Vec<String> {
        let all = self.lists.iter();
        let numbers = all
            .flat_map(|(name, numbers)| numbers.iter().map(move |number| (*name, *number)))
            .filter(|answer| !self.given.contains_key(answer))
            .map(|(name, number)| format!("{name}, turned away with {number}"));
        let families = [0, oracle::FAMILIES.len() as u64 + 1]
            .into_iter()
            .filter(|family| !self.families.contains(family))
            .map(|family| format!("family {family}, turned away with 1"));
        let counts = oracle::FAMILIES
            .into_iter()
            .flat_map(|family| outside(family).map(|stages| (family, stages)))
            .filter(|record| !self.stages.contains(record))
            .map(|(family, stages)| {
                format!("family {family} with {stages} stages, turned away with 4")
            });
        let passes = ["reply", "abandon"]
            .into_iter()
            .flat_map(|name| PASSES.map(|pass| (name, pass, !good_pass(pass))))
            .filter(|record| !self.passes.contains(record))
            .map(|(name, pass, bad)| {
                format!("{name} in the candidate's phase with pass {pass}, turned away: {bad}")
            });
        let hot = HOT_NORMS
            .into_iter()
            .filter(|norm| !self.hot.contains_key(norm))
            .map(|norm| format!("a hot norm of the {norm}"));
        numbers
            .chain(families)
            .chain(counts)
            .chain(passes)
            .chain(hot)
            .collect()
    }

    /// Counts a call by its answer.
    fn count(&mut self, call: &Call, record: &Record, given: &Given) {
        let (name, number) = (name(call), answer_number(&given.outcome.answer));
        self.calls += 1;
        if let Some(norm) = hot_norm(call, given, record) {
            *self.hot.entry(norm).or_default() += 1;
        }
        *self.given.entry((name, number)).or_default() += 1;
        self.lists.insert(name, numbers(call));
        match (call, number) {
            (Call::Start(start), 1) => {
                self.families.insert(start.family);
            }
            (Call::Reply { .. } | Call::Abandon, 0 | 4)
                if record.wholes.phase == phase::CANDIDATE =>
            {
                self.count_candidate(name, record, number == 4);
            }
            _ => {}
        }
    }

    /// A reply or abandon in the candidate's phase: counted only if at most one of the pass and the count of stages is bad.
    fn count_candidate(&mut self, name: &'static str, record: &Record, turned_away: bool) {
        let kept = record.wholes;
        if permitted(kept.family, kept.stages) {
            self.passes.insert((name, kept.pass, turned_away));
        } else if good_pass(kept.pass) && turned_away {
            self.stages.insert((kept.family, kept.stages));
        }
    }
}

/// `usual`, and now and then anything.
fn number(random: &mut Random, usual: u64, about: u64) -> u64 {
    match random.below(40) {
        0 => random.draw(),
        1 => random.pick(&[0, u64::MAX, 1 << 63]),
        2 | 3 => random.draw() % about,
        _ => usual,
    }
}

/// Ordinary doubles; one time in four any doubles, and now and then about half of them hot.
fn doubles(random: &mut Random, length: usize) -> Vec<f64> {
    let kind = random.below(20);
    let mut double = || match kind {
        0..5 => random.any_double(),
        5 if random.chance(50) => random.sign() * random.magnitude(155.0, 305.0),
        _ => random.between(-2.0, 2.0),
    };
    (0..length).map(|_| double()).collect()
}

fn double(random: &mut Random) -> f64 {
    if random.chance(30) {
        random.any_double()
    } else {
        random.magnitude(-4.0, 1.0)
    }
}

fn length(random: &mut Random, usual: usize) -> usize {
    match random.below(40) {
        0 => 0,
        1 => usual + 1,
        2 => usual.saturating_sub(1),
        3 => random.below(64),
        _ => usual,
    }
}

/// The length of a family's area, and now and then that of the other size, or another.
fn area_length(random: &mut Random, family: u64, n: usize) -> usize {
    if random.chance(4) {
        return random.pick(&[VECTORS, vectors_of(TSRKC2)]) * n;
    }
    length(random, vectors_of(family) * n)
}

/// A count of stages: one that is permitted or a little above, or one next to the permitted ones.
fn stages(random: &mut Random, family: u64) -> u64 {
    let next = outside(family);
    if random.chance(10) {
        random.pick(&next)
    } else {
        random.draw() % (next[1] + 9)
    }
}

/// A pass: below 15, next to the permitted ones or the largest number, and now and then anything.
fn pass(random: &mut Random) -> u64 {
    if random.chance(20) {
        random.pick(&PASSES)
    } else {
        usually_below(random, 15, 20)
    }
}

fn record(random: &mut Random, family: u64, n: u64) -> Record {
    let stages = stages(random, family);
    let stage = random.draw() % (stages + 3);
    let stage = if random.chance(30) { stages } else { stage };
    let wholes = Wholes {
        family: number(random, family, 10),
        n: number(random, n, 16),
        phase: usually_below(random, 8, 12),
        adaptive: usually_below(random, 2, 4),
        pass: pass(random),
        stages: number(random, stages, 2000),
        stage: number(random, stage, 2000),
        history: usually_below(random, 2, 4),
    };
    let doubles = record_doubles(random);
    Record { wholes, doubles }
}

/// A number below `limit`, and now and then anything.
fn usually_below(random: &mut Random, limit: u64, about: u64) -> u64 {
    let usual = random.draw() % limit;
    number(random, usual, about)
}

fn record_doubles(random: &mut Random) -> Doubles {
    Doubles {
        time: double(random),
        step: double(random),
        value_previous: double(random),
        absolute_tolerance: double(random),
        first_previous: double(random),
        relative_tolerance: double(random),
        second_previous: double(random),
        perturbation: double(random),
        value_previous_two: double(random),
        previous_radius: double(random),
        first_previous_two: double(random),
        scaled_radius: double(random),
        second_previous_two: double(random),
        b_previous: double(random),
        omega_one: double(random),
        theta_previous: double(random),
        b_previous_two: double(random),
        theta_previous_two: double(random),
        omega_zero: double(random),
        gain: double(random),
        previous_accepted_step: double(random) * random.sign(),
    }
}

fn counters(random: &mut Random) -> Counters {
    let mut counter = || match random.below(10) {
        0 => u64::MAX,
        1 => u64::MAX - 1,
        2 => random.draw(),
        _ => random.draw() % 1000,
    };
    Counters {
        evaluations: counter(),
        finished_attempts: counter(),
    }
}

fn dimension(random: &mut Random) -> usize {
    match random.below(200) {
        0 => random.pick(&[511, 512, 513, 514]),
        1..8 => 0,
        _ => random.below(9),
    }
}

/// A call. A reply comes more often than the others, since it has the most phases.
fn any_call<'a>(random: &mut Random, family: u64, n: u64, brought: &'a [f64]) -> Call<'a> {
    match random.below(8) {
        0 => Call::Start(Start {
            family: number(random, family, 10),
            n: number(random, n, 16),
            state: brought,
            time: double(random),
        }),
        1 => Call::Attempt(any_arguments(random)),
        2 => Call::Accept,
        3 => Call::AcceptWithCallback {
            state: brought,
            time: double(random),
        },
        4 => Call::Abandon,
        _ => Call::Reply {
            derivative: brought,
        },
    }
}

fn any_arguments(random: &mut Random) -> Arguments {
    Arguments {
        time: double(random),
        step: double(random) * random.sign(),
        absolute_tolerance: double(random),
        relative_tolerance: double(random),
        adaptive: random.draw() % 3,
    }
}

/// One random call.
pub fn call(seed: u64, answers: &mut Answers) -> Result<(), String> {
    let random = &mut Random::new(seed);
    let n = dimension(random);
    let family = random.pick(&oracle::FAMILIES);
    let record = record(random, family, n as u64);
    let counters = counters(random);
    let size = area_length(random, family, n);
    let before = doubles(random, size);
    let size = length(random, n);
    let brought = doubles(random, size);
    let call = any_call(random, family, n as u64, &brought);
    let (mut area, mut left) = (before.clone(), counters);
    let outcome = make(record, &mut left, &mut area, &call);
    let held = Held {
        record,
        counters,
        area: &before,
    };
    let given = Given {
        outcome,
        counters: left,
        area: &area,
    };
    answers.count(&call, &record, &given);
    check(&held, &call, &given)
        .map_err(|difference| format!("{difference}\n{call:?}\n{record:?}\n{counters:?}"))
}
