//! differential quick | long [seed]: compares the tables and the stage counts, runs the scenarios and the random calls, and
//! prints what was reached.
//! differential scenario SEED LARGEST, differential call SEED: a random one again, as a difference names it; LARGEST is the
//! largest n that the scenario was drawn with. Of a scenario every finished attempt is told.
use differential::build::{self, Departure};
use differential::history::{self, Far, Limit, Sequence};
use differential::hot::{self, Hot, Keeping, Overflowing};
use differential::other::Cause;
use differential::pair::SHORT;
use differential::random::mixed;
use differential::random_calls::{self, Answers};
use differential::scenarios::{
    self, BY_THE_DEFINITION, Counted, Coverage, DIMENSIONS, EARLY, NORM_HOT, OVERFLOWED,
    WITH_THE_RUST, endings_of,
};
use differential::stage_counts;
use oracle::TSRKC2;
use oracle::thresholds::{self, Disagreement, UNITS};
use std::ops::RangeInclusive;
use std::process::ExitCode;

/// How much is run.
struct Size {
    /// Dimensions that the counts of stages are run in.
    dimensions: &'static [usize],
    /// Every dimension, and every count of passes up to SHORT stages; else one count of passes, and one dimension above SHORT.
    whole: bool,
    attempts: u64,
    calls: u64,
}

const QUICK: Size = Size {
    dimensions: &[1, 8],
    whole: false,
    attempts: 24_000,
    calls: 200_000,
};
const LONG: Size = Size {
    dimensions: &DIMENSIONS,
    whole: true,
    attempts: 240_000,
    calls: 5_000_000,
};

impl Size {
    /// Whether a count is run in the dimension at this place.
    fn runs(&self, stages: usize, at: usize) -> bool {
        self.whole || stages <= SHORT || stages % self.dimensions.len() == at
    }

    /// The counts of passes that a count of stages is run with: one where attempts take long.
    fn passes(&self, stages: usize, n: usize) -> RangeInclusive<usize> {
        if self.whole && n < 512 && stages <= SHORT {
            return 2..=12;
        }
        let one = 2 + stages % 11;
        one..=one
    }
}

fn main() -> ExitCode {
    let words: Vec<String> = std::env::args().skip(1).collect();
    let words: Vec<&str> = words.iter().map(String::as_str).collect();
    let number = |word: &str| -> u64 { word.parse().expect("a number") };
    println!("{}", oracle::build());
    let result = match words[..] {
        ["quick"] => all(&QUICK, 1),
        ["quick", seed] => all(&QUICK, number(seed)),
        ["long"] => all(&LONG, 1),
        ["long", seed] => all(&LONG, number(seed)),
        ["scenario", seed, largest] => scenario(number(seed), number(largest) as usize),
        ["call", seed] => random_calls::call(number(seed), &mut Answers::default()),
        _ => Err("differential quick | long [seed], scenario SEED LARGEST, call SEED".to_string()),
    };
    match result {
        Ok(()) => ExitCode::SUCCESS,
        Err(difference) => {
            println!("{difference}");
            ExitCode::FAILURE
        }
    }
}

/// A random session again, of the families that sessions are drawn with.
fn scenario(seed: u64, largest: usize) -> Result<(), String> {
    let mut coverage = Coverage {
        told: true,
        ..Coverage::default()
    };
    let families = as_stored(&build::departures());
    scenarios::session(seed, largest, &families, &mut coverage)
}

fn all(size: &Size, seed: u64) -> Result<(), String> {
    let departures = tables()?;
    stage_counts::compare(&departures)?;
    run_scenarios(size, seed, &departures)?;
    run_calls(size, seed)?;
    println!("0 differences");
    Ok(())
}

/// The build, its tables against the engine's, and RKMC2's counts near its thresholds. With the compiler and the C library of
/// the named build nothing departs, or what is known to depart without fused variants: anything else is a fault. With others
/// what departs is left out.
fn tables() -> Result<Vec<Departure>, String> {
    let lines = build::lines();
    for line in &lines {
        println!("{line}");
    }
    let departures = build::departures();
    for found in &departures {
        println!("In the Rust {found}");
    }
    if departures == build::UNFUSED {
        println!(
            "The C library takes no fused variants of exp and expm1, of which sinh and cosh are made, nor of pow. It needs \
             FMA and AVX2 for them: the processor lacks one, or the C library is told to do without."
        );
    } else if build::as_named(&lines[..2]) && !departures.is_empty() {
        let fault = "compiler and C library are those of the named build, and this is not known to depart there";
        return Err(fault.to_string());
    }
    if !build::as_named(&lines) || !departures.is_empty() {
        println!(
            "This run does not count as one on the named build ({}).",
            build::NAMED.join(", ")
        );
    }
    near_thresholds(&departures)?;
    Ok(departures)
}

/// RKMC2's counts by the stored thresholds beside the Rust's: they disagree where a threshold departs, and nowhere else.
fn near_thresholds(departures: &[Departure]) -> Result<(), String> {
    let (compared, disagreements) = thresholds::compared(&build::stored_thresholds());
    println!(
        "RKMC2's counts: {compared} doubles within {UNITS} units of a threshold, {} disagree",
        disagreements.len()
    );
    for found in &disagreements {
        println!("{found}");
    }
    let known = build::disagreements(departures);
    if disagreements == known {
        return Ok(());
    }
    let known: Vec<String> = known.iter().map(Disagreement::to_string).collect();
    Err(format!("known to disagree: [{}]", known.join("; ")))
}

/// Every permitted count, and random sessions of the families whose tables are those of the named build: a session may come
/// to any count.
fn run_scenarios(size: &Size, seed: u64, departures: &[Departure]) -> Result<(), String> {
    let mut coverage = Coverage::default();
    every_count(size, seed, departures, &mut coverage)?;
    every_early_ending(seed, departures, &mut coverage)?;
    let families = as_stored(departures);
    every_hot_run(seed, &families, &mut coverage)?;
    every_unbounded_radius(size, seed, &families, &mut coverage)?;
    every_overflow(seed, &families, &mut coverage)?;
    if families.contains(&TSRKC2) {
        every_history(size, seed, &mut coverage)?;
    }
    let mut index = 0;
    while coverage.attempts < size.attempts {
        let seed = mixed(seed ^ mixed(index));
        let largest = if index % 16 == 0 { 512 } else { 64 };
        scenarios::session(seed, largest, &families, &mut coverage)
            .map_err(|difference| format!("scenario {seed} {largest}: {difference}"))?;
        index += 1;
    }
    report(&coverage);
    reached(coverage.missing(&families))
}

/// The families whose tables are those of the named build.
fn as_stored(departures: &[Departure]) -> Vec<u64> {
    let stored = |family: &u64| departures.iter().all(|found| found.family != *family);
    oracle::FAMILIES.into_iter().filter(stored).collect()
}

fn run_calls(size: &Size, seed: u64) -> Result<(), String> {
    let mut answers = Answers::default();
    for index in 0..size.calls {
        let seed = mixed(seed ^ mixed(index ^ (1 << 63)));
        random_calls::call(seed, &mut answers)
            .map_err(|difference| format!("call {seed}: {difference}"))?;
    }
    report_calls(&answers);
    reached(answers.missing())
}

fn reached(missing: Vec<String>) -> Result<(), String> {
    if missing.is_empty() {
        return Ok(());
    }
    Err(format!("not reached: {}", missing.join(", ")))
}

/// Whether an attempt comes to a count whose table's entry departs.
fn departs(departures: &[Departure], counted: &Counted) -> bool {
    let here = (counted.family, counted.stages);
    let mut found = departures.iter();
    found.any(|found| (found.family, found.count) == here)
}

/// Every permitted count of stages of every family, and one pass, with the least.
fn every_count(
    size: &Size,
    seed: u64,
    departures: &[Departure],
    coverage: &mut Coverage,
) -> Result<(), String> {
    for (at, &n) in size.dimensions.iter().enumerate() {
        for family in oracle::FAMILIES {
            let (least, _) = oracle::ends(family);
            let attempts = oracle::permitted(family)
                .filter(|stages| size.runs(*stages, at))
                .flat_map(|stages| size.passes(stages, n).map(move |passes| (stages, passes)))
                .chain([(least, 1)]);
            for (stages, passes) in attempts {
                let counted = Counted {
                    family,
                    stages,
                    passes,
                    n,
                };
                if !departs(departures, &counted) {
                    scenarios::counted_attempt(&counted, seed, coverage)?;
                }
            }
        }
    }
    Ok(())
}

/// Every early ending of every family, with its largest count.
fn every_early_ending(
    seed: u64,
    departures: &[Departure],
    coverage: &mut Coverage,
) -> Result<(), String> {
    for family in oracle::FAMILIES {
        let (_, stages) = oracle::ends(family);
        let counted = Counted {
            family,
            stages,
            passes: 12,
            n: 3,
        };
        if !departs(departures, &counted) {
            scenarios::early_attempts(&counted, seed, coverage)?;
        }
    }
    Ok(())
}

/// Failed sensors in every family.
fn every_hot_run(seed: u64, families: &[u64], coverage: &mut Coverage) -> Result<(), String> {
    let mut runs = families.iter().flat_map(|family| Hot::all_of(*family));
    runs.try_for_each(|hot| hot.run(seed, coverage))
}

/// Radii that are no finite numbers, in every family.
fn every_unbounded_radius(
    size: &Size,
    seed: u64,
    families: &[u64],
    coverage: &mut Coverage,
) -> Result<(), String> {
    let of_family = |family: &u64| Keeping::all_of(*family, size.dimensions);
    let mut runs = families.iter().flat_map(of_family);
    runs.try_for_each(|keeping| keeping.run(seed, coverage))
}

/// In every family an r at which RKC's count overflows in the Rust, finite and infinite, and a candidate that overflows while
/// the Rust decides.
fn every_overflow(seed: u64, families: &[u64], coverage: &mut Coverage) -> Result<(), String> {
    for &family in families {
        for step in Overflowing::STEPS {
            Overflowing { family, step, n: 3 }.run(seed, coverage)?;
        }
        hot::overflowing_candidate(family, seed, coverage)?;
    }
    Ok(())
}

/// TSRKC2's histories: every count with one, in one dimension each, sequences, ends of counts, and steps far apart.
fn every_history(size: &Size, seed: u64, coverage: &mut Coverage) -> Result<(), String> {
    for stages in oracle::permitted(TSRKC2) {
        let n = size.dimensions[stages % size.dimensions.len()];
        history::Counted { stages, n }.run(seed, coverage)?;
    }
    for n in [1, 3, 8] {
        Sequence::all(n).try_for_each(|sequence| sequence.run(seed, coverage))?;
    }
    Limit::all().try_for_each(|limit| limit.run(seed, coverage))?;
    Far::all().try_for_each(|far| far.run(seed, coverage))?;
    history::bad_before_many(seed, coverage)?;
    hot::infinite_by_definition(seed, coverage)
}

fn report(coverage: &Coverage) {
    println!(
        "{} scenarios, {} attempts, {} evaluations; {} calls between them turned away",
        coverage.scenarios, coverage.attempts, coverage.evaluations, coverage.turned_away
    );
    report_figures(coverage);
    for family in oracle::FAMILIES {
        report_family(coverage, family);
    }
    report_histories(coverage);
    for (n, count) in &coverage.dimensions {
        println!("n = {n}: {count} attempts");
    }
    for (kind, count) in &coverage.kinds {
        println!("{kind}: {count}");
    }
}

/// Finished attempts whose norm, s, k and r were compared, and what their records kept the three through.
fn report_figures(coverage: &Coverage) {
    println!("norm, s, k and r compared in {}", coverage.finished());
    report_compared(coverage);
    let kept = coverage
        .kept
        .iter()
        .map(|((name, number), count)| match number {
            0 => format!("{count} {name}"),
            number => format!("{count} {name} turned away with {number}"),
        });
    let kept: Vec<String> = kept.collect();
    println!("s, k and r kept through: {}", kept.join(", "));
}

/// What the attempts were compared with, and the runs that went over from the Rust to the definition, by their causes.
fn report_compared(coverage: &Coverage) {
    let counted = |kind| coverage.counted(kind);
    println!(
        "attempts compared with the Rust {}, with the definition alone {}",
        counted(WITH_THE_RUST),
        counted(BY_THE_DEFINITION)
    );
    for cause in Cause::ALL {
        println!("{} runs {}", counted(cause.name()), cause.name());
    }
    println!(
        "{} finished attempts with a {NORM_HOT}, {} with {OVERFLOWED}",
        counted(NORM_HOT),
        counted(OVERFLOWED)
    );
}

fn report_family(coverage: &Coverage, family: u64) {
    let name = oracle::name(family);
    let norms = coverage.norms.keys().filter(|key| key.0 == family).count();
    let passes = coverage.passes.keys().filter(|key| key.0 == family).count();
    let permitted = oracle::permitted(family).count();
    let endings = coverage.endings.keys();
    let wanted: Vec<&str> = endings_of(family).collect();
    let endings = endings
        .filter(|(of, ending)| *of == family && wanted.contains(ending))
        .count();
    println!(
        "{name}, compared with the Rust: {norms} of {permitted} stage counts with their norms, {passes} of 12 pass counts, {endings} of {} endings",
        wanted.len()
    );
    for ending in EARLY {
        let early = coverage.early.iter();
        let places = early
            .filter(|((of, how, _), _)| (*of, *how) == (family, ending))
            .map(|((.., place), count)| format!("{count} {place}"));
        let places: Vec<String> = places.collect();
        println!("{name}, {ending}: {}", places.join(", "));
    }
}

/// TSRKC2's attempts by q and ending, and the counts that were finished with a history.
fn report_histories(coverage: &Coverage) {
    println!(
        "TSRKC2 with a history, compared with the Rust: {} of {} stage counts with their norms",
        coverage.with_history.len(),
        oracle::permitted(TSRKC2).count()
    );
    for ((kind, ending), count) in &coverage.quotients {
        println!("TSRKC2, {kind}, {ending}: {count}");
    }
}

fn report_calls(answers: &Answers) {
    println!("{} random calls", answers.calls);
    for (norm, count) in &answers.hot {
        println!("a hot norm of the {norm}: {count}");
    }
    for ((name, answer), count) in &answers.given {
        match answer {
            0 => println!("{name}, not turned away: {count}"),
            number => println!("{name}, turned away with {number}: {count}"),
        }
    }
}
