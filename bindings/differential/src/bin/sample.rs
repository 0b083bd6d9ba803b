//! Writes the traces that the program `replay` is run on, to standard output.
//!
//! Each session is run on both sides at once, and what is written was compared at every call, with the Rust's, and from the
//! first attempt in which that does not count with the definition's: a difference ends the program. Sessions are drawn one
//! after another for each family, and one is kept if it holds a kind of call, ending or number that no session of that family
//! before it held, and is short. To them come the least and the largest count of stages of every family and one at n = 16,
//! attempts whose scaled radius is NaN with what [`Keeping`] makes after them in four families, failed sensors, each size and
//! each placement in at least two families, an error that is hot by itself, an infinite radius, TSRKC2's histories and its steps that are
//! far apart, and one attempt at n = 512.
use differential::history::{Far, Sequence};
use differential::hot::{Heat, Hot, Keeping, Overflowing, Placement, SENSORS, Unbounded};
use differential::random::mixed;
use differential::scenarios::{
    self, Counted, Coverage, RADIUS_INFINITE, RADIUS_NAN, wanted_of_hot,
};
use differential::trace::Trace;
use oracle::{RKC, RKMC2, TSRKC2};
use std::collections::BTreeSet;
use std::io::Write;

/// The longest session that is kept, in words.
const LONGEST: usize = 800;

/// How many sessions of a family are drawn.
const DRAWN: u64 = 4000;

/// The room that `replay` has for the traces, in words.
const ROOM: usize = 1_048_576 / 8;

/// What is written, and what it reaches.
#[derive(Default)]
struct Sample {
    words: Vec<u64>,
    reached: Coverage,
}

fn fresh() -> Coverage {
    Coverage {
        trace: Some(Trace::default()),
        ..Coverage::default()
    }
}

impl Sample {
    /// With one session more.
    fn add(&mut self, mut session: Coverage) {
        let trace = session.trace.take();
        self.words
            .extend(trace.map_or(Vec::new(), |trace| trace.words));
        for (kind, count) in session.kinds {
            *self.reached.kinds.entry(kind).or_default() += count;
        }
        for (through, count) in session.kept {
            *self.reached.kept.entry(through).or_default() += count;
        }
    }

    /// Sessions of one family.
    fn sessions(&mut self, family: u64) -> Result<(), String> {
        let mut held = BTreeSet::new();
        for index in 0..DRAWN {
            let seed = mixed(family ^ mixed(index));
            let mut coverage = fresh();
            scenarios::session(seed, 8, &[family], &mut coverage).map_err(|difference| {
                let name = oracle::name(family);
                format!("session of {name}, seed {seed}: {difference}")
            })?;
            let length = coverage.trace.as_ref().map_or(0, |trace| trace.words.len());
            let usable = (1..=LONGEST).contains(&length);
            if usable && coverage.kinds.keys().any(|kind| !held.contains(kind)) {
                held.extend(coverage.kinds.keys().copied());
                self.add(coverage);
            }
        }
        Ok(())
    }

    /// A session that a scenario makes.
    fn scenario(
        &mut self,
        run: impl Fn(&mut Coverage) -> Result<(), String>,
    ) -> Result<(), String> {
        let mut coverage = fresh();
        run(&mut coverage)?;
        self.add(coverage);
        Ok(())
    }

    fn attempt(
        &mut self,
        family: u64,
        stages: usize,
        passes: usize,
        n: usize,
    ) -> Result<(), String> {
        let counted = Counted {
            family,
            stages,
            passes,
            n,
        };
        self.scenario(|coverage| scenarios::counted_attempt(&counted, 1, coverage))
    }

    fn keeping(&mut self, family: u64) -> Result<(), String> {
        let radius = Unbounded::Nan;
        let n = radius.least_dimension();
        self.scenario(|coverage| Keeping { family, radius, n }.run(1, coverage))
    }

    /// Failed sensors, of the next size and at the next placement in each family, and an error that is hot by itself.
    fn sensors(&mut self) -> Result<(), String> {
        let families = oracle::FAMILIES.into_iter().enumerate();
        let states = families.map(|(at, family)| {
            let placement = Placement::ALL[(at + at / 3) % 3];
            Hot {
                family,
                heat: [Heat::Derivative(placement), Heat::State(placement)][at % 2],
                sensor: at % SENSORS.len(),
                n: 3,
            }
        });
        let error = Hot {
            family: 2,
            heat: Heat::Error,
            sensor: 1,
            n: 1,
        };
        for hot in states.chain([error]) {
            self.scenario(|coverage| hot.run(1, coverage))?;
        }
        Ok(())
    }

    /// Histories of every kind, with one temperature, and every other pair of steps that are far apart: among them r infinite and
    /// a bracket of 0, q infinite and q 0.
    fn histories(&mut self) -> Result<(), String> {
        for sequence in Sequence::all(1) {
            self.scenario(|coverage| sequence.run(1, coverage))?;
        }
        for far in Far::all().skip(1).step_by(2) {
            self.scenario(|coverage| far.run(1, coverage))?;
        }
        Ok(())
    }

    fn fill(&mut self) -> Result<(), String> {
        for family in oracle::FAMILIES {
            self.sessions(family)?;
            let (least, largest) = oracle::ends(family);
            self.attempt(family, least, 1, 2)?;
            self.attempt(family, largest, 12, 1)?;
            self.attempt(family, least + 2, 2, 16)?;
        }
        for family in [RKC, 2, RKMC2, TSRKC2] {
            self.keeping(family)?;
        }
        self.sensors()?;
        self.histories()?;
        let [_, infinite] = Overflowing::STEPS;
        let overflowing = Overflowing {
            family: RKC,
            step: infinite,
            n: 1,
        };
        self.scenario(|coverage| overflowing.run(1, coverage))?;
        self.attempt(RKC, 2, 1, 512)
    }

    /// What the traces must hold and do not, and whether they fit.
    fn missing(&self) -> Vec<String> {
        let radii = [RADIUS_NAN, RADIUS_INFINITE].into_iter();
        let kinds = self.reached.kinds_missing(radii.chain(wanted_of_hot()));
        let room = (self.words.len() > ROOM).then(|| format!("room for {}", self.words.len()));
        kinds
            .chain(self.reached.kept_missing())
            .chain(room)
            .collect()
    }
}

fn main() {
    eprintln!("{}", oracle::build());
    let mut sample = Sample::default();
    let filled = sample.fill();
    filled.unwrap_or_else(|difference| panic!("{difference}"));
    let missing = sample.missing();
    assert!(missing.is_empty(), "missing: {}", missing.join(", "));
    let reached = &sample.reached;
    eprintln!(
        "{} of {ROOM} words, {}",
        sample.words.len(),
        reached.finished()
    );
    let bytes: Vec<u8> = sample
        .words
        .iter()
        .flat_map(|word| word.to_le_bytes())
        .collect();
    std::io::stdout()
        .write_all(&bytes)
        .expect("a place to write to");
}
