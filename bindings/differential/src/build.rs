//! The build that a run is made on: compiler, C library, processor, and the tables that were taken from them.
use oracle::thresholds::{self, Disagreement, UNITS};
use oracle::{RKMC2, TSRKC2, TwoStep, permitted, rows};
use std::env;
use std::fmt::{Display, Formatter, Result};
use std::ops::Range;
use std::path::{Path, PathBuf};
use std::process::Command;

/// The build that the tables were taken from, and that a differential run is made on: compiler, C library and processor.
/// Where the processor has both features, the C library takes fused variants of exp and expm1, of which sinh and cosh are
/// made, and of pow.
pub const NAMED: [&str; 3] = ["rustc 1.95.0", "GLIBC 2.36", "x86-64 with FMA and AVX2"];

/// Whether these lines are those of the named build, as many as there are.
pub fn as_named(lines: &[String]) -> bool {
    let mut pairs = lines.iter().zip(NAMED);
    pairs.all(|(line, name)| line.contains(name))
}

fn first_line(program: &str, argument: &str) -> String {
    Command::new(program).arg(argument).output().map_or_else(
        |error| format!("{program}: {error}"),
        |output| {
            String::from_utf8_lossy(&output.stdout)
                .lines()
                .next()
                .unwrap_or("")
                .to_string()
        },
    )
}

/// What the processor has of the two features, and what the C library is told, since that can turn them off.
fn processor() -> String {
    let features = [
        ("FMA", is_x86_feature_detected!("fma")),
        ("AVX2", is_x86_feature_detected!("avx2")),
    ];
    let missing = features.iter().filter(|(_, present)| !present);
    let missing: Vec<&str> = missing.map(|(name, _)| *name).collect();
    let has = match missing[..] {
        [] => "with FMA and AVX2".to_string(),
        _ => format!("without {}", missing.join(" and ")),
    };
    match env::var("GLIBC_TUNABLES") {
        Ok(told) => format!("x86-64 {has}; GLIBC_TUNABLES={told}"),
        Err(_) => format!("x86-64 {has}"),
    }
}

/// Compiler, C library and processor.
pub fn lines() -> [String; 3] {
    [
        first_line("rustc", "--version"),
        first_line("ldd", "--version"),
        processor(),
    ]
}

/// A table of the engine's, from the definition that the code is proved to hold.
struct Table {
    name: &'static str,
    family: u64,
    file: &'static str,
    /// The counts that the file has an entry for, and those that the table is for.
    held: Range<usize>,
    counts: Vec<usize>,
    /// The Rust's entry on this build.
    rust: fn(usize) -> f64,
}

const RKMC2_OMEGA_ZERO: &str = "RKMC2's omega_zero";
const RKMC2_OMEGA_ONE: &str = "RKMC2's omega_one";
const THRESHOLD: &str = "RKMC2's threshold";
const TSRKC2_OMEGA_ZERO: &str = "TSRKC2's omega_zero_minus_one";
const TSRKC2_ACOSH: &str = "TSRKC2's acosh(1.1)";
const TSRKC2_SINH: &str = "TSRKC2's sinh";

/// acosh(1.1) in the named build.
const ACOSH: u64 = 0x3FDC_636C_1A88_2F2B;

/// RKMC2's files and TSRKC2's have 63 rows of 16 counts.
const IN_ROWS: Range<usize> = 0..1008;

fn tables() -> [Table; 5] {
    // those in rows, one for each permitted count
    let in_rows = |name, family, file, rust| Table {
        name,
        family,
        file,
        held: IN_ROWS,
        counts: permitted(family).collect(),
        rust,
    };
    [
        Table {
            held: 2..201,
            ..in_rows("RKC's omega_one", 1, "coefficients", |s| {
                rows(1, s).omega_one
            })
        },
        in_rows(RKMC2_OMEGA_ZERO, RKMC2, "rkmc2_omega_zero", |s| {
            rows(RKMC2, s).omega_zero.expect(RKMC2_OMEGA_ZERO)
        }),
        in_rows(RKMC2_OMEGA_ONE, RKMC2, "rkmc2_omega_one", |s| {
            rows(RKMC2, s).omega_one
        }),
        Table {
            counts: thresholds::COUNTS.collect(),
            ..in_rows(THRESHOLD, RKMC2, "rkmc2_threshold", thresholds::threshold)
        },
        in_rows(
            TSRKC2_OMEGA_ZERO,
            TSRKC2,
            "tsrkc2_omega_zero_minus_one",
            |s| two_step(s).omega_zero_minus_one,
        ),
    ]
}

/// TSRKC2's locals at a count, without a history.
fn two_step(count: usize) -> TwoStep {
    rows(TSRKC2, count).two_step.expect(TSRKC2_OMEGA_ZERO)
}

fn crates() -> PathBuf {
    Path::new(env!("CARGO_MANIFEST_DIR")).join("../../crates")
}

fn read(file: &Path) -> String {
    std::fs::read_to_string(file).unwrap_or_else(|error| panic!("{}: {error}", file.display()))
}

impl Table {
    /// The entries as they are stored, by the counts that the table is for.
    fn stored(&self) -> Vec<u64> {
        let file = crates().join(self.file).join("specs/Table.antt");
        let text = read(&file);
        let entries: Vec<u64> = text
            .split(|c: char| !c.is_ascii_alphanumeric())
            .filter_map(|word| word.strip_prefix("0x"))
            .map(|digits| u64::from_str_radix(digits, 16).expect("hexadecimal digits"))
            .collect();
        assert_eq!(
            entries.len(),
            self.held.len(),
            "entries of {}",
            file.display()
        );
        let entry = |s: &usize| entries[s - self.held.start];
        self.counts.iter().map(entry).collect()
    }

    fn departures(&self) -> Vec<Departure> {
        let entries = self.counts.iter().zip(self.stored());
        entries
            .map(|(&count, stored)| Departure {
                table: self.name,
                family: self.family,
                count,
                stored,
                rust: (self.rust)(count).to_bits(),
            })
            .filter(|entry| entry.stored != entry.rust)
            .collect()
    }
}

/// The sinh of acosh(1.1), as the definition of TSRKC2's rows has it.
fn stored_sinh() -> u64 {
    let file = crates().join("coefficients/specs/Rows.antt");
    let text = read(&file);
    let begin = "sinh_acosh_t_star = of_bits binary64 0x";
    let at = text.find(begin).expect(begin) + begin.len();
    u64::from_str_radix(&text[at..at + 16], 16).expect("hexadecimal digits")
}

/// TSRKC2's values at 1.1, in the Rust and as they are stored: the sinh by itself, the acosh in the table's entries, which were
/// made with it. Told, and what departs.
fn at_t_star() -> Vec<Departure> {
    let (_, count) = oracle::ends(TSRKC2);
    let TwoStep { acosh, sinh, .. } = two_step(count);
    let [acosh, sinh] = [acosh, sinh].map(f64::to_bits);
    println!("TSRKC2: acosh(1.1) is {acosh:016X}, its sinh {sinh:016X}");
    let values = [
        (TSRKC2_ACOSH, ACOSH, acosh),
        (TSRKC2_SINH, stored_sinh(), sinh),
    ];
    let all = values.into_iter().flat_map(|(table, stored, rust)| {
        permitted(TSRKC2).map(move |count| Departure {
            table,
            family: TSRKC2,
            count,
            stored,
            rust,
        })
    });
    all.filter(|value| value.stored != value.rust).collect()
}

/// A table's entry for which the Rust has another double on this build.
#[derive(Clone, Copy, Debug, PartialEq)]
pub struct Departure {
    pub table: &'static str,
    pub family: u64,
    pub count: usize,
    /// The bits of the two.
    pub stored: u64,
    pub rust: u64,
}

impl Display for Departure {
    fn fmt(&self, formatter: &mut Formatter<'_>) -> Result {
        let Self {
            table,
            count,
            stored,
            rust,
            ..
        } = self;
        write!(
            formatter,
            "{table} of s = {count} is {rust:016X}, stored is {stored:016X}"
        )
    }
}

/// What departs where the C library takes no fused variants. Of the doubles near a threshold 40B7A61A4CA5CE08 alone then has
/// two counts: 193 by thresholds, 194 by the Rust.
pub const UNFUSED: [Departure; 2] = [
    Departure {
        table: RKMC2_OMEGA_ONE,
        family: RKMC2,
        count: 264,
        stored: 0x3F27_C0C2_8D7C_DC84,
        rust: 0x3F27_C0C2_8D7C_DC82,
    },
    Departure {
        table: THRESHOLD,
        family: RKMC2,
        count: 193,
        stored: 0x40B7_A61A_4CA5_CE08,
        rust: 0x40B7_A61A_4CA5_CE07,
    },
];

/// Compares every entry of every table with the Rust's, and prints how many are the same; and TSRKC2's values at 1.1, which
/// depart in every count where they do.
pub fn departures() -> Vec<Departure> {
    let mut all = Vec::new();
    for table in tables() {
        let found = table.departures();
        let entries = table.counts.len();
        println!(
            "{}: {} of {entries} entries as in the table",
            table.name,
            entries - found.len()
        );
        all.extend(found);
    }
    all.extend(at_t_star());
    all
}

/// RKMC2's thresholds as they are stored.
pub fn stored_thresholds() -> Vec<f64> {
    let mut tables = tables().into_iter();
    let table = tables.find(|table| table.name == THRESHOLD);
    let stored = table.expect(THRESHOLD).stored();
    stored.into_iter().map(f64::from_bits).collect()
}

/// The doubles near a threshold on which the counts by the stored thresholds and by the Rust must disagree: those between
/// the two entries of a threshold that departs.
pub fn disagreements(departures: &[Departure]) -> Vec<Disagreement> {
    let of_thresholds = departures.iter().filter(|found| found.table == THRESHOLD);
    of_thresholds.flat_map(Departure::disagreements).collect()
}

impl Departure {
    fn disagreements(&self) -> impl Iterator<Item = Disagreement> {
        let (count, stored, rust) = (self.count, self.stored, self.rust);
        (stored - UNITS..=stored + UNITS)
            .map(move |bits| Disagreement {
                radius: f64::from_bits(bits),
                by_thresholds: count + usize::from(bits > stored),
                by_the_rust: count + usize::from(bits > rust),
            })
            .filter(|found| found.by_thresholds != found.by_the_rust)
    }
}
