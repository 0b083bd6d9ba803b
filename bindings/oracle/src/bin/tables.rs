//! tables CRATES: writes RKMC2's three tables and TSRKC2's one, from the Rust, into their crates below the folder CRATES: code,
//! definition, and the proofs that the code reads the definition and that the rule of the table holds throughout.
//!
//! The doubles are those of the build that the program is run on; docs/VECTORS.md names the one that is stored.
use oracle::thresholds::{COUNTS, thresholds};
use oracle::{RKMC2, Rows, TSRKC2};
use std::fs;
use std::path::{Path, PathBuf};

/// How many counts a row holds.
const WIDTH: usize = 16;

/// A table by count, and the rule that is proved of it.
struct Table {
    family: &'static str,
    name: &'static str,
    title: &'static str,
    /// The change request of document 02 that asks for it.
    request: &'static str,
    first: usize,
    doubles: Vec<f64>,
    rule: Rule,
}

/// What one computed test proves of every count, and the file that holds it.
struct Rule {
    file: &'static str,
    text: &'static str,
}

fn main() {
    eprintln!("{}", oracle::build());
    let folder = std::env::args().nth(1).expect("the folder of the crates");
    for table in tables() {
        table.write(Path::new(&folder));
    }
}

fn tables() -> Vec<Table> {
    let mut all = rkmc2_tables();
    all.push(tsrkc2_table());
    all
}

/// What the Rust works out with for each count of a family.
fn recorded(family: u64) -> Vec<Rows> {
    let counts = oracle::permitted(family);
    counts.map(|count| oracle::rows(family, count)).collect()
}

fn rkmc2_tables() -> Vec<Table> {
    let (first, _) = oracle::ends(RKMC2);
    let rows = recorded(RKMC2);
    let omega_zero = |row: &Rows| row.omega_zero.expect("RKMC2's omega_zero");
    let table = |name, title, first, doubles, rule| Table {
        family: "rkmc2",
        name,
        title,
        request: "CR 1",
        first,
        doubles,
        rule,
    };
    vec![
        table(
            "omega_zero",
            "RKMC2's omega_zero",
            first,
            rows.iter().map(omega_zero).collect(),
            AT_LEAST_ONE,
        ),
        table(
            "omega_one",
            "RKMC2's omega_one",
            first,
            rows.iter().map(|row| row.omega_one).collect(),
            ABOVE_ZERO,
        ),
        table(
            "threshold",
            "RKMC2's thresholds",
            *COUNTS.start(),
            thresholds(),
            RISING,
        ),
    ]
}

fn tsrkc2_table() -> Table {
    let (first, _) = oracle::ends(TSRKC2);
    let entry = |row: &Rows| row.two_step.expect("TSRKC2's locals").omega_zero_minus_one;
    Table {
        family: "tsrkc2",
        name: "omega_zero_minus_one",
        title: "TSRKC2's omega_zero_minus_one",
        request: "CR 6",
        first,
        doubles: recorded(TSRKC2).iter().map(entry).collect(),
        rule: ABOVE_ZERO,
    }
}

impl Table {
    fn write(&self, crates: &Path) {
        let folder = crates.join(format!("{}_{}", self.family, self.name));
        let put = |path: PathBuf, text: &str| {
            let path = folder.join(path);
            fs::create_dir_all(path.parent().unwrap()).unwrap();
            fs::write(&path, text).unwrap_or_else(|error| panic!("{}: {error}", path.display()));
        };
        let declared = |name: &str| format!("pub mod {name}\n");
        let proof = Path::new("proofs").join(self.name).join("Answers.antt");
        let rule = Path::new("proofs")
            .join(self.rule.file)
            .with_extension("antt");
        put("src/lib.rt".into(), &self.filled(CODE));
        put("specs/Lib.antt".into(), &declared("Table"));
        put("specs/Table.antt".into(), &self.filled(SPECS));
        put("proofs/Lib.antt".into(), &declared(self.rule.file));
        put(proof, &self.filled(PROOF));
        put(rule, &self.filled(self.rule.text));
    }

    fn last(&self) -> usize {
        self.first + self.doubles.len() - 1
    }

    /// The entries from count 0 on, in whole rows: a count outside the table has the nearest entry.
    fn rows(&self) -> Vec<Vec<f64>> {
        let counts = (self.last() + 1).next_multiple_of(WIDTH);
        let entry = |count: usize| self.doubles[count.clamp(self.first, self.last()) - self.first];
        let entries: Vec<f64> = (0..counts).map(entry).collect();
        entries.chunks(WIDTH).map(<[f64]>::to_vec).collect()
    }

    /// A text with the table's names and numbers in their places.
    fn filled(&self, text: &str) -> String {
        let (first, last) = (self.first, self.last());
        let numbers = [
            ("<first>", first),
            ("<last>", last),
            ("<before-last>", last - 1),
            ("<entries>", last + 1 - first),
            ("<pairs>", last - first),
            ("<width>", WIDTH),
            ("<width-1>", WIDTH - 1),
            ("<rows>", self.rows().len()),
        ];
        let named = text
            .replace("<crate>", "<family>_<name>")
            .replace("<family>", self.family)
            .replace("<title>", self.title)
            .replace("<request>", self.request)
            .replace("<name>", self.name)
            .replace("<doubles>", &self.doubles_by_row())
            .replace("<bits>", &self.bits());
        numbers.into_iter().fold(named, |text, (place, number)| {
            text.replace(place, &number.to_string())
        })
    }

    /// The rows of the code, an entry a line.
    fn doubles_by_row(&self) -> String {
        let entry = |value: &f64| format!("        {},\n", decimal(*value));
        let row = |row: &Vec<f64>| {
            let entries: String = row.iter().map(entry).collect();
            format!("    [\n{entries}    ],\n")
        };
        self.rows().iter().map(row).collect()
    }

    /// The rows of the definition, four bit patterns a line, each row below its first count.
    fn bits(&self) -> String {
        let pattern = |value: &f64| format!("0x{:016x}", value.to_bits());
        let line = |part: &[f64]| part.iter().map(pattern).collect::<Vec<_>>().join(" ∷ ");
        let row = |(k, row): (usize, &Vec<f64>)| {
            let lines: Vec<String> = row.chunks(4).map(line).collect();
            let count = WIDTH * k;
            format!("    -- {count}\n    ({} ∷ []) ∷\n", lines.join(" ∷\n    "))
        };
        self.rows().iter().enumerate().map(row).collect()
    }
}

/// The shortest decimal that is read as this double, without an exponent.
fn decimal(value: f64) -> String {
    let digits = value.to_string();
    if digits.contains('.') {
        digits
    } else {
        digits + ".0"
    }
}

const CODE: &str = "\
// <title>, by count. A count outside <first> to <last> reads the nearest entry. Written by bindings/oracle (docs/VECTORS.md).
#![tactic(auto)]

ghost use Rattle.std.specs.Prelude.{◌≡◌};
ghost use Rattle.<crate>.specs.Table as spec;

// Row k has the counts <width> k to <width> k + <width-1>.
static ROWS: [[f64; <width>]; <rows>] = [
<doubles>];

pub fn <name>(s: u64) -> f64
    ensures { result ≡ spec.<name> s }
{
    table::entry(&ROWS, <last>, s)
}
";

const SPECS: &str = "\
-- <title>: a table of document 02, <request>, with the doubles of the named build (docs/VECTORS.md). Bit patterns, <width> counts a row,
-- a row's first count above it. A count outside <first> to <last> has the nearest entry.
use Rattle.std.specs.Prelude.{ℕ, min, List, [], ◌∷◌, Float}
use Rattle.table.specs.Rows.{entry}

abbrev pub bits : List (List ℕ)
bits =
<bits>    []

unfoldable pub <name> : ℕ → Float
<name> s = entry bits (min s <last>)
";

const PROOF: &str = "\
-- The rows of the code are those of the bits, by computation.
use Rattle.std.specs.Prelude.{min}
use Rattle.std.proofs.Common.{◌∙◌}
use Rattle.table.proofs.Rows.{read_by_bits}
use Rattle.<crate>.specs.Table.{bits, <name>}
use Rattle.<crate>.proofs.<name>.Goals as goal

pub returns : goal.returns
unfolding <name>
returns c = c.entry.ensures ∙ read_by_bits bits (min c.args.s <last>)
";

const AT_LEAST_ONE: Rule = Rule {
    file: "AtLeastOne",
    text: "\
-- Every entry is at least 1. Computed once for the whole table. Assumes nothing.
use Prim.Native.Nat.{ℕ, ◌≤◌}
use mathlib.Core.Bool.{Bool}
use native.Mathlib.Omega.{arith}
use lib.Dec.{T}
use lib.Ieee.{le, of_bits}
use Rattle.ieee.specs.Double.{one}
use Rattle.ieee.proofs.Every.{every, among}
use Rattle.<crate>.specs.Table.{<name>}

test : ℕ → Bool
test s = le one (<name> s)

passes : T (every test <entries> <first>)
unfolding every test <name> of_bits le
passes = tt

pub at_least_one : (s : ℕ) → <first> ≤ s → s ≤ <last> → T (le one (<name> s))
unfolding test
at_least_one s l h = among test <entries> <first> s passes l (omega arith)
",
};

const ABOVE_ZERO: Rule = Rule {
    file: "AboveZero",
    text: "\
-- Every entry is above 0. Computed once for the whole table. Assumes nothing.
use Prim.Native.Nat.{ℕ, ◌≤◌}
use mathlib.Core.Bool.{Bool}
use native.Mathlib.Omega.{arith}
use lib.Dec.{T}
use lib.Ieee.{lt, of_bits}
use Rattle.ieee.specs.Double.{nought}
use Rattle.ieee.proofs.Every.{every, among}
use Rattle.<crate>.specs.Table.{<name>}

test : ℕ → Bool
test s = lt nought (<name> s)

passes : T (every test <entries> <first>)
unfolding every test <name> of_bits lt
passes = tt

pub above_zero : (s : ℕ) → <first> ≤ s → s ≤ <last> → T (lt nought (<name> s))
unfolding test
above_zero s l h = among test <entries> <first> s passes l (omega arith)
",
};

const RISING: Rule = Rule {
    file: "Rising",
    text: "\
-- The entries rise strictly, and are above 0. Computed once for the whole table. Assumes nothing.
use mathlib.Core.Path.{sym, subst}
use mathlib.Core.Logic.{inl, inr}
use Prim.Native.Nat.{ℕ, suc, ◌≤◌}
use native.Mathlib.Nat.{eq-or-lt_of_le}
use mathlib.Core.Bool.{Bool, ◌&&◌}
use native.Mathlib.Omega.{arith}
use lib.Dec.{T}
use lib.Ieee.{lt, of_bits}
use lib.Ieee.Fits.{and_l, and_r}
use lib.Ieee.Positive.{positive}
use Rattle.ieee.proofs.Every.{every, among}
use Rattle.<crate>.specs.Table.{<name>}

test : ℕ → Bool
test s = positive (<name> s) && lt (<name> s) (<name> (suc s))

passes : T (every test <pairs> <first>)
unfolding every test <name> of_bits lt
passes = tt

passes_at : (s : ℕ) → <first> ≤ s → s ≤ <before-last> → T (positive (<name> s) && lt (<name> s) (<name> (suc s)))
unfolding test
passes_at s l h = among test <pairs> <first> s passes l (omega arith)

pub rises : (s : ℕ) → <first> ≤ s → s ≤ <before-last> → T (lt (<name> s) (<name> (suc s)))
rises s l h = and_r (positive (<name> s)) (lt (<name> s) (<name> (suc s))) (passes_at s l h)

last_above_zero : T (positive (<name> <last>))
unfolding <name> of_bits
last_above_zero = tt

pub above_zero : (s : ℕ) → <first> ≤ s → s ≤ <last> → T (positive (<name> s))
above_zero s l h = elim (eq-or-lt_of_le h) [
  | inl e ↦ subst (λ (i : ℕ). T (positive (<name> i))) (sym e) last_above_zero
  | inr m ↦ and_l (positive (<name> s)) (lt (<name> s) (<name> (suc s))) (passes_at s l (omega arith))
]
",
};
