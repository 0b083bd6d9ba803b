//! Makes the test build of the Rust from the five files of a checkout, and writes the module lines that name its files.
//!
//! STABILIZED_RUST is the `src` folder of the checkout. In the test build family.rs has the stage formulas of RKG by document
//! 02, CR 5; the other four are compiled where they stand. Beside it come the checkout's own family.rs, to count the stages by,
//! and a copy of the test build with added lines, which record the values of locals. What is changed is written to the build
//! folder.
use std::collections::BTreeMap;
use std::path::{Path, PathBuf};
use std::{env, fs};

#[path = "src/formulas.rs"]
mod formulas;

const FILES: [&str; 5] = ["family", "orthogonal", "chebyshev", "workspace", "driver"];

/// The files of a build, by the names of their modules.
type Files = BTreeMap<&'static str, PathBuf>;

fn main() {
    println!("cargo:rerun-if-env-changed=STABILIZED_RUST");
    println!("cargo:rerun-if-changed=build.rs");
    println!("cargo:rerun-if-changed=src/formulas.rs");
    let out = PathBuf::from(env::var("OUT_DIR").unwrap());
    let checkout = checkout();
    let mut test_build = checkout.clone();
    change(&mut test_build, "family", &out.join("test_build"), |text| {
        formulas::put_in(text).unwrap_or_else(|error| panic!("no test build of family.rs: {error}"))
    });
    let mut recorded = test_build.clone();
    for name in FILES {
        change(&mut recorded, name, &out.join("recorded"), |text| {
            recording(name, text)
        });
    }
    let rules = Files::from([("family", checkout["family"].clone())]);
    for (name, files) in [
        ("checkout.rs", rules),
        ("test_build.rs", test_build),
        ("recorded.rs", recorded),
    ] {
        fs::write(out.join(name), module_lines(&files)).unwrap();
    }
}

/// The five files where they stand.
fn checkout() -> Files {
    let source = env::var("STABILIZED_RUST")
        .expect("STABILIZED_RUST names the src folder of a checkout of the Rust");
    let folder = Path::new(&source)
        .join("solvers/stabilized/general")
        .canonicalize()
        .unwrap_or_else(|error| panic!("{source}/solvers/stabilized/general: {error}"));
    let files = Files::from(FILES.map(|name| (name, folder.join(name).with_extension("rs"))));
    for file in files.values() {
        println!("cargo:rerun-if-changed={}", file.display());
    }
    files
}

/// Writes a file with its text changed to a folder, and takes it in place of the one that was there.
fn change(files: &mut Files, name: &'static str, folder: &Path, text: impl Fn(&str) -> String) {
    let before = fs::read_to_string(&files[name]).unwrap();
    let file = folder.join(name).with_extension("rs");
    fs::create_dir_all(folder).unwrap();
    fs::write(&file, text(&before)).unwrap();
    files.insert(name, file);
}

fn module_lines(files: &Files) -> String {
    files
        .iter()
        .map(|(name, file)| format!("#[path = {file:?}]\nmod {name};\n"))
        .collect()
}

/// A file of the copy that records: the coefficients of the rows are locals of these two.
fn recording(name: &str, text: &str) -> String {
    match name {
        "orthogonal" => {
            let heading = "fn run_orthogonal_polynomial";
            with_recorded_locals(text, heading, "None", "gamma_tilde")
        }
        "chebyshev" => {
            let rkc = with_recorded_locals(text, "fn run_rkc", "Some(omega_zero)", "nu_tilde");
            let rkmc2 =
                with_recorded_locals(&rkc, "fn run_rkmc2", "Some(omega_zero)", "b_previous");
            with_recorded_two_step(&rkmc2)
        }
        _ => text.to_string(),
    }
}

/// The text with two lines added in the function that begins with `heading`: one before its loop over the stages, which
/// records omega_zero, omega_one and the first stage's coefficient, and one after each stage's theta, which records its
/// row. The locals of a stage are then those that its row was worked out with.
fn with_recorded_locals(text: &str, heading: &str, omega_zero: &str, fourth: &str) -> String {
    let [before, function, after] = function(text, heading);
    let first = format!("record_first(stages, {omega_zero}, omega_one, theta_previous)");
    let row = format!("record_row(stage, [mu, nu, mu_tilde, {fourth}, theta])");
    let function = recorded_before(&function, LOOP, &first);
    let function = recorded_after(&function, "let theta =", &row);
    [before, function, after].concat()
}

/// The same for TSRKC2, whose theta is worked out only where a stage follows: its expression is recorded with the row, so
/// that every row has one. After the loop come the table's entry, the values at 1.1 and the gain.
fn with_recorded_two_step(text: &str) -> String {
    let [before, function, after] = function(text, "fn run_tsrkc2");
    let theta = expression(&function, "let theta =");
    let row = format!("record_row(stage, [mu, nu, mu_tilde, 0.0, {theta}])");
    let rest = "record_two_step([acosh_t_star, sinh_acosh_t_star, omega_zero_minus_one, \
                derivative_t_star, second_derivative_t_star, gain])";
    let first = "record_first(stages, Some(omega_zero), omega_one, theta_previous)";
    let function = recorded_before(&function, LOOP, first);
    let function = recorded_after(&function, "            mu_tilde =", &row);
    let function = recorded_after(&function, "let gain =", rest);
    [before, function, after].concat()
}

/// The first line of a loop over the stages.
const LOOP: &str = "        for stage in 2..=stages {\n";

/// A text in three: what comes before the function that begins with `heading`, the function, and what comes after it.
fn function(text: &str, heading: &str) -> [String; 3] {
    let begin = text.find(heading).expect(heading);
    let length = text[begin..].find("\n    }\n").expect("a function's end");
    let (before, rest) = text.split_at(begin);
    let (function, after) = rest.split_at(length);
    [before, function, after].map(String::from)
}

/// Where a statement that begins so stands, up to its end. It must be there exactly once.
fn statement(function: &str, begin: &str) -> (usize, usize) {
    assert_eq!(function.matches(begin).count(), 1, "{begin} once");
    let start = function.find(begin).unwrap();
    let length = function[start..].find(";\n").expect("a statement's end");
    (start, start + length)
}

/// What a statement that begins so gives its local.
fn expression(function: &str, begin: &str) -> String {
    let (start, end) = statement(function, begin);
    function[start + begin.len()..end].to_string()
}

fn recorded_before(function: &str, line: &str, call: &str) -> String {
    assert_eq!(function.matches(line).count(), 1, "{line} once");
    function.replace(line, &format!("        crate::recorded::{call};\n{line}"))
}

fn recorded_after(function: &str, begin: &str, call: &str) -> String {
    let (_, end) = statement(function, begin);
    let (head, rest) = function.split_at(end);
    format!("{head};\n            crate::recorded::{call}{rest}")
}
