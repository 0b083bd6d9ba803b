//! Compiles the benchmark's caller in C, with the machine's `cc`, and links it to the benchmark alone.
use std::env;
use std::path::Path;
use std::process::Command;

fn main() {
    let source = Path::new(&env::var_os("CARGO_MANIFEST_DIR").unwrap()).join("../c/benchmark.c");
    let object = Path::new(&env::var_os("OUT_DIR").unwrap()).join("benchmark.o");
    for read in [&source, &source.with_file_name("stabilized.h")] {
        println!("cargo:rerun-if-changed={}", read.display());
    }
    let compiled = Command::new("cc")
        .args(["-std=c11", "-O2", "-Wall", "-Wextra", "-Werror", "-c"])
        .arg(&source)
        .arg("-o")
        .arg(&object)
        .status()
        .expect("cc");
    assert!(compiled.success(), "cc: {compiled}");
    println!("cargo:rustc-link-arg-bin=benchmark={}", object.display());
}
