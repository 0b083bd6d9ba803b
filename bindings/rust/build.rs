//! Links the proved engine: libcapi.a, which `bash bindings/library capi` writes. STABILIZED_LIBRARY names another folder for it.
use std::env;
use std::path::{Path, PathBuf};

fn main() {
    println!("cargo:rerun-if-env-changed=STABILIZED_LIBRARY");
    let folder = env::var_os("STABILIZED_LIBRARY").map_or_else(
        || Path::new(&env::var_os("CARGO_MANIFEST_DIR").unwrap()).join("../../target/staticlib"),
        PathBuf::from,
    );
    let library = folder.join("libcapi.a");
    assert!(
        library.exists(),
        "{} is not there: run `bash bindings/library capi` first",
        library.display()
    );
    println!("cargo:rerun-if-changed={}", library.display());
    println!("cargo:rustc-link-search=native={}", folder.display());
    println!("cargo:rustc-link-lib=static=capi");
}
