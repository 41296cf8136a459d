//! Links libbench_booleans.a from where libtsm.a is: the directory `TSM_LIB_DIR`, or where the repository builds them.

use std::env;
use std::path::PathBuf;

fn main() {
    println!("cargo:rerun-if-changed=build.rs");
    println!("cargo:rerun-if-env-changed=TSM_LIB_DIR");
    let directory = match env::var_os("TSM_LIB_DIR") {
        Some(directory) => PathBuf::from(directory),
        None => PathBuf::from(env!("CARGO_MANIFEST_DIR")).join("../target/staticlib"),
    };
    let library = directory.join("libbench_booleans.a");
    assert!(
        library.is_file(),
        "{} is not there: build it with `sh .ci/built bench_booleans`",
        library.display()
    );
    println!("cargo:rerun-if-changed={}", library.display());
    println!("cargo:rustc-link-search=native={}", directory.display());
    println!("cargo:rustc-link-lib=static=bench_booleans");
}
