//! Links the static library that `rt lib` makes in crates/export, and compiles the original crate, unchanged, as the oracle of the
//! differential runs where its source is at hand.
//!
//! - `GROAT_STATICLIB`: the folder of `libexport.a` (default `../crates/export/out`).
//! - `CRAWDAD_SRC`: the folder of the crate's source, which holds `src/lib.rs` (default `../../shared/docs/src`).

use std::env;
use std::path::{Path, PathBuf};
use std::process::Command;

fn folder(variable: &str, default: &str) -> PathBuf {
    println!("cargo:rerun-if-env-changed={variable}");
    let here = PathBuf::from(env::var("CARGO_MANIFEST_DIR").unwrap());
    env::var(variable).map_or_else(|_| here.join(default), PathBuf::from)
}

fn main() {
    let library = folder("GROAT_STATICLIB", "../crates/export/out");
    println!("cargo:rustc-link-search=native={}", library.display());
    println!("cargo:rustc-link-lib=static=export");
    println!("cargo:rerun-if-changed={}", library.join("libexport.a").display());
    println!("cargo:rustc-env=GROAT_LIBRARY={}", library.join("libexport.a").display());
    println!("cargo:rustc-env=GROAT_OUT={}", env::var("OUT_DIR").unwrap());

    let source = folder("CRAWDAD_SRC", "../../shared/docs/src");
    if source.join("src/lib.rs").is_file() {
        oracle(&source);
    }
}

/// The original crate as a library of its own: optimised, debug assertions off.
fn oracle(source: &Path) {
    for file in ["lib", "utils", "mapper", "builder", "trie", "mptrie", "errors"] {
        println!("cargo:rerun-if-changed={}", source.join(format!("src/{file}.rs")).display());
    }
    let out = PathBuf::from(env::var("OUT_DIR").unwrap());
    let status = Command::new(env::var("RUSTC").unwrap())
        .args(["--crate-name", "crawdad", "--crate-type", "rlib", "--edition", "2021"])
        .args(["--cfg", "feature=\"alloc\"", "--cap-lints", "allow"])
        .args(["-C", "opt-level=3", "-C", "debug-assertions=off", "-C", "overflow-checks=off"])
        .arg("--out-dir")
        .arg(&out)
        .arg(source.join("src/lib.rs"))
        .status()
        .expect("rustc runs");
    assert!(status.success(), "the oracle does not compile");
    println!("cargo:rustc-link-search=crate={}", out.display());
    println!("cargo:rustc-env=CRAWDAD_SRC={}", source.canonicalize().unwrap().display());
    println!("cargo:rustc-cfg=oracle");
}
