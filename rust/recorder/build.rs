//! Finds librecorder.a, the proved library, and has it linked.

use std::env;
use std::path::PathBuf;
use std::process::exit;

fn main() {
    println!("cargo:rerun-if-env-changed=RECORDER_LIB_DIR");
    println!("cargo:rerun-if-changed=build.rs");
    let target = |part: &str| env::var(format!("CARGO_CFG_TARGET_{part}")).unwrap_or_default();
    let (system, arch) = (target("OS"), target("ARCH"));
    if (system.as_str(), arch.as_str()) != ("linux", "x86_64") {
        eprintln!("recorder: the proved library is compiled for Linux on x86_64, and this build is for {system} on {arch}.");
        exit(1);
    }
    let package = PathBuf::from(env::var_os("CARGO_MANIFEST_DIR").unwrap_or_default());
    let named = env::var_os("RECORDER_LIB_DIR").map(PathBuf::from);
    let dir = named.unwrap_or_else(|| package.join("../../target/staticlib"));
    let archive = dir.join("librecorder.a");
    println!("cargo:rerun-if-changed={}", archive.display());
    if !archive.is_file() {
        eprintln!("recorder: the proved library is not there: {}", archive.display());
        eprintln!("Make it with `rust/library` in the repository's root (this needs the Rattle kit),");
        eprintln!("or name the folder that has librecorder.a in RECORDER_LIB_DIR (a whole path).");
        exit(1);
    }
    println!("cargo:rustc-link-search=native={}", dir.display());
    println!("cargo:rustc-link-lib=static=recorder");
}
