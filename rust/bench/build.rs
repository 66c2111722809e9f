//! Has librecorder.a linked, from the folder that `run` names in RECORDER_LIB_DIR.

use std::env;
use std::path::PathBuf;

fn main() {
    println!("cargo:rerun-if-env-changed=RECORDER_LIB_DIR");
    let named =
        env::var_os("RECORDER_LIB_DIR").expect("use rust/bench/run, which sets RECORDER_LIB_DIR");
    let dir = PathBuf::from(named);
    println!("cargo:rerun-if-changed={}", dir.join("librecorder.a").display());
    println!("cargo:rustc-link-search=native={}", dir.display());
    println!("cargo:rustc-link-lib=static=recorder");
}
