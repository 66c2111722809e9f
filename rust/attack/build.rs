//! Has librecorder.a linked, from the folder that RECORDER_LIB_DIR names.

use std::env;

fn main() {
    println!("cargo:rerun-if-env-changed=RECORDER_LIB_DIR");
    println!("cargo:rerun-if-changed=build.rs");
    let dir =
        env::var("RECORDER_LIB_DIR").expect("start with rust/attack/run, which finds the library");
    println!("cargo:rerun-if-changed={dir}/librecorder.a");
    println!("cargo:rustc-link-search=native={dir}");
    println!("cargo:rustc-link-lib=static=recorder");
}
