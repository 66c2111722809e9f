//! Has the proved library linked; `run` names its folder in RECORDER_LIB_DIR.

fn main() {
    println!("cargo:rerun-if-env-changed=RECORDER_LIB_DIR");
    let Some(dir) = std::env::var_os("RECORDER_LIB_DIR") else {
        eprintln!("both: RECORDER_LIB_DIR names no folder; rust/judge/run --both sets it");
        std::process::exit(1);
    };
    let dir = std::path::PathBuf::from(dir);
    println!("cargo:rerun-if-changed={}", dir.join("librecorder.a").display());
    println!("cargo:rustc-link-search=native={}", dir.display());
    println!("cargo:rustc-link-lib=static=recorder");
}
