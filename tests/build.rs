//! Finds the static libraries: in the folder that SAZAMKHRI_LIB names, or else in ../target/staticlib.

use std::env;
use std::path::PathBuf;

fn main() {
    println!("cargo:rerun-if-env-changed=SAZAMKHRI_LIB");
    let here = PathBuf::from(env::var("CARGO_MANIFEST_DIR").expect("cargo sets this"));
    let folder = match env::var_os("SAZAMKHRI_LIB") {
        Some(named) => PathBuf::from(named),
        None => here.join("../target/staticlib"),
    };
    println!("cargo:rustc-link-search=native={}", folder.display());
    for (feature, library) in [("CARGO_FEATURE_PROBE", "probe"), ("CARGO_FEATURE_HOST", "host")] {
        if env::var_os(feature).is_some() {
            // A library that is built anew is linked anew.
            println!("cargo:rerun-if-changed={}", folder.join(format!("lib{library}.a")).display());
            println!("cargo:rustc-link-lib=static={library}");
        }
    }
}
