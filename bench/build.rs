//! Says where the static libraries are: the folder that SAZAMKHRI_LIB names, or ../target/staticlib.

use std::env;
use std::path::Path;

fn main() {
    let beside = Path::new(env!("CARGO_MANIFEST_DIR")).join("../target/staticlib");
    let folder = env::var_os("SAZAMKHRI_LIB").map_or(beside, Into::into);
    println!("cargo:rerun-if-env-changed=SAZAMKHRI_LIB");
    println!("cargo:rustc-link-search=native={}", folder.display());
    for name in ["probe", "host"] {
        if env::var_os(format!("CARGO_FEATURE_{}", name.to_uppercase())).is_some() {
            println!("cargo:rerun-if-changed={}/lib{name}.a", folder.display());
            println!("cargo:rustc-link-lib=static={name}");
        }
    }
}
