//! Links libdine.a and libdine_oracle.a, which `embed/build.sh` makes, or those in the folder that DINE_LIBRARY_DIR names.

use std::{env, path::PathBuf};

fn main() {
    let beside = PathBuf::from(env::var_os("CARGO_MANIFEST_DIR").unwrap()).join("../build");
    let folder = env::var_os("DINE_LIBRARY_DIR").map_or(beside, PathBuf::from);
    println!("cargo:rustc-link-search=native={}", folder.display());
    for name in ["dine", "dine_oracle"] {
        println!("cargo:rustc-link-lib=static={name}");
        println!("cargo:rerun-if-changed={}", folder.join(format!("lib{name}.a")).display());
    }
    println!("cargo:rerun-if-env-changed=DINE_LIBRARY_DIR");
}
