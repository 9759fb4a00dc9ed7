//! Links the archives of the proved libraries, only with the features that call them.

use std::env;
use std::path::Path;

/// Each feature with the library that it calls.
const LIBRARIES: [(&str, &str); 2] =
    [("CARGO_FEATURE_PROVED", "interface"), ("CARGO_FEATURE_TIMING", "timing")];

fn main() {
    println!("cargo:rerun-if-changed=build.rs");
    let manifest_dir = env::var("CARGO_MANIFEST_DIR").expect("cargo sets CARGO_MANIFEST_DIR");
    for (feature, library) in LIBRARIES {
        if env::var_os(feature).is_some() {
            let folder = Path::new(&manifest_dir).join(format!("../crates/{library}/out"));
            let archive = folder.join(format!("lib{library}.a"));
            println!("cargo:rustc-link-search=native={}", folder.display());
            println!("cargo:rustc-link-lib=static={library}");
            println!("cargo:rerun-if-changed={}", archive.display());
        }
    }
}
