//! Links libkamzirda.a from the folder that KAMZIRDA_DIR names, or from bindings/out.
use std::{env, path::PathBuf};

fn main() {
    let beside = PathBuf::from(env::var("CARGO_MANIFEST_DIR").unwrap()).join("../out");
    let folder = env::var_os("KAMZIRDA_DIR").map_or(beside, PathBuf::from);
    println!("cargo:rerun-if-env-changed=KAMZIRDA_DIR");
    println!("cargo:rerun-if-changed={}", folder.join("libkamzirda.a").display());
    println!("cargo:rustc-link-search=native={}", folder.display());
    println!("cargo:rustc-link-lib=static=kamzirda");
}
