//! Names the archives of the Rattle library to the linker, where a layer of it is asked for.
//!
//! They are made by `tools/library` (x86-64; on other machines target/native has the retargeted ones);
//! $STUMPCHOIR_LIB names another folder for them.

use std::{env, path::PathBuf};

const LAYERS: [&str; 7] = ["MEDIUM", "OBJECTS", "BLOCKS", "COLLECTOR", "BATCH", "STORAGE", "SWEEP"];
const ARCHIVES: [&str; 5] = ["cface", "cface_blocks", "cface_batch", "cface_storage", "cface_sweep"];

fn main() {
    println!("cargo:rerun-if-env-changed=STUMPCHOIR_LIB");
    println!("cargo:rerun-if-changed=build.rs");
    if !LAYERS.iter().any(|layer| env::var(format!("CARGO_FEATURE_{layer}")).is_ok()) {
        return;
    }
    let here = PathBuf::from(env::var("CARGO_MANIFEST_DIR").unwrap());
    let made =
        if env::var("CARGO_CFG_TARGET_ARCH").unwrap() == "x86_64" { "../target/staticlib" } else { "../target/native" };
    let folder = env::var_os("STUMPCHOIR_LIB").map(PathBuf::from).unwrap_or_else(|| here.join(made));
    println!("cargo:rustc-link-search=native={}", folder.display());
    for name in ARCHIVES {
        let archive = folder.join(format!("lib{name}.a"));
        println!("cargo:rerun-if-changed={}", archive.display());
        assert!(archive.is_file(), "no lib{name}.a in {}: make it with tools/library", folder.display());
        println!("cargo:rustc-link-lib=static={name}");
    }
}
