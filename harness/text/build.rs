//! Brings the repository's text into the build, unchanged.
//!
//! The text is looked for in $NORFS_SRC, else in shared/docs/src beside the repository. Each file must have the
//! SHA-256 that norfs.sums keeps. A copy goes to OUT_DIR with a module from reach/ appended, which reaches private fields. Of
//! lib.rs a few functions are cut out, and the types that they stand on come from reach/storage.rs.
//! Where there is no text, the harness is built without it and says so when it is run.

use std::{
    env, fs,
    path::{Path, PathBuf},
};

#[path = "src/sha256.rs"]
mod sha256;

/// Each text's path, the name of its copy, and what is appended.
const TEXTS: [(&str, &str, &str); 4] = [
    ("norfs-driver/src/medium.rs", "medium.rs", ""),
    ("norfs/src/ll/objects.rs", "objects.rs", "reach/objects.rs"),
    ("norfs/src/ll/blocks.rs", "blocks.rs", "reach/blocks.rs"),
    ("norfs/src/gc/mod.rs", "gc.rs", "reach/gc.rs"),
];

const LIB: &str = "norfs/src/lib.rs";

/// Each function of lib.rs that is cut out: the type that it goes to, and how it begins.
const CUTS: [(&str, &str); 4] = [
    ("BlockInfoCollection", "    fn all_blocks(&self)"),
    ("BlockInfoCollection", "    fn blocks(&self, ty: BlockType)"),
    ("Storage", "    async fn lookup(&mut self, path: &str)"),
    ("Opened", "    pub async fn file_size(&mut self, path: &str)"),
];

fn main() {
    let here = PathBuf::from(env::var("CARGO_MANIFEST_DIR").unwrap());
    let out = PathBuf::from(env::var("OUT_DIR").unwrap());
    bring_text(&here, &out);
}

fn bring_text(here: &Path, out: &Path) {
    println!("cargo:rerun-if-env-changed=NORFS_SRC");
    println!("cargo:rerun-if-changed=norfs.sums");
    println!("cargo:rerun-if-changed=reach");
    println!("cargo:rerun-if-changed=src/sha256.rs");
    println!("cargo:rerun-if-changed=build.rs");
    let named = env::var_os("NORFS_SRC").map(PathBuf::from);
    let text = named.clone().unwrap_or_else(|| here.join("../../../shared/docs/src"));
    println!("cargo:rerun-if-changed={}", text.display());
    if named.is_none() && !text.is_dir() {
        fs::write(out.join("norfs.rs"), "").unwrap();
        println!("cargo:warning=no text of norfs in shared/docs/src beside the repository, and NORFS_SRC is not set: built without it");
        return;
    }
    let sums = fs::read_to_string(here.join("norfs.sums")).expect("norfs.sums");
    for (path, copy, reach) in TEXTS {
        copy_text(here, &read_text(&text, path, &sums), &out.join(copy), reach);
    }
    copy_text(here, &cut_out(&read_text(&text, LIB, &sums)), &out.join("storage.rs"), "reach/storage.rs");
    let at = |name: &str| format!("#[path = {:?}]\n", out.join(name));
    let modules = format!(
        "{}pub mod medium;\npub mod ll {{\n{}pub mod objects;\n{}pub mod blocks;\n}}\n{}pub mod gc;\n{}pub mod storage;\n",
        at("medium.rs"),
        at("objects.rs"),
        at("blocks.rs"),
        at("gc.rs"),
        at("storage.rs")
    );
    fs::write(out.join("norfs.rs"), modules).unwrap();
    println!("cargo:rustc-cfg=norfs_text");
}

/// One text, compared with its sum.
fn read_text(text: &Path, path: &str, sums: &str) -> String {
    let from = text.join(path);
    println!("cargo:rerun-if-changed={}", from.display());
    let words = fs::read_to_string(&from).unwrap_or_else(|e| panic!("{}: {e}", from.display()));
    let found = sha256::hex(words.as_bytes());
    let kept = sums.lines().find_map(|line| line.strip_suffix(path)).map(str::trim).unwrap_or("(none kept)");
    assert!(kept == found, "{path} has changed: its SHA-256 is {found}, norfs.sums has {kept}");
    words
}

/// A copy with the module behind it.
fn copy_text(here: &Path, words: &str, to: &Path, reach: &str) {
    let mut copy = words.to_string();
    if !reach.is_empty() {
        copy.push('\n');
        copy += &fs::read_to_string(here.join(reach)).unwrap();
    }
    fs::write(to, copy).unwrap();
}

/// The functions of `CUTS`, byte for byte, each in an `impl` of its type.
fn cut_out(lib: &str) -> String {
    let function = |begin: &str| {
        let mut places = lib.match_indices(begin).map(|(at, _)| at);
        let (Some(at), None) = (places.next(), places.next()) else { panic!("{LIB} has not just one {begin:?}") };
        let len = lib[at..].find("\n    }\n").expect("an end of the function") + "\n    }\n".len();
        &lib[at..at + len]
    };
    let block = |(to, begin)| format!("impl<M: StorageMedium> {to}<M> {{\n{}}}\n\n", function(begin));
    CUTS.into_iter().map(block).collect()
}
