//! The recorded answers of the text, on model and library.

use std::{fs, path::Path};

use harness::{oracle, recorded};

#[test]
fn lists_agree() {
    let folder = Path::new(env!("CARGO_MANIFEST_DIR")).join("recorded");
    let mut cases = 0;
    for entry in fs::read_dir(folder).unwrap() {
        let path = entry.unwrap().path();
        let list = fs::read_to_string(&path).unwrap();
        assert!(list.starts_with("# harness record "), "{}: the command that made it stands first", path.display());
        cases += recorded::replay(&list).unwrap_or_else(|e| panic!("{}: {e}", path.display()));
    }
    assert!(cases >= 3_000, "only {cases} recorded answers");
    if !oracle::present() {
        println!("SKIPPED: comparing with the repository's Rust: {}", oracle::SKIPPED);
    }
}

#[test]
fn a_wrong_answer_is_noticed() {
    let line = "g=0/1/1/64x1 f=- erase n=0 a=- b=- i=00*64 = 0 v=- f=- a=-/0 b=same i=0:ff*64";
    assert_eq!(recorded::replay(line), Ok(1));
    assert!(recorded::replay(&line.replace("= 0 v", "= 3 v")).is_err());
    assert!(recorded::replay(&line.replace("0:ff*64", "0:ff*63")).is_err());
}
