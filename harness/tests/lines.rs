//! Cases and recorded answers go to text and back unchanged.

use harness::{case::Case, cases::Source, hexrun, model, op::LAYERS, recorded};

#[test]
fn cases_come_back() {
    for layer in LAYERS {
        for case in Source::new(layer, 5).take(2_000).chain(Source::strict(layer, 5).take(500)) {
            assert_eq!(Case::parse(&case.line()), Ok(case.clone()));
            let outcome = model::run(&case).outcome;
            if outcome.image.len() == case.image.len() {
                assert_eq!(recorded::parse(&recorded::line(&case, &outcome)), Ok((case, outcome)));
            }
        }
    }
}

#[test]
fn the_mark_stands_behind_the_count() {
    for (mark, strict) in [("", 0), ("/strict", 1), ("/strict=2", 2), ("/strict=4294967295", u32::MAX)] {
        let line = format!("g=4/1/1/64x1{mark} f=- erase n=0 a=- b=- i=ff*64");
        let case = Case::parse(&line).unwrap();
        assert_eq!((case.geometry.strict, case.line()), (strict, line));
    }
    for wrong in ["/", "/1", "/strict=", "/strict1", "/strict=x", "/strict=4294967296", "/strict/strict"] {
        assert!(Case::parse(&format!("g=4/1/1/64x1{wrong} f=- erase n=0 a=- b=- i=ff*64")).is_err(), "{wrong}");
    }
}

#[test]
fn runs_of_bytes() {
    let bytes = [vec![0xBA, 1, 0x44, 0xAA], vec![0; 4], vec![0xFF; 5], vec![3]].concat();
    assert_eq!(hexrun::show(&bytes), "ba0144aa00000000.ff*5.03");
    assert_eq!(hexrun::parse("ba0144aa00000000.ff*5.03"), Ok(bytes));
    assert_eq!(hexrun::parse("-"), Ok(vec![]));
    for wrong in ["", "f", "fg", "ff*", "ff*x", "ff..ff", "0102*3", "é0"] {
        assert!(hexrun::parse(wrong).is_err(), "{wrong}");
    }
}

#[test]
fn wrong_lines_are_refused() {
    let good = "g=0/1/1/64x1 f=- erase n=0 a=- b=- i=ff*64";
    assert!(Case::parse(good).is_ok());
    for (from, to) in [("n=0", "n=-"), ("erase", "wipe"), ("f=-", "f=x"), ("a=-", "a=1"), ("64x1", "64"), (" b=-", "")]
    {
        assert!(Case::parse(&good.replace(from, to)).is_err(), "{from} as {to}");
    }
}
