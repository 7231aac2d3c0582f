//! Short runs of the comparison itself, and a planted fault that must be found, made small and reported.

use std::process::{Command, Output};

use harness::{
    case::Case,
    cases::{
        stores::{payload, set_size, Store},
        units, Source,
    },
    compare::{judge, plant, Scope},
    geometry::Geometry,
    model::{
        blocks::{DATA, METADATA},
        header::TYPES,
    },
    op::{Layer, Op, LAYERS},
    oracle,
    shrink::shrink,
    table::Tally,
};

#[test]
fn random_cases_agree() {
    let mut tally = Tally::default();
    for layer in LAYERS {
        for case in Source::new(layer, 11).take(20_000) {
            let judged = judge(&case);
            tally.count(&case, &judged);
            assert_eq!(judged.difference(&case), None, "{}\n{}", case.line(), judged.show(&case));
        }
    }
    for &op in harness::op::ALL {
        assert!(tally.of(op)[0] > 50, "{} is hardly ever done", op.name());
        assert!(tally.of(op)[6] > 5, "{} hardly ever meets 6", op.name());
    }
    for number in [0, 2, 3, 4, 5, 7, 8, 9] {
        assert!(tally.of(Op::WriteAll)[number] > 5, "batches hardly ever meet {number}");
        assert!(tally.of_batches(2)[number] > 5, "batches hardly ever meet {number} behind two records");
    }
    let by_name = [
        (Op::Lookup, &[0, 2, 3, 6, 7, 13][..]),
        (Op::FileSize, &[0, 2, 3, 6, 7, 9]),
        (Op::FileRead, &[0, 2, 3, 6, 7, 9]),
        (Op::NamesNext, &[0, 2, 3, 6, 7]),
        (Op::Sweep, &[0, 2, 6, 7, 8, 14]),
        (Op::SweepWith, &[0, 2, 6, 7, 8, 14]),
    ];
    for (op, numbers) in by_name {
        let counts = tally.of(op);
        for number in 0..counts.len() {
            assert_eq!(counts[number] > 5, numbers.contains(&number), "{} and {number}", op.name());
        }
    }
    for deleted in [[0, 0], [0, 1], [1, 0], [1, 1]] {
        let counts = tally.of_sweeps(deleted);
        assert!(counts[0] > 50 && counts[8] > 50, "sweeps that delete {deleted:?} hardly ever end with 0 and 8");
    }
}

#[test]
fn names_come_and_end() {
    let mut met = [0; 2];
    let mut long = 0;
    for case in Source::new(Layer::Storage, 11).take(20_000).filter(|case| case.op == Op::NamesNext) {
        let outcome = judge(&case).model;
        let whole = case.geometry.good() && case.image.len() == case.geometry.room();
        match outcome.answer {
            0 => met[outcome.values[0] as usize] += 1,
            7 if whole => long += 1,
            _ => {}
        }
    }
    assert!(met[0] > 50 && met[1] > 50 && long > 50, "{met:?} {long}");
}

/// A case with much that does not matter for the fault.
fn large() -> Case {
    let line = "g=4/3/2/256x4 f=90 write_to n=2,12,142 a=- b=0102030405060708090a0b0c i=ff*512.ba01c9ff.ff*4.aa.ff*180.03.ff*322";
    Case::parse(line).unwrap()
}

#[test]
fn a_planted_fault_is_made_small() {
    let bad = |case: &Case| {
        let mut judged = judge(case);
        plant(case, &mut judged);
        judged.difference(case).is_some()
    };
    let case = large();
    assert!(bad(&case));
    let small = shrink(&case, &bad);
    assert!(bad(&small));
    assert_eq!((small.geometry.size, small.geometry.count, small.geometry.s), (64, 1, 1));
    assert_eq!((small.fuse, small.bytes.len()), (None, 6));
    assert!(small.image.iter().all(|&b| b == 0xFF), "{}", small.line());
}

#[test]
fn a_planted_fault_of_a_batch_is_made_small() {
    let records = "142,8,0,3,141,14,3,0,143,17,0,2,142,22,1,2,142,60,0,3,141,40,0,0";
    let line = format!("g=0/2/2/128x2 f=90 write_all n=1 a={records} b=010203040506 i=ff*150.8e.ff*105");
    let bad = |case: &Case| {
        let mut judged = judge(case);
        plant(case, &mut judged);
        judged.difference(case).is_some()
    };
    let small = shrink(&Case::parse(&line).unwrap(), &bad);
    assert!(bad(&small));
    assert_eq!((small.geometry.size, small.geometry.count, small.geometry.s), (64, 1, 1));
    assert_eq!((small.array.len(), small.bytes.len(), small.fuse), (12, 0, None), "{}", small.line());
}

#[test]
fn a_planted_fault_of_a_lookup_is_made_small() {
    let g = Geometry { granularity: 4, s: 2, c: 1, strict: 0, size: 128, count: 4 };
    let mut store = Store::of(g, &[METADATA, DATA, METADATA, DATA]);
    let name = store.file([0, 1], 9, &[0x61; 40], &[]).unwrap().name_at;
    store.file([2, 3], 7, b"another", &[b"12"]).unwrap();
    set_size(&mut store.flash, name, 120);
    let path = [[0x61; 40], [0xFF; 40], [0xFF; 40]].concat();
    let case = Case { args: vec![9], bytes: path, image: store.flash.image, ..Case::of(Op::Lookup, g) };
    let bad = |case: &Case| {
        let mut judged = judge(case);
        plant(case, &mut judged);
        judged.difference(case).is_some()
    };
    assert!(bad(&case), "{}", judge(&case).show(&case));
    let small = shrink(&case, &bad);
    assert!(bad(&small));
    assert_eq!((small.geometry.size, small.geometry.count, small.bytes.len()), (64, 1, 17), "{}", small.line());
}

#[test]
fn a_planted_fault_of_a_sweep_is_made_small() {
    let g = Geometry { granularity: 4, s: 2, c: 2, strict: 0, size: 256, count: 4 };
    let mut store = Store::of(g, &[METADATA, DATA, METADATA, DATA]);
    let file = store.file([2, 1], 9, b"street", &[b"12", b"3"]).unwrap();
    store.file([0, 3], 7, b"another", &[b"12"]).unwrap();
    for block in [0, 2] {
        store.put(block, TYPES[0], &payload(g, 9, file.name_at, &file.data)).unwrap();
    }
    let bad = |case: &Case| {
        let mut judged = judge(case);
        plant(case, &mut judged);
        judged.difference(case).is_some()
    };
    let words: Vec<u32> = (1..=g.room() as u32).collect();
    for (op, array) in [(Op::Sweep, vec![]), (Op::SweepWith, words)] {
        let case = Case { fuse: Some(3), array, image: store.flash.image.clone(), ..Case::of(op, g) };
        assert!(bad(&case), "{}", judge(&case).show(&case));
        let small = shrink(&case, &bad);
        assert!(bad(&small));
        assert_eq!((small.geometry.size, small.geometry.count, small.fuse), (128, 3, None), "{}", small.line());
        assert!(small.array.iter().all(|&word| word == 0), "{}", small.line());
    }
}

/// Runs the program, by the runner that HARNESS_RUNNER names where this machine is of another kind.
fn harness(words: &[&str]) -> Output {
    let program = env!("CARGO_BIN_EXE_harness");
    let runner = std::env::var("HARNESS_RUNNER").unwrap_or_default();
    let mut command = if runner.is_empty() { Command::new(program) } else { Command::new(runner) };
    if command.get_program() != program {
        command.arg(program);
    }
    command.args(words).output().unwrap()
}

/// The smallest case that a run with a planted fault reports; without the fault all sides agree on it.
fn reported(layer: &str) -> Case {
    reported_by(&["compare", "--layer", layer, "--cases", "5000", "--plant"])
}

fn reported_by(words: &[&str]) -> Case {
    let run = harness(words);
    assert!(!run.status.success());
    let said = String::from_utf8(run.stderr).unwrap();
    assert!(said.contains("DIFFERS: the library and the"), "{said}");
    let line = said.split_once("harness replay '").and_then(|(_, rest)| rest.split_once('\'')).unwrap().0;
    assert!(harness(&["replay", line]).status.success(), "without the planted fault all agree");
    Case::parse(line).unwrap()
}

#[test]
fn a_planted_fault_is_reported() {
    let case = reported("medium");
    assert_eq!((case.op, case.bytes.len()), (Op::Write, 6));
    for layer in ["objects", "blocks", "collector"] {
        let case = reported(layer);
        assert!(case.op.stores() && case.geometry.count <= 2, "{}", case.line());
    }
    let case = reported("batch");
    assert_eq!((case.op, case.array.len()), (Op::WriteAll, 12), "two records done, and the one refused");
    let case = reported("storage");
    assert_eq!((case.op, case.bytes.len()), (Op::Lookup, 17), "the shortest path of two turns");
    let case = reported("sweep");
    assert_eq!((judge(&case).model.values[0], case.geometry.size), (2, 64), "two twins, and the one that stays");
}

#[test]
fn a_planted_fault_under_the_strict_mark_is_reported() {
    for layer in ["medium", "objects", "blocks", "collector", "batch"] {
        let case = reported_by(&["compare", "--layer", layer, "--strict", "--cases", "5000", "--plant"]);
        assert_eq!((judge(&case).model.answer, case.geometry.strict), (10, 1), "{}", case.line());
    }
}

#[test]
fn a_run_under_the_strict_mark_fails_where_10_was_not_met() {
    let run = harness(&["compare", "--layer", "batch", "--strict", "--cases", "0", "--random-only"]);
    assert!(!run.status.success());
    assert_eq!(String::from_utf8(run.stderr).unwrap(), "write_all never met 0 done\n");
}

#[test]
fn the_text_is_asked_where_it_can_be() {
    let case = Case::parse("g=0/1/1/64x1 f=- write_to n=0,8,142 a=- b=414243 i=ff*64").unwrap();
    assert_eq!(units(&case), 6);
    let judged = judge(&case);
    if oracle::present() {
        assert_eq!(judged.scope, Scope::Everything);
        assert_eq!(judged.text.unwrap().answer, 0);
    } else {
        assert_eq!(judged.scope, Scope::Nothing(oracle::SKIPPED));
    }
}
