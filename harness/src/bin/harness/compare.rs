//! `compare`: cases by layer on all sides, with a table of answers at the end.

use std::{fs, time::Instant};

use harness::{
    case::Case,
    cases::{exhaustive, Source},
    compare::{judge, plant, Judged},
    op::Layer,
    shrink::shrink,
    table::Tally,
};

use crate::options::{tell_sides, Options};

/// Random cases a layer, unless another number is given.
const CASES: u64 = 200_000;

/// The same under the strict mark.
const STRICT_CASES: u64 = 20_000;

pub fn run(o: &Options) -> Result<(), String> {
    tell_sides(&o.layers);
    let mut tally = Tally::default();
    for &layer in &o.layers {
        run_layer(o, layer, &mut tally)?;
    }
    let report = format!("{}\n{}", tally.markdown(), tally.scope());
    println!("\n{report}");
    if o.strict {
        tally.strict(&o.layers)?;
    }
    if let Some(file) = &o.table {
        fs::write(file, format!("{}\n{report}", title(o))).map_err(|e| format!("{file}: {e}"))?;
    }
    Ok(())
}

/// The head of a kept table: what made it.
fn title(o: &Options) -> String {
    let layer = if o.layers.len() == 1 { o.layers[0].name() } else { "all" };
    let only = if o.random_only { " --random-only" } else { "" };
    let strict = if o.strict { " --strict" } else { "" };
    let command = format!("harness compare --layer {layer} --cases {} --seed {}{strict}{only}", wanted(o), o.seed);
    format!("# Answers by function and number\n\nMade by `{command}`; all sides agree on every case.\n")
}

fn wanted(o: &Options) -> u64 {
    o.cases.unwrap_or(if o.strict { STRICT_CASES } else { CASES })
}

fn run_layer(o: &Options, layer: Layer, tally: &mut Tally) -> Result<(), String> {
    let start = Instant::now();
    let before = tally.cases;
    let wanted = wanted(o);
    let mut failed = None;
    if !o.random_only {
        let small = if o.strict { exhaustive::strict } else { exhaustive::all };
        small(layer, &mut |case| {
            failed = step(o, &case, tally).err();
            progress(layer, "counted through", tally.cases - before, &start);
            failed.is_none()
        });
    }
    failed.map_or(Ok(()), Err)?;
    let counted = tally.cases - before;
    let source = if o.strict { Source::strict } else { Source::new };
    for case in source(layer, o.seed).take(wanted as usize) {
        step(o, &case, tally)?;
        progress(layer, "in all", tally.cases - before, &start);
    }
    let seconds = start.elapsed().as_secs_f64();
    let rate = (tally.cases - before) as f64 / seconds;
    let name = layer.name();
    println!(
        "{name}: {counted} counted through, {wanted} random (seed {}), {seconds:.1} s, {rate:.0} a second",
        o.seed
    );
    Ok(())
}

fn progress(layer: Layer, what: &str, cases: u64, start: &Instant) {
    if cases % 100_000 == 0 {
        eprintln!("{}: {cases} {what}, {:.0} s", layer.name(), start.elapsed().as_secs_f64());
    }
}

fn judged(o: &Options, case: &Case) -> Judged {
    let mut judged = judge(case);
    if o.plant {
        plant(case, &mut judged);
    }
    judged
}

/// Judges one case; on a difference, the report of the smallest case.
fn step(o: &Options, case: &Case, tally: &mut Tally) -> Result<(), String> {
    let first = judged(o, case);
    tally.count(case, &first);
    if first.difference(case).is_none() {
        return Ok(());
    }
    eprintln!("a difference; making it smaller");
    let smallest = shrink(case, &|smaller| judged(o, smaller).difference(smaller).is_some());
    let last = judged(o, &smallest);
    let what = last.difference(&smallest).unwrap_or_default();
    Err(format!("DIFFERS: {what}\nharness replay '{}'\n{}", smallest.line(), last.show(&smallest)))
}
