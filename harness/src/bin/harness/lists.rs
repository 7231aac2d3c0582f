//! `replay`, `record` and `recorded`: single cases and recorded lists.

use std::fs;

use harness::{
    case::Case,
    cases::Source,
    compare::judge,
    model,
    op::{Layer, LAYERS},
    oracle, recorded,
};

use crate::options::{tell_sides, Options, USAGE};

/// Longer lines are not recorded, so that the lists stay small.
const LONGEST: usize = 450;

pub fn replay(o: &Options) -> Result<(), String> {
    let mut differ = 0;
    for line in &o.rest {
        let case = Case::parse(line)?;
        let judged = judge(&case);
        println!("{}\n{}", case.line(), judged.show(&case));
        match judged.difference(&case) {
            Some(what) => {
                println!("  DIFFERS: {what}");
                differ += 1;
            }
            None => println!("  agree ({:?})", judged.scope),
        }
    }
    if differ > 0 {
        return Err(format!("{differ} differ"));
    }
    Ok(())
}

pub fn record(o: &Options) -> Result<(), String> {
    if !oracle::present() {
        return Err(oracle::SKIPPED.to_string());
    }
    let file = o.out.as_ref().ok_or(USAGE)?;
    let layers: Vec<Layer> = o.layers.iter().copied().filter(|&layer| oracle::has(layer)).collect();
    if layers.is_empty() {
        return Err("the text has no function of this layer".to_string());
    }
    let cases = o.cases.unwrap_or(1_000);
    let name = if o.layers.len() == LAYERS.len() { "all" } else { o.layers[0].name() };
    let strict = if o.strict { " --strict" } else { "" };
    let mut text = format!("# harness record --layer {name} --cases {cases} --seed {}{strict} --out FILE\n", o.seed);
    let source = if o.strict { Source::strict } else { Source::new };
    for layer in layers {
        for line in lines(source(layer, o.seed)).take(cases as usize) {
            text += &line;
            text.push('\n');
        }
    }
    fs::write(file, text).map_err(|e| format!("{file}: {e}"))
}

/// The text's answers to the random cases of a layer, where it can be asked and does not part from the paper.
fn lines(source: Source) -> impl Iterator<Item = String> {
    let told = source.filter_map(|case| {
        let outcome = oracle::run(&case).ok()?;
        (!model::run(&case).rule).then(|| recorded::line(&case, &outcome))
    });
    told.filter(|line| line.len() <= LONGEST)
}

pub fn recorded(o: &Options) -> Result<(), String> {
    tell_sides(&LAYERS);
    for file in &o.rest {
        let list = fs::read_to_string(file).map_err(|e| format!("{file}: {e}"))?;
        println!("{file}: {} recorded answers agree", recorded::replay(&list)?);
    }
    Ok(())
}
