//! The words of the command line.

use harness::{
    op::{Layer, LAYERS},
    oracle, rattle,
};

pub const USAGE: &str = "\
harness compare  [--layer medium|objects|blocks|collector|batch|storage|sweep|all] [--cases N] [--seed S] [--table FILE] [--random-only]
                 small cases counted through, then N random ones a layer; --random-only leaves the small ones out
                 --strict: under the strict mark; fails also where a function that can meet 10 did not, or another did
                 --plant: with a fault planted in the library's outcomes, to see it found
harness moves    [--cases N] [--seed S] [--strict]   N moves, each at every fuse, with the promise about cuts checked
harness inspector [--cases N] [--seed S] [--strict] PROGRAM ..   the program's lines on N images against those read off the text
harness replay   'LINE' ..                     one case on all three sides
harness record   [--layer ..] [--cases N] [--seed S] [--strict] --out FILE     the text's answers as a list
harness recorded FILE ..                       a recorded list on library and model
harness speed    [--layer batch|storage|sweep|all] [--cases N]   a batch against its records, lookup against the Rust's, sweeps without
                 and with words; the median of N rounds";

const SEED: u64 = 20_260_415;

pub struct Options {
    pub layers: Vec<Layer>,
    pub cases: Option<u64>,
    pub seed: u64,
    pub table: Option<String>,
    pub out: Option<String>,
    pub random_only: bool,
    pub strict: bool,
    pub plant: bool,
    /// words that are no options: lines or files
    pub rest: Vec<String>,
}

pub fn parse(mut words: impl Iterator<Item = String>) -> Result<Options, String> {
    let mut o = Options {
        layers: LAYERS.to_vec(),
        cases: None,
        seed: SEED,
        table: None,
        out: None,
        random_only: false,
        strict: false,
        plant: false,
        rest: vec![],
    };
    while let Some(word) = words.next() {
        let mut value = || words.next().ok_or(format!("{word} wants a value\n{USAGE}"));
        match word.as_str() {
            "--layer" => o.layers = layers(&value()?)?,
            "--cases" => o.cases = Some(number(&value()?)?),
            "--seed" => o.seed = number(&value()?)?,
            "--table" => o.table = Some(value()?),
            "--out" => o.out = Some(value()?),
            "--random-only" => o.random_only = true,
            "--strict" => o.strict = true,
            "--plant" => o.plant = true,
            _ if word.starts_with("--") => return Err(format!("no option {word}\n{USAGE}")),
            _ => o.rest.push(word),
        }
    }
    Ok(o)
}

fn number(text: &str) -> Result<u64, String> {
    text.replace(['_', ','], "").parse().map_err(|_| format!("{text} is not a number"))
}

fn layers(name: &str) -> Result<Vec<Layer>, String> {
    let found: Vec<Layer> = LAYERS.into_iter().filter(|layer| name == "all" || layer.name() == name).collect();
    if found.is_empty() {
        return Err(format!("no layer {name}\n{USAGE}"));
    }
    Ok(found)
}

/// Says what this build cannot compare.
pub fn tell_sides(layers: &[Layer]) {
    if !oracle::present() {
        println!("SKIPPED: the differential part against the repository's Rust: {}", oracle::SKIPPED);
    }
    for layer in layers.iter().filter(|layer| !rattle::present(**layer)) {
        println!("note: the library's {} layer is not linked (cargo feature `{}`)", layer.name(), layer.name());
    }
}
