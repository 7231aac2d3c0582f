//! Recorded lists: the text's answers, one case and its outcome a line, to be replayed where the text is not at hand.
//!
//! `CASE = ANSWER v=VALUES f=FUSE a=ARRAY/KNOWN b=BYTES i=CHANGES`, where changes are the image's new ranges.

use crate::{
    case::{after, parse_fuse, parse_numbers, show_fuse, show_numbers, Case},
    hexrun, model, oracle,
    outcome::{difference, parse_changes, show_changes, Outcome},
    rattle,
};

pub fn line(case: &Case, outcome: &Outcome) -> String {
    format!(
        "{} = {} v={} f={} a={}/{} b={} i={}",
        case.line(),
        outcome.answer,
        show_numbers(&outcome.values),
        show_fuse(outcome.fuse),
        show_numbers(&outcome.array),
        outcome.known,
        if outcome.bytes == case.bytes { "same".to_string() } else { hexrun::show(&outcome.bytes) },
        show_changes(&case.image, &outcome.image)
    )
}

pub fn parse(line: &str) -> Result<(Case, Outcome), String> {
    let (case, told) = line.split_once(" = ").ok_or("no = in the line")?;
    let case = Case::parse(case)?;
    let words: Vec<&str> = told.split_whitespace().collect();
    let &[answer, v, f, a, b, i] = words.as_slice() else { return Err("an outcome has 6 words".to_string()) };
    let (array, known) = after(a, "a=")?.split_once('/').ok_or("no / in the array")?;
    let bytes = after(b, "b=")?;
    let outcome = Outcome {
        answer: answer.parse().map_err(|_| "answer")?,
        values: parse_numbers(after(v, "v=")?)?,
        fuse: parse_fuse(after(f, "f=")?)?,
        image: parse_changes(&case.image, after(i, "i=")?)?,
        array: parse_numbers(array)?,
        known: known.parse().map_err(|_| "known")?,
        bytes: if bytes == "same" { case.bytes.clone() } else { hexrun::parse(bytes)? },
    };
    Ok((case, outcome))
}

/// Replays the lines of a list on model and library (and the text, where it is there); the count of cases, or the
/// first that differs.
pub fn replay(list: &str) -> Result<u64, String> {
    let mut cases = 0;
    for text in list.lines().filter(|text| !text.starts_with('#') && !text.is_empty()) {
        let (case, told) = parse(text).map_err(|e| format!("{e}: {text}"))?;
        check(&case, &told, "model", Some(model::run(&case).outcome))?;
        check(&case, &told, "library", rattle::run(&case))?;
        check(&case, &told, "text", oracle::run(&case).ok())?;
        cases += 1;
    }
    Ok(cases)
}

fn check(case: &Case, told: &Outcome, side: &str, given: Option<Outcome>) -> Result<(), String> {
    let Some(given) = given else { return Ok(()) };
    match difference(case, &given, told, true) {
        None => Ok(()),
        Some(what) => Err(format!(
            "{side} and recorded list differ in the {what}\n{}\n  {side}: {}\n  recorded: {}",
            case.line(),
            given.show(case),
            told.show(case)
        )),
    }
}
