//! Moves at every fuse, and the promise about cuts checked on the text's and the library's own results: before the
//! copy's finish mark only the original reads as finished, whole; between the marks both, equal; after the delete mark
//! only the copy; no byte changes outside the destination's span and the original's state mark. And the way out: the same
//! move again ends as the uncut one from every cut before the finish mark; between the marks it gives 4 and stores
//! nothing, and deleting the original ends so. And scans: where the copy goes to the free end of its block and its payload
//! does not begin as a header could, a scan of that block is refused after the payload's units until the size is begun.
//!
//! Under the strict mark the promise is the same where the unit of the original's delete mark is erased; the same move again then
//! meets the type of the unfinished copy, 10, with nothing stored. Where that unit is not erased, which goes with Word(4) only, the
//! copy is finished, and then comes 10 at every fuse: both read as finished, and stay so.

use std::ops::RangeInclusive;

use crate::{
    answer::{DONE, FS_CORRUPTED, INVALID_OPERATION, NOT_ERASED, POWER_LOST},
    case::Case,
    cases::{images, units},
    compare::{judge, Judged},
    geometry::Geometry,
    model::{header::Header, header::DELETED, header::FINALIZED, layout, Flash},
    op::Op,
    outcome::Outcome,
    random::Random,
};

/// What a run of moves has seen.
#[derive(Default)]
pub struct Seen {
    pub moves: u64,
    pub cases: u64,
    /// before the finish mark, between the marks, after the delete mark
    pub phases: [u64; 3],
    /// scans of the copy's block: done, refused
    pub scans: [u64; 2],
    /// the same move again from before the finish mark: done, 10
    pub again: [u64; 2],
    /// moves whose delete mark cannot be stored
    pub stuck: u64,
    /// of those, before the finish mark, and from there on
    pub stuck_phases: [u64; 2],
}

/// A move of a finished object to an erased place, on an image made by real sequences, with power.
pub fn make(r: &mut Random, g: Geometry) -> Option<Case> {
    let flash = if r.one_in(3) { images::image(r, g) } else { images::good(r, g) };
    let from = r.below(g.count);
    let header = images::finished(r, &flash, from)?;
    let to = r.below(g.count);
    let at = *images::spots(&flash, to).last()?;
    let span = layout::align(g, header.total(g));
    let there = flash.read(to, at as u64, span).ok()?;
    if there.iter().any(|&b| b != 0xFF) || overlap(g, header, to, at) {
        return None;
    }
    let case = Case {
        args: vec![to, at],
        array: header.numbers().to_vec(),
        image: flash.image,
        ..Case::of(Op::MoveObject, g)
    };
    (crate::model::run(&case).outcome.answer == DONE).then_some(case)
}

/// Whether the spans of original and copy share a byte.
fn overlap(g: Geometry, header: Header, to: u32, at: u32) -> bool {
    let span = layout::align(g, header.total(g)) as u32;
    to == header.block && at < header.offset + span && header.offset < at + span
}

/// One move at every fuse: compared as any case, then what is promised of it checked on each side's own result.
pub fn every_fuse(case: &Case, seen: &mut Seen) -> Result<(), String> {
    let units = units(case);
    let whole = agreed(case).image;
    let unscanned = unscanned(case, &whole);
    seen.moves += 1;
    for fuse in 0..=units + 1 {
        let cut = Case { fuse: Some(fuse), ..case.clone() };
        let judged = compared(&cut)?;
        let phase = if fuse + 1 < units { 0 } else { (fuse + 2 - units).min(2) as usize };
        seen.cases += 1;
        seen.phases[phase] += 1;
        let wrong = |what: String| format!("fuse {fuse} of {units}: {what}\n{}\n{}", cut.line(), judged.show(&cut));
        phases(&cut, &judged, phase).map_err(wrong)?;
        scanned(case, &judged.model.image, fuse, &unscanned, seen).map_err(wrong)?;
        if case.geometry.marked() && phase == 0 && fuse > 0 {
            if !met(case, &judged.model.image, NOT_ERASED) {
                return Err(wrong("the same move again should meet the copy's type".to_string()));
            }
            seen.again[1] += 1;
            continue;
        }
        if !mended(case, &judged.model.image, phase, &whole) {
            return Err(wrong("the way out does not end as the uncut move".to_string()));
        }
        seen.again[0] += (phase == 0) as u64;
    }
    Ok(())
}

/// The sides' outcomes, where they are the same.
fn compared(cut: &Case) -> Result<Judged, String> {
    let judged = judge(cut);
    match judged.difference(cut) {
        Some(what) => Err(format!("{what}\n{}\n{}", cut.line(), judged.show(cut))),
        None => Ok(judged),
    }
}

/// Whether the call, on what a cut left, gives this number with nothing stored and the fuse as it was, at fuses 0 and 3 and with
/// power.
fn met(case: &Case, left: &[u8], number: u8) -> bool {
    [Some(0), Some(3), None].into_iter().all(|fuse| {
        let again = agreed(&Case { image: left.to_vec(), fuse, ..case.clone() });
        again.answer == number && again.image == left && again.fuse == fuse
    })
}

/// The move on an image where another byte of the delete mark's word is programmed. No reading sees that byte. None where the mark is
/// the whole unit.
pub fn stuck(r: &mut Random, case: &Case) -> Option<Case> {
    let g = case.geometry;
    if !g.marked() || layout::width(g) == 1 {
        return None;
    }
    let mut stuck = case.clone();
    stuck.image[mark(case) + r.between(1, 3) as usize] = r.below(255) as u8;
    Some(stuck)
}

/// Such a move at every fuse and with power: before the copy's finish mark as any move, from there on 10 with both finished, for
/// good, and no byte changed outside the destination.
pub fn every_fuse_stuck(case: &Case, seen: &mut Seen) -> Result<(), String> {
    let copied = units(case);
    seen.stuck += 1;
    for fuse in (0..=copied + 2).map(Some).chain([None]) {
        let cut = Case { fuse, ..case.clone() };
        let judged = compared(&cut)?;
        let left = fuse.map(|fuse| fuse.saturating_sub(copied));
        let finished = fuse.is_none_or(|fuse| fuse >= copied);
        seen.stuck_phases[finished as usize] += 1;
        let wrong = |what: String| format!("fuse {fuse:?} of {copied}: {what}\n{}\n{}", cut.line(), judged.show(&cut));
        phases(&cut, &judged, finished as usize).map_err(wrong)?;
        let answer = if finished { NOT_ERASED } else { POWER_LOST };
        for (side, outcome) in sides(&judged) {
            if (outcome.answer, outcome.fuse) != (answer, left) || outcome.image[mark(case)] != case.image[mark(case)] {
                return Err(wrong(format!("{side}: should end with {answer}, and with the delete mark as it was")));
            }
        }
        if finished && !for_good(case, &judged.model.image) {
            return Err(wrong("both should stay finished".to_string()));
        }
    }
    Ok(())
}

/// Neither the same move again nor a delete of the original stores anything.
fn for_good(case: &Case, left: &[u8]) -> bool {
    let delete = Case { op: Op::InfoDelete, args: vec![], ..case.clone() };
    met(case, left, INVALID_OPERATION) && met(&delete, left, NOT_ERASED)
}

/// Where the original's delete mark is stored.
fn mark(case: &Case) -> usize {
    let (g, original) = (case.geometry, Header::from_numbers(&case.array));
    (original.block * g.size + original.offset) as usize + layout::delete_mark(g).0 as usize
}

/// The promise about cuts, on each side's own result.
fn phases(cut: &Case, judged: &Judged, phase: usize) -> Result<(), String> {
    for (side, outcome) in sides(judged) {
        if let Some(broken) = broken(cut, outcome, phase) {
            return Err(format!("{side}: {broken}"));
        }
    }
    Ok(())
}

/// The sides that were asked, each with its own result.
fn sides(judged: &Judged) -> impl Iterator<Item = (&'static str, &Outcome)> {
    let all =
        [("model", Some(&judged.model)), ("text", judged.text.as_ref().ok()), ("library", judged.library.as_ref())];
    all.into_iter().filter_map(|(side, outcome)| Some((side, outcome?)))
}

/// The scan of the copy's block is refused after just the cuts that are said, where something is said.
fn scanned(
    case: &Case,
    image: &[u8],
    fuse: u32,
    said: &Option<RangeInclusive<u32>>,
    seen: &mut Seen,
) -> Result<(), String> {
    let Some(said) = said else { return Ok(()) };
    let refused = scan(case, image).answer == FS_CORRUPTED;
    seen.scans[refused as usize] += 1;
    (refused == said.contains(&fuse)).then_some(()).ok_or("the scan of the copy's block is not as expected".to_string())
}

fn scan(case: &Case, image: &[u8]) -> Outcome {
    agreed(&Case { args: vec![case.args[0]], image: image.to_vec(), ..Case::of(Op::ScanBlock, case.geometry) })
}

/// The cuts after which the copy's block cannot be scanned; none where this is not said of the move: the copy does not go
/// to the free end of a block that scans, also after the uncut move, its payload begins as a header could, or no second header fits.
fn unscanned(case: &Case, whole: &[u8]) -> Option<RangeInclusive<u32>> {
    let (g, at) = (case.geometry, case.args[1]);
    let before = scan(case, &case.image);
    let free_end = before.answer == DONE && before.values[0] >= 2 && before.values[2] == at as u64;
    let scans = scan(case, whole).answer == DONE;
    let header = layout::header_len(g);
    let original = Header::from_numbers(&case.array);
    let (_, payload) = finished_at(case, &case.image, original.block, original.offset)?;
    let first = *payload.first()?;
    let said = free_end && scans && !matches!(first, 0x8D..=0x8F | 0xFF) && at as u64 + 2 * header < g.size as u64;
    said.then(|| 2..=1 + payload.len().div_ceil(layout::width(g) as usize) as u32)
}

/// Whether the way out from what a cut left ends as the uncut move.
fn mended(case: &Case, left: &[u8], phase: usize, whole: &[u8]) -> bool {
    let again = agreed(&Case { image: left.to_vec(), ..case.clone() });
    match phase {
        0 => again.answer == DONE && again.image == whole,
        1 => {
            let delete = Case { op: Op::InfoDelete, args: vec![], image: left.to_vec(), ..case.clone() };
            again.answer == INVALID_OPERATION && again.image == left && agreed(&delete).image == whole
        }
        _ => left == whole,
    }
}

/// The sentence of the promise that this result breaks, if any.
fn broken(cut: &Case, outcome: &Outcome, phase: usize) -> Option<&'static str> {
    let original = Header::from_numbers(&cut.array);
    let (to, at) = (cut.args[0], cut.args[1]);
    let payload = finished_at(cut, &cut.image, original.block, original.offset);
    let first = finished_at(cut, &outcome.image, original.block, original.offset);
    let copy = finished_at(cut, &outcome.image, to, at);
    let readings = match phase {
        0 => {
            (first == payload && copy.is_none()).then_some(()).ok_or("only the original should read as finished, whole")
        }
        1 => (first == payload && copy == payload).then_some(()).ok_or("both should read as finished, equal"),
        _ => (first.is_none() && copy == payload).then_some(()).ok_or("only the copy should read as finished"),
    };
    if let Err(sentence) = readings {
        return Some(sentence);
    }
    let flash = Flash::new(cut.geometry, outcome.image.clone(), None);
    let deleted = flash.read_header(original.block, original.offset).is_ok_and(|header| header.state == DELETED);
    if deleted != (phase == 2) {
        return Some("the original's state should be Deleted just after the delete mark");
    }
    changed_elsewhere(cut, outcome).then_some("a byte changed outside the destination and the original's state mark")
}

/// Type and payload of a finished object, by the readers of the text and of the library where they are there; they
/// must agree with the model's.
fn finished_at(cut: &Case, image: &[u8], block: u32, offset: u32) -> Option<(u32, Vec<u8>)> {
    let open = Case { args: vec![block, offset, 0], image: image.to_vec(), ..Case::of(Op::ReaderNew, cut.geometry) };
    let opened = agreed(&open);
    if opened.answer != DONE || opened.values[1] != FINALIZED as u64 {
        return None;
    }
    let array: Vec<u32> = opened.values.iter().map(|&n| n as u32).collect();
    let kind = array[0];
    let read = Case { array, args: vec![], bytes: vec![0; cut.geometry.size as usize], op: Op::ReaderRead, ..open };
    let got = agreed(&read);
    (got.answer == DONE).then(|| (kind, got.bytes[..got.values[0] as usize].to_vec()))
}

/// The outcome of a reading that all sides give.
fn agreed(case: &Case) -> Outcome {
    let judged = judge(case);
    assert_eq!(judged.difference(case), None, "{}", case.line());
    judged.text.unwrap_or(judged.model)
}

fn changed_elsewhere(cut: &Case, outcome: &Outcome) -> bool {
    let g = cut.geometry;
    let original = Header::from_numbers(&cut.array);
    let place = |block: u32, offset: u32| (block * g.size + offset) as usize;
    let start = place(cut.args[0], cut.args[1]);
    let span = start..start + layout::align(g, original.total(g)) as usize;
    (0..cut.image.len()).any(|i| cut.image[i] != outcome.image[i] && !span.contains(&i) && i != mark(cut))
}
