//! An outcome: everything that can be seen after one call.

use crate::{answer, case, case::Case, hexrun, op::Shape};

#[derive(Clone, PartialEq, Eq, Debug)]
pub struct Outcome {
    pub answer: u8,
    /// out values, as they were before the call where it did not set them
    pub values: Vec<u64>,
    pub fuse: Option<u32>,
    pub image: Vec<u8>,
    /// the array or table afterwards
    pub array: Vec<u32>,
    /// how many of the array's numbers this side can tell (the text consumes some of its values)
    pub known: usize,
    /// the lent bytes afterwards
    pub bytes: Vec<u8>,
}

impl Outcome {
    /// Nothing has happened yet.
    pub fn before(case: &Case) -> Outcome {
        Outcome {
            answer: answer::DONE,
            values: case.op.signature().outs.iter().map(|out| out.before()).collect(),
            fuse: case.fuse,
            image: case.image.clone(),
            array: case.array.clone(),
            known: case.array.len(),
            bytes: case.bytes.clone(),
        }
    }

    pub fn done(&self) -> bool {
        self.answer == answer::DONE
    }

    /// For people: what changed against the case.
    pub fn show(&self, case: &Case) -> String {
        let mut text = format!("answer {}", answer::show(self.answer));
        if !self.values.is_empty() {
            text += &format!("\n    values {}", case::show_numbers(&self.values));
        }
        if case.op.stores() {
            text += &format!("\n    fuse   {}", case::show_fuse(self.fuse));
        }
        if !self.array.is_empty() {
            let unseen = if self.known < self.array.len() {
                format!(" (only the first {} are told)", self.known)
            } else {
                String::new()
            };
            text += &format!("\n    array  {}{unseen}", case::show_numbers(&self.array));
        }
        if !self.bytes.is_empty() {
            text += &format!("\n    bytes  {}", hexrun::show(&self.bytes));
        }
        if case.op.stores() {
            text += &format!("\n    image  {}", show_changes(&case.image, &self.image));
        }
        text
    }
}

/// The first way in which two outcomes of the same case differ, if any. `text` is true where one side is the
/// repository's text, whose own values are not looked at after a refusal.
pub fn difference(case: &Case, one: &Outcome, other: &Outcome, text: bool) -> Option<&'static str> {
    if one.answer != other.answer {
        return Some("answer");
    }
    if one.fuse != other.fuse {
        return Some("fuse");
    }
    if one.image != other.image {
        return Some("image");
    }
    if one.bytes != other.bytes {
        return Some("lent bytes");
    }
    let signature = case.op.signature();
    let shape = signature.array;
    let lent = matches!(shape, Shape::Table | Shape::Batch | Shape::Words);
    let values_count = one.done() || !text;
    if (values_count || lent) && arrays_differ(shape, one, other) {
        return Some(match shape {
            Shape::Table => "table",
            Shape::Words => "words",
            _ => "array",
        });
    }
    if (values_count || signature.tells_always()) && values_differ(case, one, other) {
        return Some("values");
    }
    None
}

fn arrays_differ(shape: Shape, one: &Outcome, other: &Outcome) -> bool {
    if one.array.len() != other.array.len() {
        return true;
    }
    let known = one.known.min(other.known);
    if shape == Shape::Writer && one.done() && known == 12 {
        return plain_writer(&one.array) != plain_writer(&other.array);
    }
    one.array[..known] != other.array[..known]
}

fn values_differ(case: &Case, one: &Outcome, other: &Outcome) -> bool {
    if one.values.len() == 12 && one.done() && case.op == crate::op::Op::WriterAllocate {
        return plain_writer(&one.values) != plain_writer(&other.values);
    }
    one.values != other.values
}

/// A writer's numbers with the tail's places that hold nothing taken as 0.
fn plain_writer<T: Copy + Into<u64>>(numbers: &[T]) -> Vec<u64> {
    let mut plain: Vec<u64> = numbers.iter().map(|&n| n.into()).collect();
    let held = plain[6].min(4) as usize;
    plain[7 + held..11].fill(0);
    plain
}

/// The ranges of the image that are new, as `offset:bytes` joined by commas; `same` for none.
pub fn show_changes(before: &[u8], now: &[u8]) -> String {
    if before.len() != now.len() {
        return format!("all:{}", hexrun::show(now));
    }
    let mut parts = Vec::new();
    let mut at = 0;
    while at < now.len() {
        if now[at] == before[at] {
            at += 1;
            continue;
        }
        let len = (at..now.len()).take_while(|&i| now[i] != before[i]).count();
        parts.push(format!("{at}:{}", hexrun::show(&now[at..at + len])));
        at += len;
    }
    if parts.is_empty() {
        "same".to_string()
    } else {
        parts.join(",")
    }
}

/// The image that `show_changes` told of.
pub fn parse_changes(before: &[u8], text: &str) -> Result<Vec<u8>, String> {
    let mut image = before.to_vec();
    if text == "same" {
        return Ok(image);
    }
    for part in text.split(',') {
        let (at, bytes) = part.split_once(':').ok_or(format!("{part:?} is not offset:bytes"))?;
        let at: usize = at.parse().map_err(|_| format!("{at:?} is not an offset"))?;
        let bytes = hexrun::parse(bytes)?;
        image.get_mut(at..at + bytes.len()).ok_or(format!("{part:?} is outside the image"))?.copy_from_slice(&bytes);
    }
    Ok(image)
}
