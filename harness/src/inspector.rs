//! A second inspector, over the repository's own text: the lines that the paper asks for of an image.

use crate::{
    case::Case,
    geometry::Geometry,
    model,
    op::Op,
    oracle,
    outcome::Outcome,
};

const KINDS: [&str; 5] = ["Empty", "Unknown", "Metadata", "Data", "Undefined"];
const STATES: [&str; 4] = ["Free", "Allocated", "Finalized", "Deleted"];

/// What the text answers; the model, where the text is not at hand or has no instance of this geometry.
fn ask(op: Op, g: Geometry, image: &[u8], args: &[u32], array: &[u32]) -> Outcome {
    let mut case = Case::of(op, g);
    case.args = args.to_vec();
    case.array = array.to_vec();
    if case.has_image() {
        case.image = image.to_vec();
    }
    oracle::run(&case).unwrap_or_else(|_| model::run(&case).outcome)
}

fn type_name(byte: u64) -> &'static str {
    match byte {
        0x8F => "FileMetadata",
        0x8E => "FileData",
        0x8D => "FileName",
        _ => "Free",
    }
}

/// A line an object, as listing meets them.
fn objects(g: Geometry, image: &[u8], block: u32) -> String {
    let unset = (1u64 << (8 * g.s)) - 1;
    let started = ask(Op::IteratorNew, g, image, &[block], &[]);
    let mut at: Vec<u32> = started.values.iter().map(|&n| n as u32).collect();
    let mut text = String::new();
    loop {
        let next = ask(Op::IteratorNext, g, image, &[], &at);
        if !next.done() || next.values[0] != 1 {
            return text;
        }
        let [ty, state, size, block, offset] = next.values[1..6] else { unreachable!() };
        let size = if size == unset { "-".to_string() } else { size.to_string() };
        text += &format!("object {block} {offset} {} {} {size}\n", type_name(ty), STATES[state as usize]);
        at = next.array;
    }
}

/// All lines of an image of a good geometry.
pub fn lines(g: Geometry, image: &[u8]) -> String {
    let mut text = String::new();
    for block in 0..g.count {
        let scan = ask(Op::ScanBlock, g, image, &[block], &[]);
        if !scan.done() {
            text += &format!("block {block} refused {}\n", scan.answer);
            continue;
        }
        let [kind, erases, used, allow] = scan.values[..] else { unreachable!() };
        let allow = if allow == 1 { "yes" } else { "no" };
        text += &format!("block {block} {} {erases} {used} {allow}\n", KINDS[kind as usize]);
        if kind >= 2 {
            text += &objects(g, image, block);
        }
    }
    text
}

/// The geometry record: granularity, s, c, strict mark, block size, block count, four zero bytes; low byte first.
pub fn record(g: Geometry) -> Vec<u8> {
    let mut bytes = vec![g.granularity, g.s, g.c, g.strict as u8];
    bytes.extend(g.size.to_le_bytes());
    bytes.extend(g.count.to_le_bytes());
    bytes.extend([0; 4]);
    bytes
}
