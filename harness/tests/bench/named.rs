//! Calls of files by their names, on all sides that can be asked; a difference between them is a failure.

use harness::{
    case::Case,
    cases::stores::{Place, Store},
    compare::judge,
    geometry::Geometry,
    model::{
        blocks::{DATA, METADATA},
        Flash,
    },
    op::Op,
    outcome::Outcome,
};

pub const HASH: u32 = 0x0403_0201;

/// A Data block, two Metadata blocks, and another Data block.
pub fn empty(granularity: u8) -> Store {
    let g = Geometry { granularity, s: 1, c: 1, strict: 0, size: 128, count: 4 };
    Store::of(g, &[DATA, METADATA, METADATA, DATA])
}

/// The outcome of a case, where it is the same on all sides.
pub fn agreed(case: &Case) -> Outcome {
    let judged = judge(case);
    assert_eq!(judged.difference(case), None, "{}\n{}", case.line(), judged.show(case));
    judged.model
}

fn told(outcome: &Outcome) -> Result<(), u8> {
    if outcome.done() {
        Ok(())
    } else {
        Err(outcome.answer)
    }
}

fn ask(flash: &Flash, op: Op, args: &[u32], array: &[u32], bytes: &[u8]) -> Outcome {
    let (args, array, bytes) = (args.to_vec(), array.to_vec(), bytes.to_vec());
    agreed(&Case { args, array, bytes, image: flash.image.clone(), ..Case::of(op, flash.geometry) })
}

/// Where the metadata is. After a refusal the out values are as they were.
pub fn lookup(flash: &Flash, hash: u32, path: &[u8]) -> Result<Place, u8> {
    let outcome = ask(flash, Op::Lookup, &[hash], &[], path);
    let unset = outcome.values.iter().all(|&value| value == 0xA5A5_A5A5);
    told(&outcome).inspect_err(|_| assert!(unset))?;
    Ok([outcome.values[0] as u32, outcome.values[1] as u32])
}

pub fn size(flash: &Flash, at: Place) -> Result<u64, u8> {
    let outcome = ask(flash, Op::FileSize, &at, &[], &[]);
    told(&outcome).map(|()| outcome.values[0])
}

/// The bytes read into a buffer of so many; all others of the buffer are as they were, after a refusal all of them.
pub fn read(flash: &Flash, at: Place, position: u64, len: usize) -> Result<Vec<u8>, u8> {
    let before = vec![0x5A; len];
    let args = [at[0], at[1], position as u32, (position >> 32) as u32];
    let outcome = ask(flash, Op::FileRead, &args, &[], &before);
    let done = told(&outcome);
    let read = if done.is_ok() { outcome.values[0] as usize } else { 0 };
    assert_eq!(outcome.bytes[read..], before[read..]);
    done.map(|()| outcome.bytes[..read].to_vec()).inspect_err(|_| assert_eq!(outcome.values, [0xA5A5_A5A5_A5A5_A5A5]))
}

/// The whole file.
pub fn content(flash: &Flash, at: Place) -> Result<Vec<u8>, u8> {
    read(flash, at, 0, 200)
}

/// A name, its metadata's place, and the place from which the next one is looked for.
pub type Named = (Vec<u8>, Place, Place);

/// The next name into a buffer of so many bytes; none at the end. What is not told is as it was.
pub fn next(flash: &Flash, from: Place, len: usize) -> Result<Option<Named>, u8> {
    let before = vec![0x5A; len];
    let outcome = ask(flash, Op::NamesNext, &[], &from, &before);
    let done = told(&outcome);
    if done.is_err() || outcome.values[0] == 0 {
        assert_eq!((&outcome.array[..], &outcome.bytes), (&from[..], &before), "the place and the buffer");
        assert_eq!(outcome.values[1..], [0xA5A5_A5A5, 0xA5A5_A5A5, 0xA5A5_A5A5_A5A5_A5A5]);
        return done.map(|()| None);
    }
    let [found, block, offset, read] = outcome.values[..] else { panic!("four values") };
    assert_eq!((found, &outcome.bytes[read as usize..]), (1, &before[read as usize..]));
    let place = [outcome.array[0], outcome.array[1]];
    Ok(Some((outcome.bytes[..read as usize].to_vec(), [block as u32, offset as u32], place)))
}

/// The names from the first on, and what ends them.
pub fn names(flash: &Flash) -> (Vec<Vec<u8>>, Result<(), u8>) {
    let (mut place, mut names) = (first(flash.geometry), Vec::new());
    loop {
        match next(flash, place, 40) {
            Ok(Some((name, _, behind))) => {
                names.push(name);
                place = behind;
            }
            Ok(None) => return (names, Ok(())),
            Err(number) => return (names, Err(number)),
        }
    }
}

/// Where `names_new` begins.
pub fn first(g: Geometry) -> Place {
    let outcome = agreed(&Case::of(Op::NamesNew, g));
    assert_eq!(outcome.answer, 0);
    [outcome.values[0] as u32, outcome.values[1] as u32]
}
