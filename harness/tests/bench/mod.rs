//! One side (model, text or library) with an image, called step by step.
#![allow(dead_code)]

use harness::{case::Case, geometry::Geometry, model, op::Op, oracle, outcome::Outcome, rattle};

pub mod named;
pub mod store;
pub mod sweeps;

#[derive(Clone)]
pub struct Bench {
    pub side: &'static str,
    ask: fn(&Case) -> Option<Outcome>,
    pub geometry: Geometry,
    pub image: Vec<u8>,
    pub fuse: Option<u32>,
}

/// A bench for each side that is there, over an erased chip.
pub fn benches(geometry: Geometry) -> Vec<Bench> {
    let sides: [(&'static str, fn(&Case) -> Option<Outcome>); 3] = [
        ("model", |case| Some(model::run(case).outcome)),
        ("text", |case| oracle::run(case).ok()),
        ("library", rattle::run),
    ];
    let bench = |(side, ask)| Bench { side, ask, geometry, image: vec![0xFF; geometry.room()], fuse: None };
    sides.into_iter().map(bench).collect()
}

/// The benches of the sides that answer for this geometry.
pub fn sides(geometry: Geometry) -> Vec<Bench> {
    let there = |bench: &Bench| bench.clone().call(Op::ScanBlock, &[0], &[], &[]).is_some();
    benches(geometry).into_iter().filter(there).collect()
}

impl Bench {
    /// Calls one function of a side that is there: what it showed, or its refusal.
    pub fn ask(&mut self, op: Op, args: &[u32], array: &[u32], bytes: &[u8]) -> Result<Outcome, u8> {
        let outcome = self.call(op, args, array, bytes).expect("this side answers");
        if outcome.answer == 0 {
            Ok(outcome)
        } else {
            Err(outcome.answer)
        }
    }

    /// The answer's number, of a side that is there.
    pub fn number(&mut self, op: Op, args: &[u32], array: &[u32], bytes: &[u8]) -> u8 {
        self.ask(op, args, array, bytes).err().unwrap_or(0)
    }

    /// Calls one function and keeps image and fuse; none where this side has not got it.
    pub fn call(&mut self, op: Op, args: &[u32], array: &[u32], bytes: &[u8]) -> Option<Outcome> {
        let mut case = Case::of(op, self.geometry);
        case.args = args.to_vec();
        case.array = array.to_vec();
        case.bytes = bytes.to_vec();
        if case.has_image() {
            case.image = self.image.clone();
        }
        if op.stores() {
            case.fuse = self.fuse;
        }
        let outcome = (self.ask)(&case)?;
        if op.stores() {
            self.image = outcome.image.clone();
            self.fuse = outcome.fuse;
        }
        Some(outcome)
    }

    /// The answer alone.
    pub fn answer(&mut self, op: Op, args: &[u32], array: &[u32], bytes: &[u8]) -> Option<u8> {
        self.call(op, args, array, bytes).map(|outcome| outcome.answer)
    }

    /// FileData of chunks 41 42 and 43 at a place; the answer that ends it.
    pub fn obj(&mut self, block: u32, at: u32) -> Option<u8> {
        let made = self.call(Op::WriterAllocate, &[block, at, 0x8E], &[], &[])?;
        if made.answer != 0 {
            return Some(made.answer);
        }
        let mut writer: Vec<u32> = made.values.iter().map(|&n| n as u32).collect();
        for chunk in [&[0x41, 0x42][..], &[0x43]] {
            let wrote = self.call(Op::WriterWrite, &[], &writer, chunk)?;
            if wrote.answer != 0 {
                return Some(wrote.answer);
            }
            writer = wrote.array;
        }
        self.answer(Op::WriterFinalize, &[], &writer, &[])
    }

    /// The state at a place.
    pub fn state(&mut self, block: u32, at: u32) -> Option<u64> {
        self.call(Op::HeaderRead, &[block, at], &[], &[]).map(|outcome| outcome.values[1])
    }
}
