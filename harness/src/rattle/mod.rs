//! Runs a case on the Rattle library, through its C interface (include/stumpchoir.h).
//!
//! A layer is called where the feature of its name is on; the archive must have its functions then.

#[cfg(feature = "batch")]
mod batch;
#[cfg(feature = "blocks")]
mod blocks;
#[cfg(feature = "collector")]
mod collector;
pub mod interface;
#[cfg(feature = "medium")]
mod medium;
#[cfg(feature = "objects")]
mod objects;
#[cfg(feature = "storage")]
mod storage;
#[cfg(feature = "sweep")]
mod sweep;

use crate::{
    case::Case,
    op::{Layer, Out},
    outcome::Outcome,
};

pub fn present(layer: Layer) -> bool {
    match layer {
        Layer::Medium => cfg!(feature = "medium"),
        Layer::Objects => cfg!(feature = "objects"),
        Layer::Blocks => cfg!(feature = "blocks"),
        Layer::Collector => cfg!(feature = "collector"),
        Layer::Batch => cfg!(feature = "batch"),
        Layer::Storage => cfg!(feature = "storage"),
        Layer::Sweep => cfg!(feature = "sweep"),
    }
}

/// The library's outcome; none where its layer is not linked.
pub fn run(case: &Case) -> Option<Outcome> {
    if !present(case.op.signature().layer) {
        return None;
    }
    #[cfg(all(feature = "objects", not(feature = "writer")))]
    if objects::writes(case.op) {
        return None;
    }
    let mut lent = Lent::of(case);
    let answer = call(case, &mut lent)?;
    Some(lent.outcome(case, answer))
}

#[allow(unused_variables)]
fn call(case: &Case, lent: &mut Lent) -> Option<u8> {
    match case.op.signature().layer {
        #[cfg(feature = "medium")]
        Layer::Medium => Some(medium::call(case, lent)),
        #[cfg(feature = "objects")]
        Layer::Objects => Some(objects::call(case, lent)),
        #[cfg(feature = "blocks")]
        Layer::Blocks => Some(blocks::call(case, lent)),
        #[cfg(feature = "collector")]
        Layer::Collector => Some(collector::call(case, lent)),
        #[cfg(feature = "batch")]
        Layer::Batch => Some(batch::call(case, lent)),
        #[cfg(feature = "storage")]
        Layer::Storage => Some(storage::call(case, lent)),
        #[cfg(feature = "sweep")]
        Layer::Sweep => Some(sweep::call(case, lent)),
        #[allow(unreachable_patterns)]
        _ => None,
    }
}

/// What stands in the unit count when there is no fuse: the library must leave it.
const NO_UNITS: u32 = 0x5A5A_5A5A;

/// Everything that a call is lent, in the forms that C takes.
#[allow(dead_code)]
pub(crate) struct Lent {
    image: Vec<u8>,
    fused: bool,
    units: u32,
    array: Vec<u32>,
    bytes: Vec<u8>,
    /// out values by width: bytes, u32s, u64s
    b: [u8; 6],
    w: [u32; 12],
    q: u64,
}

impl Lent {
    fn of(case: &Case) -> Lent {
        Lent {
            image: case.image.clone(),
            fused: case.fuse.is_some(),
            units: case.fuse.unwrap_or(NO_UNITS),
            array: case.array.clone(),
            bytes: case.bytes.clone(),
            b: [Out::B.before() as u8; 6],
            w: [Out::W.before() as u32; 12],
            q: Out::Q.before(),
        }
    }

    fn outcome(self, case: &Case, answer: u8) -> Outcome {
        let fuse = match (self.fused, self.units) {
            (true, units) => Some(units),
            (false, NO_UNITS) => None,
            (false, touched) => Some(touched),
        };
        let values = self.values(case);
        Outcome {
            answer,
            values,
            fuse,
            image: self.image,
            known: self.array.len(),
            array: self.array,
            bytes: self.bytes,
        }
    }

    /// The out values; one too many where the library has written to a place that is none of its outs.
    fn values(&self, case: &Case) -> Vec<u64> {
        let (mut b, mut w, mut q) = (self.b.iter(), self.w.iter(), [self.q].into_iter());
        let outs = case.op.signature().outs.iter();
        let mut values: Vec<u64> = outs
            .map(|out| match out {
                Out::B => *b.next().unwrap() as u64,
                Out::W | Out::Always => *w.next().unwrap() as u64,
                Out::Q => q.next().unwrap(),
            })
            .collect();
        let stray = b.any(|&n| n as u64 != Out::B.before())
            || w.any(|&n| n as u64 != Out::W.before())
            || q.any(|n| n != Out::Q.before());
        if stray {
            values.push(u64::MAX);
        }
        values
    }
}

/// Calls a C function: the geometry first, then image or image with fuse where they are named, then the rest.
#[allow(unused_macros)]
macro_rules! c {
    ($f:ident($case:ident $(, $rest:expr)*)) => {{
        let geometry = $case.geometry.numbers();
        unsafe { $f(geometry.as_ptr() $(, $rest)*) }
    }};
    ($f:ident($case:ident; image $lent:ident $(, $rest:expr)*)) => {{
        let (image, len) = ($lent.image.as_ptr(), $lent.image.len());
        c!($f($case, image, len $(, $rest)*))
    }};
    ($f:ident($case:ident; store $lent:ident $(, $rest:expr)*)) => {{
        let (image, len) = ($lent.image.as_mut_ptr(), $lent.image.len());
        let (fused, units) = ($lent.fused, &raw mut $lent.units);
        c!($f($case, image, len, fused, units $(, $rest)*))
    }};
}
#[allow(unused_imports)]
pub(crate) use c;
