//! Sweeps on one side that has them; and what stands in an image, by the model's readers of headers and metadata.

use harness::{
    cases::{
        stores::Place,
        sweep::{bytes, listed},
    },
    model::{
        blocks::{DATA, METADATA},
        header::Header,
        layout, Flash,
    },
    op::Op,
    outcome::Outcome,
};

use super::{benches, Bench};

/// Answer, twins and unreferred objects deleted.
pub type Said = (u8, u64, u64);

/// The sides that have a sweep, each over the image: the model, and the library where it is linked.
pub fn sides(flash: &Flash) -> Vec<Bench> {
    let has = |bench: &Bench| bench.clone().call(Op::Sweep, &[], &[], &[]).is_some();
    benches(flash.geometry).iter().map(|bench| over(bench, flash)).filter(has).collect()
}

/// The same side over another image.
pub fn over(bench: &Bench, flash: &Flash) -> Bench {
    Bench { image: flash.image.clone(), ..bench.clone() }
}

/// Words to be lent: none of them is 0.
pub fn notes(many: usize) -> Vec<u32> {
    (0..many as u32).map(|i| i.wrapping_mul(0x9E37_79B1) | 1).collect()
}

/// Where words were lent all else is as without them, and they come back as 0, but after 6 and 7 as they were.
pub fn alike(without: &Outcome, with: &Outcome, words: &[u32]) {
    let after = if matches!(without.answer, 6 | 7) { words.to_vec() } else { vec![0; words.len()] };
    let expected = Outcome { array: after, known: words.len(), ..without.clone() };
    assert!(*with == expected, "with words lent: {} and {:?}, without {:?}", with.answer, with.values, without.values);
}

/// Sweeps with so many units, or with power, without and with words lent. A mark is a unit, and no other is taken.
pub fn sweep(bench: &mut Bench, fuse: Option<u32>) -> Said {
    bench.fuse = fuse;
    let words = notes(bench.image.len());
    let lent = bench.clone().call(Op::SweepWith, &[], &words, &[]).expect("this side has a sweep");
    let outcome = bench.call(Op::Sweep, &[], &[], &[]).expect("this side has a sweep");
    alike(&outcome, &lent, &words);
    let [twins, unreferred] = outcome.values[..] else { panic!("two values") };
    assert_eq!(outcome.fuse, fuse.map(|units| units - (twins + unreferred) as u32), "{}", bench.side);
    bench.fuse = None;
    (outcome.answer, twins, unreferred)
}

/// The side's image.
pub fn flash(bench: &Bench) -> Flash {
    Flash::new(bench.geometry, bench.image.clone(), None)
}

pub fn place(header: &Header) -> Place {
    [header.block, header.offset]
}

/// What a metadata object refers to, its name first; the refusal where it cannot be read.
pub fn locations(flash: &Flash, header: Header) -> Result<Vec<Place>, u8> {
    let mut metadata = flash.info_read_metadata(header)?;
    let mut found = vec![metadata.name];
    while let Some(at) = flash.next_object_location(&mut metadata)? {
        found.push(at);
    }
    Ok(found)
}

/// The metadata objects that have one of equal type and payload before them, and the objects of Data blocks that no metadata
/// object refers to.
pub fn left_over(flash: &Flash) -> (Vec<Place>, Vec<Place>) {
    let (metadata, data) = (listed(flash, METADATA), listed(flash, DATA));
    let like = |a: &Header, b: &Header| a.kind == b.kind && bytes(flash, *a) == bytes(flash, *b);
    let again = |i: &usize| metadata[..*i].iter().any(|before| like(before, &metadata[*i]));
    let twins = (0..metadata.len()).filter(again).map(|i| place(&metadata[i])).collect();
    let referred: Vec<Place> = metadata.iter().flat_map(|&header| locations(flash, header).unwrap()).collect();
    let unreferred = data.iter().map(place).filter(|at| !referred.contains(at)).collect();
    (twins, unreferred)
}

/// Where in the image the delete mark of the object at a place is stored.
pub fn mark(flash: &Flash, at: Place) -> usize {
    let g = flash.geometry;
    (at[0] * g.size + at[1]) as usize + layout::delete_mark(g).0 as usize
}
