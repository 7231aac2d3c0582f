//! `moves`: moves at every fuse.

use std::time::Instant;

use harness::{geometry::Geometry, moves, op::Layer, oracle::SIZES, random::Random};

use crate::options::{tell_sides, Options};

/// The first of the sizes: blocks of 64 to 260 bytes.
const SMALL: usize = 12;

pub fn run(o: &Options) -> Result<(), String> {
    tell_sides(&[Layer::Objects]);
    let wanted = o.cases.unwrap_or(2_000);
    let mut r = Random::new(o.seed);
    let mut seen = moves::Seen::default();
    let start = Instant::now();
    while seen.moves < wanted {
        let g = geometry(&mut r, o.strict);
        let Some(case) = moves::make(&mut r, g) else { continue };
        moves::every_fuse(&case, &mut seen)?;
        if let Some(stuck) = moves::stuck(&mut r, &case) {
            moves::every_fuse_stuck(&stuck, &mut seen)?;
        }
        if seen.moves % 1_000 == 0 {
            let seconds = start.elapsed().as_secs_f64();
            eprintln!("moves: {} at every fuse, {} cases, {seconds:.0} s", seen.moves, seen.cases);
        }
    }
    let [before, between, after] = seen.phases;
    println!("moves: {} at every fuse, {} cases (seed {}), every phase and the way out hold", seen.moves, seen.cases, o.seed);
    println!("  {before} before the copy's finish mark, {between} between the marks, {after} after the delete mark");
    let [done, refused] = seen.scans;
    println!("  scans of the copy's block: {done} done, {refused} refused, each where it should be");
    if o.strict {
        tell_strict(&seen)?;
    }
    println!("  {:.1} s", start.elapsed().as_secs_f64());
    Ok(())
}

/// What is seen under the mark only.
fn tell_strict(seen: &moves::Seen) -> Result<(), String> {
    let ([done, met], [before, after]) = (seen.again, seen.stuck_phases);
    println!("  the same move again from before the finish mark: {done} done, {met} met the copy's type");
    println!("  moves that cannot store their delete mark: {} at every fuse", seen.stuck);
    println!("  {before} before the copy's finish mark, {after} with 10 and both finished for good");
    let all = done > 0 && met > 0 && before > 0 && after > 0;
    all.then_some(()).ok_or("moves: something of the mark was never seen".to_string())
}

fn geometry(r: &mut Random, strict: bool) -> Geometry {
    let (size, count) = r.pick(&SIZES[..SMALL]);
    let least = if size <= 256 { 1 } else { 2 };
    let (s, c) = (r.between(least, 3) as u8, r.between(1, 3) as u8);
    let granularities: &[u8] = if strict { &[1, 4] } else { &[0, 1, 4] };
    Geometry { granularity: r.pick(granularities), s, c, strict: strict as u32, size, count }
}
