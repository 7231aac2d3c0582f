//! Makes a case that differs as small as it can while it still differs.

use crate::{
    case::Case,
    op::{Place, Shape},
};

/// No more tries than this.
const TRIES: usize = 30_000;

/// The smallest case found, by greedy steps, for which `bad` still holds.
pub fn shrink(case: &Case, bad: &dyn Fn(&Case) -> bool) -> Case {
    let mut best = case.clone();
    let mut tries = 0;
    loop {
        let mut better = None;
        for smaller in candidates(&best) {
            tries += 1;
            if tries > TRIES {
                return best;
            }
            if bad(&smaller) {
                better = Some(smaller);
                break;
            }
        }
        match better {
            Some(smaller) => best = smaller,
            None => return best,
        }
    }
}

/// Cases a little smaller than this one, the boldest first.
fn candidates(case: &Case) -> Vec<Case> {
    let mut all = Vec::new();
    geometry(case, &mut all);
    fuse(case, &mut all);
    records(case, &mut all);
    words(case, &mut all);
    bytes(case, &mut all);
    numbers(case, &mut all);
    image(case, &mut all);
    all
}

/// Fewer or smaller blocks, smaller widths.
fn geometry(case: &Case, all: &mut Vec<Case>) {
    let g = case.geometry;
    let shape = case.op.signature().array;
    let words = shape == Shape::Words && case.array.len() == case.image.len();
    let whole = case.op.signature().place == Place::Nothing || case.image.len() == g.room();
    if g.count > 1 && g.room() <= 1 << 24 && whole {
        let mut fewer = case.clone();
        fewer.geometry.count -= 1;
        if case.has_image() {
            fewer.image.truncate(fewer.geometry.room());
        }
        if shape == Shape::Table {
            fewer.array.truncate(4 * fewer.geometry.count as usize);
        }
        if words {
            fewer.array.truncate(fewer.image.len());
        }
        all.push(fewer);
    }
    for size in [64, 68, 128, 256, g.size / 2 / 4 * 4] {
        if size < g.size && size >= 64 && g.good() && whole {
            let mut smaller = case.clone();
            smaller.geometry.size = size;
            let blocks = case.image.chunks(g.size as usize);
            smaller.image = blocks.flat_map(|block| block[..size as usize].to_vec()).collect();
            if words {
                smaller.array.truncate(smaller.image.len());
            }
            all.push(smaller);
        }
    }
    if g.s > 1 {
        all.push(with(case, |c| c.geometry.s -= 1));
    }
    if g.c > 1 {
        all.push(with(case, |c| c.geometry.c -= 1));
    }
    if g.granularity > 0 {
        all.push(with(case, |c| c.geometry.granularity = 0));
    }
}

fn with(case: &Case, change: impl FnOnce(&mut Case)) -> Case {
    let mut changed = case.clone();
    change(&mut changed);
    changed
}

fn fuse(case: &Case, all: &mut Vec<Case>) {
    let Some(units) = case.fuse else { return };
    all.push(with(case, |c| c.fuse = None));
    for fewer in smaller(units) {
        all.push(with(case, |c| c.fuse = Some(fewer)));
    }
}

/// Numbers below this one to try.
fn smaller(n: u32) -> Vec<u32> {
    let mut tries = vec![0, 1, 8, n / 2, n.saturating_sub(4), n.saturating_sub(1)];
    tries.retain(|&m| m < n);
    tries.dedup();
    tries
}

/// Batches with fewer records.
fn records(case: &Case, all: &mut Vec<Case>) {
    if case.op.signature().array != Shape::Batch {
        return;
    }
    let len = case.array.len();
    for shorter in smaller(len as u32 / 4) {
        all.push(with(case, |c| c.array.truncate(4 * shorter as usize)));
    }
    for at in (0..len).step_by(4) {
        all.push(with(case, |c| drop(c.array.drain(at..(at + 4).min(len)))));
    }
}

/// Runs of words set to 0, from long to short; fewer of them where their number is wrong anyway.
fn words(case: &Case, all: &mut Vec<Case>) {
    let len = case.array.len();
    if case.op.signature().array != Shape::Words {
        return;
    }
    if len != case.image.len() {
        for fewer in smaller(len as u32) {
            all.push(with(case, |c| c.array.truncate(fewer as usize)));
        }
    }
    for run in [len, len / 4, len / 32, 1].into_iter().filter(|&run| run > 0) {
        for at in (0..len).step_by(run) {
            let end = (at + run).min(len);
            if case.array[at..end].iter().any(|&word| word != 0) {
                all.push(with(case, |c| c.array[at..end].fill(0)));
            }
        }
    }
}

fn bytes(case: &Case, all: &mut Vec<Case>) {
    let len = case.bytes.len();
    for shorter in smaller(len as u32) {
        all.push(with(case, |c| c.bytes.truncate(shorter as usize)));
    }
    if case.bytes.iter().any(|&b| b != 0x41) {
        all.push(with(case, |c| c.bytes.fill(0x41)));
    }
}

fn numbers(case: &Case, all: &mut Vec<Case>) {
    for i in 0..case.args.len() {
        for less in smaller(case.args[i]) {
            all.push(with(case, |c| c.args[i] = less));
        }
    }
    if case.op.signature().array == Shape::Words {
        return;
    }
    for i in 0..case.array.len() {
        for less in smaller(case.array[i]) {
            all.push(with(case, |c| c.array[i] = less));
        }
    }
}

/// Runs of the image set to FF, from long to single bytes; a shorter one where its length is wrong anyway.
fn image(case: &Case, all: &mut Vec<Case>) {
    let len = case.image.len();
    if len != case.geometry.room() {
        for shorter in smaller(len as u32) {
            all.push(with(case, |c| c.image.truncate(shorter as usize)));
        }
    }
    let mut run = len;
    while run > 0 {
        for at in (0..len).step_by(run) {
            let end = (at + run).min(len);
            if case.image[at..end].iter().any(|&b| b != 0xFF) {
                all.push(with(case, |c| c.image[at..end].fill(0xFF)));
            }
        }
        run = if run == 1 || all.len() > 600 { 0 } else { run / 2 };
    }
}
