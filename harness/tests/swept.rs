//! Random stores swept, on each side that has a sweep, cut after every mark: what is deleted and what a lookup and a read say;
//! that a second run ends as the uncut one, wherever it is cut itself; and what a sweep leaves of a cut move. Each sweep is made
//! without and with words lent; larger stores at a few fuses.

mod bench;

use bench::{
    named::{lookup, read, size, HASH},
    sweeps::{flash, left_over, mark, over, place, sides, sweep},
    Bench,
};
use harness::{
    cases::{
        images::spots,
        stores::{payload, Place, Store},
        sweep::{bytes, geometry, listed, store, whole},
    },
    geometry::Geometry,
    model::{
        blocks::{DATA, METADATA},
        header::{DELETED, FINALIZED, TYPES},
        layout, Flash,
    },
    random::Random,
};

/// So many stores, at least half of them whole, each with a bench for each side.
fn stores(seed: u64, count: usize, mut test: impl FnMut(&Flash, Bench)) {
    let mut r = Random::new(seed);
    for n in 0..count {
        let g = geometry(&mut r);
        let made = if n % 2 == 0 { whole(&mut r, g).flash } else { store(&mut r, g) };
        for bench in sides(&made) {
            test(&made, bench);
        }
    }
}

/// The stores that a sweep does not refuse, with how many it deletes.
fn sound_stores(seed: u64, count: usize, mut test: impl FnMut(&Flash, Bench, u64)) {
    let mut met = 0;
    stores(seed, count, |before, bench| {
        let (answer, twins, unreferred) = sweep(&mut bench.clone(), None);
        if answer == 0 {
            met += 1;
            test(before, bench, twins + unreferred);
        }
    });
    assert!(met > count / 2, "only {met} of {count} are sound");
}

/// The side after a cut behind so many marks.
fn cut(bench: &Bench, marks: u64) -> Bench {
    let mut after = bench.clone();
    sweep(&mut after, Some(marks as u32));
    after
}

#[test]
fn a_whole_store_is_not_refused() {
    let mut r = Random::new(8);
    for _ in 0..2_000 {
        let g = geometry(&mut r);
        for mut bench in sides(&whole(&mut r, g).flash) {
            assert_eq!(sweep(&mut bench, None).0, 0, "{}", bench.side);
        }
    }
}

#[test]
fn what_is_refused_stores_nothing_with_or_without_power() {
    let mut met = [0; 16];
    stores(1, 4_000, |before, bench| {
        let said = sweep(&mut bench.clone(), None);
        met[said.0 as usize] += 1;
        for fuse in [None, Some(0), Some(1)].into_iter().filter(|_| said.0 != 0) {
            let mut after = bench.clone();
            assert_eq!(sweep(&mut after, fuse), (said.0, 0, 0));
            assert_eq!(after.image, before.image);
        }
    });
    assert!(met[0] > 100 && met[2] > 100 && met[14] > 100, "{met:?}");
    assert_eq!(met[0] + met[2] + met[14], met.iter().sum::<usize>());
}

#[test]
fn a_cut_leaves_the_first_marks_and_no_other_byte_changes() {
    sound_stores(2, 4_000, |before, bench, marks| {
        let (twins, unreferred) = left_over(before);
        let gone = [twins.clone(), unreferred.clone()].concat();
        assert_eq!(gone.len() as u64, marks, "{}", bench.side);
        for fuse in 0..=marks + 1 {
            let mut after = bench.clone();
            let done = fuse.min(marks);
            let said = (
                if fuse < marks { 8 } else { 0 },
                done.min(twins.len() as u64),
                done.saturating_sub(twins.len() as u64),
            );
            assert_eq!(sweep(&mut after, Some(fuse as u32)), said, "{}", bench.side);
            let mut expected = before.image.clone();
            for &at in &gone[..done as usize] {
                expected[mark(before, at)] = 0;
            }
            assert_eq!(after.image, expected, "{}", bench.side);
        }
    });
}

#[test]
fn a_second_run_ends_as_the_uncut_one_wherever_it_is_cut_itself() {
    sound_stores(3, 2_000, |before, bench, marks| {
        let mut whole = bench.clone();
        let (_, twins, unreferred) = sweep(&mut whole, None);
        for first in 0..=marks {
            let begun = cut(&bench, first);
            let mut second = begun.clone();
            let (done, left) = (first.min(twins), first.saturating_sub(twins));
            assert_eq!(sweep(&mut second, None), (0, twins - done, unreferred - left), "{}", bench.side);
            assert_eq!(second.image, whole.image, "{}", bench.side);
            assert_eq!(sweep(&mut second, Some(0)), (0, 0, 0), "a third one stores nothing");
            assert_eq!(second.image, whole.image, "{}", bench.side);
            for more in 0..=marks - first {
                let mut again = cut(&begun, more);
                assert_eq!(again.image, cut(&bench, first + more).image, "two cut runs are one");
                assert_eq!(sweep(&mut again, None).0, 0);
                assert_eq!(again.image, whole.image, "{}", bench.side);
            }
        }
        assert!(marks > 0 || whole.image == before.image);
    });
}

#[test]
fn afterwards_nothing_stands_twice_and_all_is_referred_to() {
    sound_stores(4, 4_000, |before, mut bench, _| {
        sweep(&mut bench, None);
        let after = flash(&bench);
        assert_eq!(left_over(&after), (vec![], vec![]), "{}", bench.side);
        let kinds =
            |flash: &Flash| listed(flash, METADATA).into_iter().map(|h| (h.kind, bytes(flash, h).to_vec())).collect();
        let (old, new): (Vec<_>, Vec<_>) = (kinds(before), kinds(&after));
        assert!(old.iter().all(|one| new.contains(one)), "one of each stays");
        assert!(new.iter().enumerate().all(|(i, one)| !new[..i].contains(one)), "and only one");
    });
}

/// What is asked of a store: a hash and a path.
type Question = (u32, Vec<u8>);

/// All hashes and all names of a store, in every pair, and some that it has not.
fn questions(flash: &Flash) -> Vec<Question> {
    let metadata = listed(flash, METADATA).into_iter().filter_map(|header| flash.info_read_metadata(header).ok());
    let (mut hashes, mut names) = (vec![1], vec![b"?".to_vec()]);
    for metadata in metadata {
        hashes.push(metadata.path_hash);
        if let Ok(header) = flash.read_header(metadata.name[0], metadata.name[1]) {
            names.push(bytes(flash, header).to_vec());
        }
    }
    names.sort();
    names.dedup();
    hashes.sort();
    hashes.dedup();
    hashes.iter().flat_map(|&hash| names.iter().map(move |name| (hash, name.clone()))).collect()
}

/// Where a file is found, its size, and what is read of it from some positions.
type Told = (Result<Place, u8>, Vec<Result<Vec<u8>, u8>>);

fn told(flash: &Flash, (hash, path): &Question) -> Told {
    let at = lookup(flash, *hash, path);
    let Ok(place) = at else { return (at, vec![]) };
    let size = size(flash, place);
    let reads = [(0, 300), (0, 1), (1, 3), (size.unwrap_or(2), 2)];
    let mut seen: Vec<_> = reads.into_iter().map(|(position, len)| read(flash, place, position, len)).collect();
    seen.push(size.map(|size| size.to_le_bytes().to_vec()));
    (at, seen)
}

#[test]
fn every_lookup_and_every_read_is_the_same_at_every_cut() {
    let (mut found, mut none) = (0, 0);
    sound_stores(5, 1_000, |before, bench, marks| {
        let questions = questions(before);
        let known: Vec<Told> = questions.iter().map(|question| told(before, question)).collect();
        found += known.iter().filter(|told| told.0.is_ok()).count();
        none += known.iter().filter(|told| told.0.is_err()).count();
        for fuse in 0..=marks {
            let after = flash(&cut(&bench, fuse));
            for (question, known) in questions.iter().zip(&known) {
                assert_eq!(told(&after, question), *known, "{} {question:?}, {fuse} of {marks}", bench.side);
            }
        }
    });
    assert!(found > 400 && none > 400, "{found} {none}");
}

/// The cut that leaves an object twice, and the image that a move with power leaves; none where there is no erased room for it
/// at the block's free end.
fn moved(before: &Flash, from: Place, block: u32) -> Option<[Flash; 2]> {
    let header = before.read_header(from[0], from[1]).unwrap();
    let to = *spots(before, block).last()?;
    let room = before.read(block, to as u64, (before.geometry.size as u64).checked_sub(to as u64)?).ok()?;
    if room.iter().any(|&byte| byte != 0xFF) {
        return None;
    }
    let run = |fuse| {
        let mut flash = Flash::new(before.geometry, before.image.clone(), Some(fuse));
        let done = flash.move_object(header, block, to).is_ok();
        let left = flash.fuse.take().unwrap();
        done.then_some((flash.clone(), left)).ok_or(flash)
    };
    let (whole, left) = run(u32::MAX).ok()?;
    let between = run(u32::MAX - left - 1).err()?;
    Some([between, whole])
}

#[test]
fn of_a_move_that_was_cut_between_the_marks_one_stays() {
    let (mut earlier, mut later) = (0, 0);
    sound_stores(6, 1_000, |_, mut bench, _| {
        sweep(&mut bench, None);
        let before = flash(&bench);
        let blocks: Vec<u32> =
            (0..before.geometry.count).filter(|&block| before.block_header(block).unwrap().0 == METADATA).collect();
        for from in listed(&before, METADATA).iter().map(place) {
            for &block in &blocks {
                let Some([between, whole]) = moved(&before, from, block) else { continue };
                let to = [block, *spots(&before, block).last().unwrap()];
                let mut twice = over(&bench, &between);
                assert_eq!(sweep(&mut twice, None), (0, 1, 0), "{}", bench.side);
                let after = flash(&twice);
                let state = |at: Place| after.read_header(at[0], at[1]).unwrap().state;
                assert_eq!((state(from.min(to)), state(from.max(to))), (FINALIZED, DELETED), "the first stays");
                for question in questions(&between) {
                    assert_eq!(told(&after, &question), told(&between, &question));
                }
                let mut once = over(&bench, &whole);
                assert_eq!(sweep(&mut once, Some(0)), (0, 0, 0), "a move that was not cut leaves nothing over");
                if to < from {
                    earlier += 1;
                } else {
                    later += 1;
                }
            }
        }
    });
    assert!(earlier > 50 && later > 50, "{earlier} {later}");
}

#[test]
fn the_stores_have_what_a_sweep_is_for() {
    let mut met = [0; 6];
    sound_stores(7, 600, |before, bench, _| {
        if bench.side != "model" {
            return;
        }
        let (twins, unreferred) = left_over(before);
        let stays =
            |at: &Place| listed(before, METADATA).iter().any(|h| place(h)[0] == at[0] && !twins.contains(&place(h)));
        let kinds: Vec<u32> = (0..before.geometry.count).map(|block| before.block_header(block).unwrap().0).collect();
        let facts = [
            !twins.is_empty(),
            !unreferred.is_empty(),
            twins.iter().any(stays),
            twins.iter().any(|at| !stays(at)),
            kinds.iter().any(|&kind| kind != METADATA && kind != DATA),
            listed(before, DATA)
                .iter()
                .any(|h| h.offset as u64 + h.total(before.geometry) > before.geometry.size as u64),
        ];
        for (met, fact) in met.iter_mut().zip(facts) {
            *met += fact as u32;
        }
    });
    assert!(met.iter().all(|&met| met > 20), "{met:?}");
}

/// A larger store that is being made, with what stands in it.
struct Large {
    store: Store,
    data: Vec<Place>,
    metadata: Vec<Vec<u8>>,
}

impl Large {
    /// Files of two hashes until nearly all blocks are full, every third of them Data.
    fn new(r: &mut Random, g: Geometry) -> Large {
        let kinds: Vec<u32> = (0..g.count).map(|block| if block % 3 == 1 { DATA } else { METADATA }).collect();
        let mut large = Large { store: Store::of(g, &kinds), data: vec![], metadata: vec![] };
        let mut refused = 0;
        while refused < 100 {
            large.add_data(r);
            let (ty, payload) = large.next(r);
            let block = r.below(g.count) / 3 * 3 + r.pick(&[0, 2]);
            match large.store.put(block.min(g.count - 1), ty, &payload) {
                Some(_) => large.metadata.push(payload),
                None => refused += 1,
            }
        }
        large
    }

    /// One object or two of a name or of data.
    fn add_data(&mut self, r: &mut Random) {
        for _ in 0..r.between(1, 2) {
            let (block, len) = (r.below(self.store.flash.geometry.count / 3) * 3 + 1, r.between(1, 6) as usize);
            let payload = r.bytes(len);
            self.data.extend(self.store.put(block, r.pick(&TYPES[1..]), &payload));
        }
    }

    /// Half of the metadata stands already: some is a twin, some has another type or lacks the last location.
    fn next(&self, r: &mut Random) -> (u32, Vec<u8>) {
        let g = self.store.flash.geometry;
        let location = layout::location_len(g) as usize;
        if self.metadata.is_empty() || r.one_in(2) {
            let data: Vec<Place> = (0..r.below(4)).map(|_| r.pick(&self.data)).collect();
            return (TYPES[0], payload(g, r.pick(&[7, HASH]), r.pick(&self.data), &data));
        }
        let old = &self.metadata[r.below(self.metadata.len() as u32) as usize];
        match r.below(4) {
            0 => (TYPES[1], old.clone()),
            1 if old.len() > 4 + location => (TYPES[0], old[..old.len() - location].to_vec()),
            _ => (TYPES[0], old.clone()),
        }
    }
}

#[test]
fn larger_stores_with_many_twins_far_apart_end_alike() {
    let mut r = Random::new(9);
    for (size, count) in [(1_024, 12), (2_048, 9), (4_096, 6)] {
        for (granularity, s) in [(0, 2), (1, 3), (4, 2)] {
            let g = Geometry { granularity, s, c: r.between(1, 3) as u8, strict: 0, size, count };
            let before = Large::new(&mut r, g).store.flash;
            let (twins, unreferred) = left_over(&before);
            let metadata = listed(&before, METADATA).len();
            assert!(metadata > 200 && twins.len() > 50 && unreferred.len() > 3, "{metadata} {twins:?} {unreferred:?}");
            let (twins, unreferred) = (twins.len() as u64, unreferred.len() as u64);
            let (marks, sides) = (twins + unreferred, sides(&before));
            for fuse in [0, twins / 2, twins, marks - 1, marks] {
                let done = fuse.min(twins);
                let said = (if fuse < marks { 8 } else { 0 }, done, fuse - done);
                let images = sides.iter().map(|bench| {
                    let mut bench = bench.clone();
                    assert_eq!(sweep(&mut bench, Some(fuse as u32)), said, "{}", bench.side);
                    bench.image
                });
                let images: Vec<Vec<u8>> = images.collect();
                assert!(images.iter().all(|image| *image == images[0]), "{g:?}, {fuse} of {marks}");
            }
        }
    }
}
