//! A metadata object moved to another block, cut after every unit: what a lookup, a read and the names see of the file.

mod bench;

use bench::named::{content, empty, lookup, names, HASH};
use harness::{
    cases::{
        images::spots,
        stores::{Place, Store},
    },
    model::{
        header::{DELETED, FINALIZED},
        listing::Listing,
        Flash,
    },
};

/// A file with its metadata in one of the Metadata blocks 1 and 2, and another file in each of them.
fn store(granularity: u8, from: u32) -> (Store, Place, Place) {
    let mut store = empty(granularity);
    for block in [1, 2] {
        store.file([block, 3], HASH + block, b"x", &[]).unwrap();
    }
    let at = store.file([from, 0], HASH, b"street", &[b"12", b"345"]).unwrap().at;
    let to = 3 - from;
    let end = *spots(&store.flash, to).last().unwrap();
    (store, at, [to, end])
}

/// What a cut after so many units leaves, and whether power lasted.
fn cut(store: &Store, from: Place, to: Place, fuse: u32) -> (Flash, bool) {
    let mut flash = store.flash.clone();
    let header = flash.read_header(from[0], from[1]).unwrap();
    flash.fuse = Some(fuse);
    let whole = flash.move_object(header, to[0], to[1]).is_ok();
    (flash, whole)
}

fn is_listed(flash: &Flash, block: u32) -> bool {
    let mut listing = Listing::new(flash.geometry, block);
    loop {
        match flash.list_next(&mut listing) {
            Ok(Some(_)) => {}
            Ok(None) => return true,
            Err(_) => return false,
        }
    }
}

fn state(flash: &Flash, at: Place) -> Option<u32> {
    flash.read_header(at[0], at[1]).ok().map(|header| header.state)
}

/// The cuts of a move by what they leave: before the copy's finish mark (those after which its block cannot be listed are
/// counted once more), between the marks, and behind the original's delete mark.
#[derive(Default, Debug)]
struct Seen {
    before: u32,
    unlisted: u32,
    between: u32,
    behind: u32,
}

/// Runs a check on what each cut leaves, with the two places and how often the name stands there.
fn every_cut(granularity: u8, from: u32, check: impl Fn(&Flash, Place, Place, usize)) -> Seen {
    let (store, at, to) = store(granularity, from);
    let mut seen = Seen::default();
    for fuse in 0.. {
        let (flash, whole) = cut(&store, at, to, fuse);
        let (old, copy) = (state(&flash, at), state(&flash, to));
        match (copy == Some(FINALIZED), old == Some(DELETED)) {
            (false, _) => seen.before += 1,
            (true, false) => seen.between += 1,
            (true, true) => seen.behind += 1,
        }
        seen.unlisted += !is_listed(&flash, to[0]) as u32;
        let times = [old, copy].iter().filter(|&&state| state == Some(FINALIZED)).count();
        check(&flash, at, to, times);
        if whole {
            break;
        }
    }
    seen
}

/// The streets among the names.
fn streets(flash: &Flash) -> (usize, Result<(), u8>) {
    let (names, end) = names(flash);
    (names.iter().filter(|name| name[..] == *b"street").count(), end)
}

#[test]
fn moved_to_a_later_block_a_file_is_found_at_every_cut() {
    for granularity in [0, 1, 4] {
        let seen = every_cut(granularity, 1, |flash, from, to, times| {
            let at = if state(flash, from) == Some(DELETED) { to } else { from };
            assert_eq!(lookup(flash, HASH, b"street"), Ok(at), "the original, whatever the later block looks like");
            assert_eq!(content(flash, at), Ok(b"12345".to_vec()));
            let end = if is_listed(flash, to[0]) { Ok(()) } else { Err(2) };
            assert_eq!(streets(flash), (times, end));
        });
        assert!(seen.before > seen.unlisted && seen.unlisted > 0, "{granularity} {seen:?}");
        assert_eq!((seen.between, seen.behind), (1, 1), "{granularity} {seen:?}");
    }
}

#[test]
fn moved_to_an_earlier_block_a_file_is_found_where_that_can_be_listed() {
    for granularity in [0, 1, 4] {
        let seen = every_cut(granularity, 2, |flash, from, to, times| {
            if !is_listed(flash, to[0]) {
                assert_eq!(lookup(flash, HASH, b"street"), Err(2), "the original is behind what cannot be listed");
                assert_eq!(streets(flash), (0, Err(2)));
                assert_eq!(content(flash, from), Ok(b"12345".to_vec()), "by its place it is read all the same");
                return;
            }
            let at = if state(flash, to) == Some(FINALIZED) { to } else { from };
            assert_eq!(lookup(flash, HASH, b"street"), Ok(at), "the copy from its finish mark on");
            assert_eq!(content(flash, at), Ok(b"12345".to_vec()));
            assert_eq!(streets(flash), (times, Ok(())));
        });
        assert!(seen.before > seen.unlisted && seen.unlisted > 0, "{granularity} {seen:?}");
        assert_eq!((seen.between, seen.behind), (1, 1), "{granularity} {seen:?}");
    }
}
