//! Random stores, whole and wrong: what the names list, a lookup finds; what a lookup found opens; and a file read in pieces
//! is the file read at once.

mod bench;

use bench::named::{first, lookup, next, read, size};
use harness::{
    cases::stores::{store, Place},
    geometry::Geometry,
    model::Flash,
    random::Random,
};

/// Some hundreds of stores of several geometries.
fn stores(test: impl Fn(&Flash)) {
    let mut r = Random::new(7);
    for n in 0..600 {
        let (size, count) = [(64, 4), (128, 4), (256, 4), (260, 3)][n % 4];
        let s = if size > 256 { 2 } else { r.between(1, 3) as u8 };
        let g = Geometry { granularity: r.pick(&[0, 1, 4]), s, c: r.between(1, 3) as u8, strict: 0, size, count };
        test(&store(&mut r, g).flash);
    }
}

/// A file that the names list: hash, name, and where its metadata is.
type Listed = (u32, Vec<u8>, Place);

/// The files up to the end, or up to the first refusal.
fn listed(flash: &Flash) -> (Vec<Listed>, Result<(), u8>) {
    let (mut place, mut files) = (first(flash.geometry), Vec::new());
    loop {
        match next(flash, place, 300) {
            Ok(Some((name, at, behind))) => {
                let hash = flash.location_read_metadata(at[0], at[1]).unwrap().path_hash;
                files.push((hash, name, at));
                place = behind;
            }
            Ok(None) => return (files, Ok(())),
            Err(number) => return (files, Err(number)),
        }
    }
}

#[test]
fn a_name_that_is_listed_is_found_there_or_before() {
    stores(|flash| {
        let (files, _) = listed(flash);
        assert!(files.is_sorted_by_key(|(_, _, at)| *at), "in block and offset order");
        for (hash, name, _) in &files {
            let (_, _, at) = files.iter().find(|file| file.0 == *hash && file.1 == *name).unwrap();
            assert_eq!(lookup(flash, *hash, name), Ok(*at));
        }
    });
}

#[test]
fn what_is_not_listed_is_not_found() {
    stores(|flash| {
        let (files, Ok(())) = listed(flash) else { return };
        for (hash, name, _) in &files {
            let longer = [&name[..], b"?"].concat();
            for (hash, path) in [(*hash, &longer), (hash ^ 0x5555_0000, name)] {
                let known = files.iter().find(|file| file.0 == hash && file.1 == *path);
                assert_eq!(lookup(flash, hash, path), known.map(|file| file.2).ok_or(13));
            }
        }
    });
}

#[test]
fn what_a_lookup_found_opens_and_is_read_in_pieces() {
    stores(|flash| {
        for (hash, name, _) in listed(flash).0 {
            let at = lookup(flash, hash, &name).unwrap();
            assert_eq!(read(flash, at, 0, 0), Ok(vec![]));
            let Ok(len) = size(flash, at) else { continue };
            let Ok(whole) = read(flash, at, 0, len as usize) else { continue };
            assert_eq!(whole.len() as u64, len);
            for piece in [1, 2, 3, 7, 16] {
                let parts = (0..=len as usize).step_by(piece).map(|from| read(flash, at, from as u64, piece).unwrap());
                assert_eq!(parts.collect::<Vec<_>>().concat(), whole);
            }
        }
    });
}
