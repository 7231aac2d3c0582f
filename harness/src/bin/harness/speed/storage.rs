//! A lookup over the C interface against the Rust's, and reading a file.

use harness::{
    cases::stores::{payload, Place, Store},
    geometry::Geometry,
    model::{
        blocks::{DATA, METADATA},
        header::TYPES,
        layout,
    },
    oracle,
    rattle::interface::{stumpchoir_file_read, stumpchoir_lookup},
};

use super::{granularity, median, timed};

pub fn rows(rounds: u64) -> Result<(), String> {
    println!("\n| store | granularity | streets | looked up | the Rust's lookup, ns | stumpchoir_lookup, ns | ratio |");
    println!("|---:|---|---:|---|---:|---:|---:|");
    for (size, count, s, c) in [(256, 4, 2, 1), (4_096, 16, 2, 1), (4_096, 256, 2, 2), (65_536, 256, 3, 2)] {
        for granularity in [0, 4] {
            City::new(Geometry { granularity, s, c, strict: 0, size, count }).lookups(rounds)?;
        }
    }
    println!("\n| file | data objects | position | granularity | stumpchoir_file_read, ns | ns a byte |");
    println!("|---:|---:|---:|---|---:|---:|");
    for granularity in [0, 4] {
        for (len, objects) in [(16, 1), (256, 1), (4_096, 1), (4_096, 16), (49_152, 1), (49_152, 64)] {
            for position in [0, len / 2] {
                read(granularity, len, objects, position, rounds)?;
            }
        }
    }
    Ok(())
}

/// A name and 8 bytes of data, with the header between them, take no more than this.
const LARGEST: usize = 64;

/// A store that is full of small files: metadata in the first half of the blocks, names and data in the second.
struct City {
    store: Store,
}

impl City {
    fn new(g: Geometry) -> City {
        let half = g.count / 2;
        let kinds: Vec<u32> = (0..g.count).map(|block| if block < half { METADATA } else { DATA }).collect();
        let mut store = Store::of(g, &kinds);
        let mut to = [0, half];
        for i in 0.. {
            to[0] += !store.fits(to[0], 4 + 2 * layout::location_len(g) as usize) as u32;
            to[1] += !store.fits(to[1], LARGEST) as u32;
            if to[0] == half || to[1] == g.count {
                break;
            }
            store.file(to, hash(i), &name(i), &[&[0x41; 8]]).expect("room for a file");
        }
        City { store }
    }

    fn lookups(&self, rounds: u64) -> Result<(), String> {
        let files = &self.store.files;
        let last = files.len() - 1;
        for (words, i) in [("the first", 0), ("the middle", last / 2), ("the last", last)] {
            self.row(words, &files[i].name, files[i].hash, Ok(files[i].at), rounds)?;
        }
        self.row("none", b"a name that no file has.", hash(files.len() as u32), Err(13), rounds)
    }

    /// Both in turn; what the clock takes is subtracted. Large stores have fewer rounds.
    fn row(&self, words: &str, path: &[u8], hash: u32, found: Result<Place, u8>, rounds: u64) -> Result<(), String> {
        let (g, image) = (self.store.flash.geometry, &self.store.flash.image);
        let mut find = oracle::finder(g, image, path, hash);
        let rounds = (rounds * 65_536 / image.len() as u64).clamp(5.min(rounds), rounds);
        let (mut texts, mut calls, mut idle) = (Vec::new(), Vec::new(), Vec::new());
        for _ in 0..rounds {
            if let Some(find) = &mut find {
                texts.push(timed(|| find() == found)?);
            }
            calls.push(timed(|| self.call(path, hash) == found)?);
            idle.push(timed(|| true)?);
        }
        let clock = median(idle);
        let call = median(calls) - clock;
        let (text, ratio) = match texts.is_empty() {
            true => ("-".to_string(), "-".to_string()),
            false => {
                let text = median(texts) - clock;
                (format!("{text:.0}"), format!("{:.2}", call / text))
            }
        };
        let (granularity, streets) = (granularity(g.granularity), self.store.files.len());
        println!("| {} | {granularity} | {streets} | {words} | {text} | {call:.0} | {ratio} |", image.len());
        Ok(())
    }

    fn call(&self, path: &[u8], hash: u32) -> Result<Place, u8> {
        let (g, image, mut at) = (self.store.flash.geometry.numbers(), &self.store.flash.image, [0; 2]);
        let (path, len) = (path.as_ptr(), path.len());
        match unsafe { stumpchoir_lookup(g.as_ptr(), image.as_ptr(), image.len(), path, len, hash, at.as_mut_ptr()) } {
            0 => Ok(at),
            number => Err(number),
        }
    }
}

/// No two are alike.
fn hash(i: u32) -> u32 {
    i.wrapping_mul(0x9E37_79B1)
}

fn name(i: u32) -> Vec<u8> {
    format!("streets/number/{i:08}").into_bytes()
}

/// One file of so many bytes in objects of one length, read from a position to its end.
fn read(number: u8, len: usize, objects: usize, position: usize, rounds: u64) -> Result<(), String> {
    let g = Geometry { granularity: number, s: 2, c: 1, strict: 0, size: 65_536, count: 2 };
    let mut store = Store::of(g, &[METADATA, DATA]);
    let bytes: Vec<u8> = (0..len).map(|i| i as u8).collect();
    let name = store.put(1, TYPES[2], b"n").ok_or("room for a name")?;
    let put = |part| store.put(1, TYPES[1], part);
    let data: Option<Vec<Place>> = bytes.chunks(len / objects).map(put).collect();
    let metadata = payload(g, 0, name, &data.ok_or("room for the data")?);
    let at = store.put(0, TYPES[0], &metadata).ok_or("room for the metadata")?;
    let (numbers, image, mut buffer) = (g.numbers(), &store.flash.image, vec![0; len - position]);
    let (mut calls, mut idle) = (Vec::new(), Vec::new());
    for _ in 0..rounds {
        let (mut read, room, to) = (0, buffer.len(), buffer.as_mut_ptr());
        let (g, image, image_len) = (numbers.as_ptr(), image.as_ptr(), image.len());
        calls.push(timed(|| {
            let from = position as u64;
            0 == unsafe { stumpchoir_file_read(g, image, image_len, at[0], at[1], from, to, room, &mut read) }
        })?);
        idle.push(timed(|| true)?);
    }
    if buffer != bytes[position..] {
        return Err("speed: other bytes were read".to_string());
    }
    let call = median(calls) - median(idle);
    let a_byte = call / buffer.len() as f64;
    println!("| {len} | {objects} | {position} | {} | {call:.0} | {a_byte:.2} |", granularity(number));
    Ok(())
}
