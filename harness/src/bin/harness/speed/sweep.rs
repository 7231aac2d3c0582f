//! Sweeps of full stores, without words and with words lent.

use std::time::Duration;

use harness::{
    cases::stores::{payload, poke, Place, Store},
    geometry::Geometry,
    model::{
        blocks::{DATA, METADATA},
        header::{location_into_bytes, TYPES},
        layout, Flash,
    },
    rattle::interface::{stumpchoir_sweep, stumpchoir_sweep_with},
};

use super::{granularity, median, timed};

const STORES: [(u32, u32, u8, u8); 4] =
    [(4_096, 16, 2, 1), (4_096, 256, 2, 2), (4_096, 4_096, 2, 2), (65_536, 256, 3, 2)];

pub fn rows(rounds: u64) -> Result<(), String> {
    println!("\n| store | block | granularity | streets | objects | twins | stumpchoir_sweep_with, ms | ns an object | stumpchoir_sweep, ms | ratio |");
    println!("|---:|---:|---|---:|---:|---:|---:|---:|---:|---:|");
    let (mut parts, mut known) = (Vec::new(), Vec::new());
    for (size, count, s, c) in STORES {
        for granularity in [0, 4] {
            let g = Geometry { granularity, s, c, strict: 0, size, count };
            for again in [Again::None, Again::Ten, Again::All] {
                let town = Town::new(g, again);
                let times = town.row(rounds, &mut known)?;
                if again == Again::Ten {
                    parts.push(town.parts(rounds, times)?);
                }
            }
        }
    }
    println!("\n| store | block | granularity | objects | words | all metadata checked, ms | twins looked for, ms | the rest, ms |");
    println!("|---:|---:|---|---:|---|---:|---:|---:|");
    println!("{}", parts.concat());
    println!("A time in brackets was not measured: it is the one above it of such a store, by the square of the numbers of objects.");
    Ok(())
}

/// Which streets stand twice.
#[derive(Clone, Copy, PartialEq, Debug)]
enum Again {
    None,
    Ten,
    All,
}

const NAME: usize = 12;
const CONTENT: usize = 15;
const TWINS: usize = 10;

/// A full store of streets: a name, one data object and metadata, with a hash of its own. The metadata stands in the first
/// blocks, and what stands again behind all of it.
struct Town {
    store: Store,
    again: Again,
    streets: usize,
    twins: usize,
    last: Place,
}

impl Town {
    fn new(g: Geometry, again: Again) -> Town {
        let (metadata_blocks, streets) = most_streets(g, again);
        let kinds: Vec<u32> = (0..g.count).map(|block| if block < metadata_blocks { METADATA } else { DATA }).collect();
        let mut store = Store::of(g, &kinds);
        let mut to = metadata_blocks;
        let mut all = Vec::new();
        for i in 0..streets as u32 {
            to += !store.fits(to, (layout::align(g, NAME as u64) + layout::header_len(g)) as usize + CONTENT) as u32;
            let name = store.put(to, TYPES[2], format!("street{i:06}").as_bytes()).expect("room for a name");
            let data = store.put(to, TYPES[1], &[0x41; CONTENT]).expect("room for the data");
            all.push(payload(g, i.wrapping_mul(0x9E37_79B1), name, &[data]));
        }
        let twice: Vec<Vec<u8>> = match again {
            Again::None => vec![],
            Again::Ten => (0..TWINS).map(|i| all[i * streets / TWINS].clone()).collect(),
            Again::All => all.clone(),
        };
        let twins = twice.len();
        let (mut block, mut last) = (0, [0; 2]);
        for payload in all.iter().chain(&twice) {
            block += !store.fits(block, payload.len()) as u32;
            last = store.put(block, TYPES[0], payload).expect("room for the metadata");
        }
        Town { store, again, streets, twins, last }
    }

    fn geometry(&self) -> Geometry {
        self.store.flash.geometry
    }

    fn objects(&self) -> usize {
        3 * self.streets + self.twins
    }

    /// Both answers and images are those of the model, and then both are timed. Gives the time with words, and the one without
    /// them that was measured or is guessed.
    fn row(&self, rounds: u64, known: &mut Vec<Known>) -> Result<[f64; 2], String> {
        let mut model = self.store.flash.clone();
        let (mut twins, mut unreferred) = (0, 0);
        let answer = model.sweep(&mut twins, &mut unreferred);
        if answer.is_err() || (twins, unreferred) != (self.twins as u64, 0) {
            return Err(format!("speed: the model deletes {twins} and {unreferred}: {answer:?}"));
        }
        let expected = (0, self.twins as u32, 0);
        let time = |with| {
            let after = |image: &[u8]| image == model.image;
            Sweep { flash: &self.store.flash, fuse: None, with }.time(expected, &after, rounds)
        };
        let lent = time(true)?;
        let (g, objects) = (self.geometry(), self.objects());
        let mut plain = guess(known, self);
        let told = if plain < LONGEST {
            plain = time(false)?;
            known.push(Known { again: self.again, granularity: g.granularity, objects, time: plain });
            format!("{:.2} | {:.0}", plain * 1e3, plain / lent)
        } else {
            format!("({:.0}) | ({:.0})", plain * 1e3, plain / lent)
        };
        let (name, streets, twins) = (granularity(g.granularity), self.streets, self.twins);
        let (ms, each) = (lent * 1e3, lent * 1e9 / objects as f64);
        println!(
            "| {} | {} | {name} | {streets} | {objects} | {twins} | {ms:.2} | {each:.0} | {told} |",
            g.room(),
            g.size
        );
        Ok([lent, plain])
    }

    /// A sweep whose last metadata dangles has checked all of it, and one that has no power ends at the first twin, which stands
    /// behind all streets. Short ones are timed once more beside them.
    fn parts(&self, rounds: u64, times: [f64; 2]) -> Result<String, String> {
        let g = self.geometry();
        let mut dangling = self.store.flash.clone();
        for (i, byte) in (layout::header_len(g) as u32 + 4..).zip(location_into_bytes(g, 0, 1)) {
            poke(&mut dangling, self.last, i, byte);
        }
        let mut text = String::new();
        for (with, all) in [true, false].into_iter().zip(times).filter(|&(_, all)| all < LONGEST) {
            let whole = &self.store.flash;
            let same = |image: &[u8]| image == whole.image || image == dangling.image;
            let check = Sweep { flash: &dangling, fuse: None, with }.time((14, 0, 0), &same, rounds)?;
            let twins = Sweep { flash: whole, fuse: Some(0), with }.time((8, 0, 0), &same, rounds)?;
            let powered = Sweep { flash: whole, fuse: None, with };
            let all = if all < 1.0 { powered.time((0, self.twins as u32, 0), &|_| true, rounds)? } else { all };
            let words = if with { "lent" } else { "none" };
            let [check, twins, rest] = [check, twins - check, all - twins].map(|seconds| seconds * 1e3);
            let (name, objects) = (granularity(g.granularity), self.objects());
            text += &format!(
                "| {} | {} | {name} | {objects} | {words} | {check:.2} | {twins:.2} | {rest:.2} |\n",
                g.room(),
                g.size
            );
        }
        Ok(text)
    }
}

/// How many blocks are for metadata where the most streets fit, and how many these are.
fn most_streets(g: Geometry, again: Again) -> (u32, usize) {
    let total = |len: usize| layout::header_len(g) + layout::align(g, len as u64);
    let in_block = |len: u64| ((g.size as u64 - layout::block_header_len(g)) / len) as usize;
    let metadata = in_block(total(4 + 2 * layout::location_len(g) as usize));
    let data = in_block(total(NAME) + total(CONTENT));
    let fit = |blocks: u32| {
        let room = blocks as usize * metadata;
        let streets = match again {
            Again::None => room,
            Again::Ten => room.saturating_sub(TWINS),
            Again::All => room / 2,
        };
        streets.min((g.count - blocks) as usize * data)
    };
    (1..g.count).map(|blocks| (blocks, fit(blocks))).max_by_key(|&(_, streets)| streets).unwrap()
}

/// What a sweep without words took in a store.
struct Known {
    again: Again,
    granularity: u8,
    objects: usize,
    time: f64,
}

/// Sweeps without words that would take longer, in seconds, are not made.
const LONGEST: f64 = 100.0;

/// How long a sweep without words would take, from the last such store that was swept, by the square of the numbers of objects; 0
/// where there is none.
fn guess(known: &[Known], town: &Town) -> f64 {
    let like = |k: &&Known| k.again == town.again && k.granularity == town.geometry().granularity;
    known.iter().rfind(like).map_or(0.0, |last| last.time * (town.objects() as f64 / last.objects as f64).powi(2))
}

/// A sweep, with or without words.
struct Sweep<'a> {
    flash: &'a Flash,
    fuse: Option<u32>,
    with: bool,
}

/// The answer, and how many twins and unreferred objects were deleted.
type Said = (u8, u32, u32);

impl Sweep<'_> {
    /// Its median in seconds, over as many rounds as a second has, but no more than are asked for. It is made once before them, to
    /// see that it ends as it should; where that takes more than a second, that is its time.
    fn time(&self, expected: Said, after: &dyn Fn(&[u8]) -> bool, rounds: u64) -> Result<f64, String> {
        let mut image = self.flash.image.clone();
        let mut words = vec![0xA5A5_A5A5; if self.with { image.len() } else { 0 }];
        let first = self.once(expected, &mut image, &mut words)?;
        if !after(&image) || words.iter().any(|&word| word != 0) {
            return Err(format!("speed: a sweep left another image or its notes, {:?}", self.flash.geometry));
        }
        let many = (1.0 / first.as_secs_f64()).min(rounds as f64) as u64;
        let mut times = Vec::new();
        for _ in 0..many {
            image.copy_from_slice(&self.flash.image);
            times.push(self.once(expected, &mut image, &mut words)?);
        }
        Ok(if times.is_empty() { first.as_secs_f64() } else { median(times) / 1e9 })
    }

    fn once(&self, expected: Said, image: &mut [u8], words: &mut [u32]) -> Result<Duration, String> {
        let (numbers, mut units) = (self.flash.geometry.numbers(), self.fuse.unwrap_or(0));
        let (g, room, image, fused) = (numbers.as_ptr(), image.len(), image.as_mut_ptr(), self.fuse.is_some());
        let (mut twins, mut unreferred) = (0, 0);
        let (lent, many) = (words.as_mut_ptr(), words.len());
        timed(|| {
            let answer = unsafe {
                if self.with {
                    stumpchoir_sweep_with(g, image, room, fused, &mut units, &mut twins, &mut unreferred, lent, many)
                } else {
                    stumpchoir_sweep(g, image, room, fused, &mut units, &mut twins, &mut unreferred)
                }
            };
            (answer, twins, unreferred) == expected
        })
    }
}
