//! norfs's own file operations, cut after every unit: after which units a mount is refused, a file's lookup is refused,
//! and two finished metadata or two finished data objects stand. Then what making room can do with the power on.

#![feature(generic_const_exprs)]
#![allow(incomplete_features)]

mod chip;

use chip::{now, Chip, Flash, Lent, Shared};
use norfs::{
    medium::StorageMedium,
    writer::{FileDataWriter, Writer},
    OnCollision, Storage, StorageError,
};

const SIZE: usize = 64;
const COUNT: usize = 5;
type Bits = Flash<0, SIZE, COUNT>;
type Words1 = Flash<1, SIZE, COUNT>;
type Words4 = Flash<4, SIZE, COUNT>;
type Ended = Result<(), StorageError>;

/// What was found after the cuts of one operation.
#[derive(Default)]
struct Found {
    units: u32,
    mount_refused: Vec<u32>,
    lookup_refused: Vec<u32>,
    two_metadata: Vec<u32>,
    two_contents: Vec<u32>,
}

fn mount<M: Lent>(chip: &Shared) -> Result<Storage<M>, StorageError>
where
    [(); M::BLOCK_COUNT]:,
{
    now(Storage::mount(M::lent(chip)))
}

/// Runs an operation on a store, cut after each number of units, and looks at what is left.
fn at_each_cut<M: Lent>(before: &Chip, file: &str, run: impl Fn(&mut Storage<M>) -> Ended) -> Found
where
    [(); M::BLOCK_COUNT]:,
{
    let mut found = Found::default();
    let finished = before.finished(M::GRANULARITY, 0x8F);
    let contents = before.finished(M::GRANULARITY, 0x8E);
    loop {
        let chip = before.shared();
        let mut store = mount::<M>(&chip).unwrap();
        chip.borrow_mut().fuse = Some(found.units);
        let _ = run(&mut store);
        let cut = chip.borrow().fuse == Some(0) && chip.borrow().lost;
        chip.borrow_mut().fuse = None;
        let k = found.units;
        found.two_metadata.extend((chip.borrow().finished(M::GRANULARITY, 0x8F) > finished).then_some(k));
        found.two_contents.extend((chip.borrow().finished(M::GRANULARITY, 0x8E) > contents).then_some(k));
        match mount::<M>(&chip) {
            Err(_) => found.mount_refused.push(k),
            Ok(mut store) => {
                let size = now(store.file_size(file));
                found.lookup_refused.extend((size == Err(StorageError::FsCorrupted)).then_some(k));
            }
        }
        if !cut {
            return found;
        }
        found.units += 1;
    }
}

fn show(name: &str, found: &Found) {
    println!("  {name}: {} units", found.units);
    for (what, cuts) in [
        ("mount refused", &found.mount_refused),
        ("lookup refused", &found.lookup_refused),
        ("one finished metadata object more", &found.two_metadata),
        ("one finished data object more", &found.two_contents),
    ] {
        println!("    {what} after {}", ranges(cuts));
    }
}

/// `2, 6-17` for the numbers 2, 6, 7 .. 17.
fn ranges(numbers: &[u32]) -> String {
    let mut parts: Vec<(u32, u32)> = Vec::new();
    for &n in numbers {
        match parts.last_mut() {
            Some((_, last)) if *last + 1 == n => *last = n,
            _ => parts.push((n, n)),
        }
    }
    let text = |&(a, b): &(u32, u32)| if a == b { a.to_string() } else { format!("{a}-{b}") };
    if parts.is_empty() {
        return "no unit".to_string();
    }
    parts.iter().map(text).collect::<Vec<_>>().join(", ")
}

/// A formatted store with these files.
fn with<M: Lent>(files: &[(&str, usize)]) -> Chip
where
    [(); M::BLOCK_COUNT]:,
{
    let chip = Chip::erased(M::BLOCK_SIZE * M::BLOCK_COUNT).shared();
    let mut store: Storage<M> = now(Storage::format_and_mount(M::lent(&chip))).unwrap();
    for &(name, len) in files {
        now(store.store(name, &vec![b'1'; len], OnCollision::Fail)).unwrap();
    }
    drop(store);
    let made = chip.borrow().clone();
    made
}

fn windows<M: Lent>(chip_name: &str)
where
    [(); M::BLOCK_COUNT]:,
{
    println!("{chip_name}, blocks of {SIZE} bytes, one street A with one byte:");
    let one = with::<M>(&[("A", 1)]);
    let overwrite = at_each_cut::<M>(&one, "A", |store| now(store.store("A", b"2", OnCollision::Overwrite)));
    show("change A", &overwrite);
    let delete = at_each_cut::<M>(&one, "A", |store| now(store.delete("A")));
    show("delete A", &delete);
    let create = at_each_cut::<M>(&one, "A", |store| now(store.store("B", b"2", OnCollision::Fail)));
    show("make B", &create);
}

/// A store that has to make room for D moves a data object of B first (and then stops at a name).
fn data_move() {
    let three = with::<Bits>(&[("A", 40), ("B", 12), ("C", 5)]);
    let found = at_each_cut::<Bits>(&three, "B", |store| now(store.store("D", &[b'4'; 30], OnCollision::Fail)));
    println!("bits, making room for D moves a data object of B (10 bytes; its metadata names 3 places):");
    show("make room", &found);
}

/// Content of a length that is not told beforehand.
struct Untold<'a>(&'a [u8]);

impl FileDataWriter for Untold<'_> {
    async fn write<M>(&self, writer: &mut Writer<M>, storage: &mut Storage<M>) -> Ended
    where
        M: StorageMedium,
        [(); M::BLOCK_COUNT]:,
    {
        writer.write_all(self.0, storage).await
    }
}

/// A street of 30 bytes whose metadata outgrows its block: what its length reads as after each cut.
fn outgrown() {
    type Eight = Flash<0, SIZE, 8>;
    let before = with::<Eight>(&[("A", 1), ("B", 1), ("C", 1), ("D", 1)]);
    println!("bits, 8 blocks, the metadata of a street of 30 bytes outgrows its block:");
    for k in 0.. {
        let chip = before.shared();
        let mut store = mount::<Eight>(&chip).unwrap();
        chip.borrow_mut().fuse = Some(k);
        let ended = now(store.store_writer("E", &Untold(&[b'5'; 30]), OnCollision::Fail));
        chip.borrow_mut().fuse = None;
        if let Ok(Ok(size)) = mount::<Eight>(&chip).map(|mut store| now(store.file_size("E"))) {
            println!("  after {k}: a finished street of {size} bytes");
        }
        if ended.is_ok() {
            return;
        }
    }
}

/// Making room for D formats the block of all metadata, since it is just half full: A and B are gone.
fn half_full() {
    let chip = with::<Bits>(&[("A", 40), ("B", 32)]).shared();
    let mut store = mount::<Bits>(&chip).unwrap();
    let sizes = |store: &mut Storage<Bits>| [now(store.file_size("A")), now(store.file_size("B"))];
    println!("bits, block 0 holds the metadata of A and B and is just half full:");
    println!("  before: {:?}", sizes(&mut store));
    chip.borrow_mut().log.clear();
    let ended = now(store.store("D", &[b'4'; 30], OnCollision::Fail));
    println!("  storing D with the power on: {ended:?}; first store: {}", chip.borrow().log[0]);
    let after = sizes(&mut store);
    println!("  after:  {after:?}");
    assert_eq!(after, [Err(StorageError::NotFound); 2], "the text loses both");
}

/// After a refused store the next one moves metadata to and fro and ends only when the power does.
fn endless() {
    let chip = Chip::erased(64 * 4).shared();
    let mut store: Storage<Flash<0, 64, 4>> = now(Storage::format_and_mount(Flash(chip.clone()))).unwrap();
    for name in ["a", "b", "c", "d"] {
        now(store.store(name, b"11111", OnCollision::Fail)).unwrap();
    }
    println!("bits, 4 blocks, four streets of 5 bytes:");
    println!("  storing a fifth: {:?}", now(store.store("e", b"11111", OnCollision::Fail)));
    chip.borrow_mut().fuse = Some(100_000);
    chip.borrow_mut().log.clear();
    println!("  storing a sixth with power for 100000 units: {:?}", now(store.store("f", b"11111", OnCollision::Fail)));
    let erases = chip.borrow().log.iter().filter(|line| line.starts_with("erase")).count();
    println!("  it used them all: {}, {erases} of them erases", chip.borrow().lost);
}

fn main() {
    windows::<Bits>("bits");
    windows::<Words1>("words of 1");
    windows::<Words4>("words of 4");
    data_move();
    outgrown();
    half_full();
    endless();
}
