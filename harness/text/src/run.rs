//! One case on one instance of the text.

use crate::{
    answer::{DONE, FS_CORRUPTED, INSUFFICIENT_SPACE, INVALID_OPERATION, IO, NOT_FORMATTED, NOT_FOUND, RUST_PANIC},
    call_batch, call_blocks, call_collector, call_objects, call_storage,
    case::Case,
    flash::{set_widths, Chip},
    op::{Layer, Op},
    outcome::Outcome,
    panics,
    standins::now,
    StorageError,
};

/// What the text shows of a call that is done; the table, the lent bytes and a batch's count also after a refusal.
pub struct Shown {
    pub values: Vec<u64>,
    pub array: Vec<u32>,
    pub known: usize,
    pub bytes: Vec<u8>,
}

impl Shown {
    pub fn value(&mut self, value: u64) {
        self.values = vec![value];
    }

    pub fn numbers(&mut self, numbers: &[u32]) {
        self.values = numbers.iter().map(|&n| n as u64).collect();
    }

    /// 1 and the numbers, or 0 and the rest as it was.
    pub fn found<const N: usize>(&mut self, numbers: Option<[u32; N]>) {
        self.values[0] = numbers.is_some() as u64;
        if let Some(numbers) = numbers {
            self.values[1..].copy_from_slice(&numbers.map(u64::from));
        }
    }
}

pub fn run_on<M: Chip>(case: &Case) -> Outcome {
    set_widths(case.geometry.s, case.geometry.c);
    let mut after = Outcome::before(case);
    let mut medium = M::new(std::mem::take(&mut after.image), case.fuse, case.geometry.marked());
    let mut shown = Shown {
        values: after.values.clone(),
        array: case.array.clone(),
        known: after.known,
        bytes: case.bytes.clone(),
    };
    let result = panics::catch(|| match case.op.signature().layer {
        Layer::Medium => now(call_medium(case, &mut medium, &mut shown)).map_err(number),
        Layer::Objects => call_objects::call(case, &mut medium, &mut shown).map_err(number),
        Layer::Blocks => call_blocks::call(case, &mut medium, &mut shown).map_err(number),
        Layer::Collector => call_collector::call(case, &mut medium, &mut shown).map_err(number),
        Layer::Batch => call_batch::call(case, &mut medium, &mut shown),
        Layer::Storage => call_storage::call(case, &mut medium, &mut shown).map_err(number),
        Layer::Sweep => unreachable!("the text has no sweep"),
    });
    let (image, fuse, refused) = medium.end();
    after.image = image;
    after.fuse = fuse;
    after.bytes = shown.bytes;
    after.answer = match result {
        None => RUST_PANIC,
        Some(Err(number)) => refused.unwrap_or(number),
        Some(Ok(())) => DONE,
    };
    if after.done() || case.op.signature().layer == Layer::Collector {
        after.array = shown.array;
        after.known = shown.known;
    }
    if after.done() || case.op.signature().tells_always() {
        after.values = shown.values;
    }
    after
}

/// The number of the text's own refusal.
pub fn number(error: StorageError) -> u8 {
    match error {
        StorageError::NotFound => NOT_FOUND,
        StorageError::NotFormatted => NOT_FORMATTED,
        StorageError::FsCorrupted => FS_CORRUPTED,
        StorageError::Io => IO,
        StorageError::InvalidOperation => INVALID_OPERATION,
        StorageError::InsufficientSpace => INSUFFICIENT_SPACE,
    }
}

async fn call_medium<M: Chip>(case: &Case, medium: &mut M, shown: &mut Shown) -> Result<(), StorageError> {
    let arg = |i: usize| case.args[i] as usize;
    match case.op {
        Op::Align => shown.value(M::align(arg(0)) as u64),
        Op::Read => medium.read(arg(0), arg(1), &mut shown.bytes).await?,
        Op::Write => medium.write(arg(0), arg(1), &case.bytes).await?,
        Op::Erase => medium.erase(arg(0)).await?,
        _ => unreachable!(),
    }
    Ok(())
}
