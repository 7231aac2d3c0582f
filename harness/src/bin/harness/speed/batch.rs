//! A batch against the same records written one by one, both over the C interface.

use harness::{
    cases::batch::laid,
    geometry::Geometry,
    model::{blocks::DATA, layout, Flash},
    rattle::interface::{stumpchoir_write_all, stumpchoir_write_to},
};

use super::{granularity, median, timed};

pub fn rows(rounds: u64) -> Result<(), String> {
    println!("| block | granularity | records | payload | write_to, ns a record | write_all, ns a record | ratio |");
    println!("|---:|---|---:|---:|---:|---:|---:|");
    for size in [65_536, 4_096] {
        for granularity in [0, 1, 4] {
            let g = Geometry { granularity, s: 2, c: 1, strict: 0, size, count: 1 };
            for (count, len) in [(12, 0), (12, 24), (12, 200), (64, 0), (64, 24), (64, 200)] {
                if let Some(work) = Work::new(g, count, len) {
                    println!("{}", work.row(rounds)?);
                }
            }
        }
    }
    Ok(())
}

/// Records of one length, and the block that they go into.
struct Work {
    geometry: Geometry,
    records: Vec<[u32; 4]>,
    list: Vec<u32>,
    payload: Vec<u8>,
    fresh: Vec<u8>,
}

impl Work {
    /// None where the records do not fit.
    fn new(geometry: Geometry, count: usize, len: u32) -> Option<Work> {
        let mut flash = Flash::erased(geometry);
        flash.block_header_write(0, DATA, 0).ok()?;
        let records = laid(geometry, layout::block_header_len(geometry) as u32, &vec![len; count]);
        let end = records[count - 1][1] as u64 + layout::header_len(geometry) + len as u64;
        let payload = (0..count as u32 * len).map(|i| i as u8).collect();
        let (list, fresh) = (records.concat(), flash.image);
        (end <= geometry.size as u64).then_some(Work { geometry, records, list, payload, fresh })
    }

    /// Both ways in turn, each on a fresh block; the copy is not timed, and what the clock takes is subtracted.
    fn row(&self, rounds: u64) -> Result<String, String> {
        let (mut one, mut other) = (self.fresh.clone(), self.fresh.clone());
        let (mut singles, mut batches, mut idle) = (Vec::new(), Vec::new(), Vec::new());
        for _ in 0..rounds {
            one.copy_from_slice(&self.fresh);
            singles.push(timed(|| self.one_by_one(&mut one))?);
            other.copy_from_slice(&self.fresh);
            batches.push(timed(|| self.at_once(&mut other))?);
            idle.push(timed(|| true)?);
        }
        if one != other {
            return Err(format!("speed: the images differ, {:?}", self.geometry));
        }
        let clock = median(idle);
        let a_record = |times| (median(times) - clock) / self.records.len() as f64;
        let (single, batch) = (a_record(singles), a_record(batches));
        let granularity = granularity(self.geometry.granularity);
        let (size, count, len) = (self.geometry.size, self.records.len(), self.records[0][3]);
        let ratio = batch / single;
        Ok(format!("| {size} | {granularity} | {count} | {len} | {single:.0} | {batch:.0} | {ratio:.2} |"))
    }

    fn one_by_one(&self, image: &mut [u8]) -> bool {
        let (numbers, units) = (self.geometry.numbers(), std::ptr::null_mut());
        let (g, room) = (numbers.as_ptr(), image.len());
        let mut total = 0;
        self.records.iter().all(|&[kind, offset, start, len]| {
            let src = self.payload[start as usize..].as_ptr();
            let (kind, len, image) = (kind as u8, len as usize, image.as_mut_ptr());
            0 == unsafe { stumpchoir_write_to(g, image, room, false, units, 0, offset, kind, src, len, &mut total) }
        })
    }

    fn at_once(&self, image: &mut [u8]) -> bool {
        let (numbers, units) = (self.geometry.numbers(), std::ptr::null_mut());
        let (g, room, image) = (numbers.as_ptr(), image.len(), image.as_mut_ptr());
        let (records, count) = (self.list.as_ptr(), self.list.len());
        let (payload, len) = (self.payload.as_ptr(), self.payload.len());
        let mut done = 0;
        let answer =
            unsafe { stumpchoir_write_all(g, image, room, false, units, 0, records, count, payload, len, &mut done) };
        answer == 0 && done as usize == self.records.len()
    }
}
