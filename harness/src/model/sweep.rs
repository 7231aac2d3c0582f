//! The sweep: of metadata objects that stand twice the first stays, and then what no metadata object refers to is deleted.

use std::collections::HashSet;

use crate::{
    answer::DANGLING,
    model::{
        blocks::{DATA, METADATA},
        header::{location_from_bytes, Header, DELETED, FINALIZED},
        layout,
        listing::Listing,
        Answer, Flash,
    },
};

type Place = [u32; 2];

impl Flash {
    /// What has to go is known before the first mark is stored. Each number counts objects whose mark was. Under the strict mark
    /// nothing goes: 14 behind all listings.
    pub fn sweep(&mut self, twins: &mut u64, unreferred: &mut u64) -> Answer<()> {
        let (metadata, data) = self.in_order()?;
        if self.geometry.marked() {
            return Err(DANGLING);
        }
        let stand: HashSet<Place> = data.iter().map(|header| [header.block, header.offset]).collect();
        let (mut known, mut referred) = (HashSet::new(), HashSet::new());
        let mut again = Vec::new();
        for header in metadata {
            let payload = self.whole_payload(header).ok_or(DANGLING)?;
            let locations = self.locations(payload).ok_or(DANGLING)?;
            if !locations.iter().all(|at| stand.contains(at)) {
                return Err(DANGLING);
            }
            referred.extend(locations);
            if !known.insert((header.kind, payload)) {
                again.push(header);
            }
        }
        let left: Vec<Header> = data.into_iter().filter(|h| !referred.contains(&[h.block, h.offset])).collect();
        self.delete_all(again, twins)?;
        self.delete_all(left, unreferred)
    }

    /// The Finalized objects of Metadata blocks and those of Data blocks, of any type, in the order of a lookup. Every
    /// listing goes to its end.
    fn in_order(&self) -> Answer<(Vec<Header>, Vec<Header>)> {
        let (mut metadata, mut data) = (Vec::new(), Vec::new());
        for block in 0..self.geometry.count {
            let into = match self.block_header(block)?.0 {
                METADATA => &mut metadata,
                DATA => &mut data,
                _ => continue,
            };
            let mut listing = Listing::new(self.geometry, block);
            while let Some(header) = self.list_next(&mut listing)? {
                if header.state == FINALIZED {
                    into.push(header);
                }
            }
        }
        Ok((metadata, data))
    }

    /// None where the size is unset, and where it runs past the block.
    fn whole_payload(&self, header: Header) -> Option<&[u8]> {
        let from = header.offset as u64 + layout::header_len(self.geometry);
        self.read(header.block, from, header.payload(self.geometry)? as u64).ok()
    }

    /// Where the name and the data are: whole locations behind the hash, one at least.
    fn locations(&self, payload: &[u8]) -> Option<Vec<Place>> {
        let rest = payload.get(4..).filter(|rest| !rest.is_empty())?;
        rest.chunks(layout::location_len(self.geometry) as usize)
            .map(|bytes| location_from_bytes(self.geometry, bytes).ok())
            .collect()
    }

    fn delete_all(&mut self, objects: Vec<Header>, deleted: &mut u64) -> Answer<()> {
        for mut header in objects {
            self.update_state(&mut header, DELETED)?;
            *deleted += 1;
        }
        Ok(())
    }
}
