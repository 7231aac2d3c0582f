//! An object known by its header: reading, copying and moving.

use crate::{
    answer::INVALID_OPERATION,
    model::{
        header::{Header, DELETED, FREE},
        Answer, Flash,
    },
};

/// A copy goes by so many bytes at a time.
const CHUNK: usize = 16;

impl Flash {
    /// None for a Free place.
    pub fn info_read(&self, block: u32, offset: u32) -> Answer<Option<Header>> {
        let header = self.read_header(block, offset)?;
        Ok((header.state != FREE).then_some(header))
    }

    /// The source is read back from the image; the copy takes the handed-in header's type.
    pub fn copy_object(&mut self, header: Header, block: u32, offset: u32) -> Answer<Header> {
        let mut source = self.reader_new(header.block, header.offset, false)?;
        if header.state == FREE {
            return Err(INVALID_OPERATION);
        }
        let mut target = self.writer_allocate(block, offset, header.kind)?;
        while source.remaining(self.geometry)? > 0 {
            let bytes = self.reader_read(&mut source, CHUNK)?;
            self.writer_write(&mut target, &bytes)?;
        }
        self.writer_finalize(&mut target)?;
        Ok(target.header)
    }

    pub fn move_object(&mut self, mut header: Header, block: u32, offset: u32) -> Answer<Header> {
        let copy = self.copy_object(header, block, offset)?;
        self.update_state(&mut header, DELETED)?;
        Ok(copy)
    }
}
