//! A medium by document 01's rules that can be looked at while norfs holds it.

use std::{cell::RefCell, future::Future, rc::Rc};

use norfs::medium::{StorageMedium, WriteGranularity};
use norfs_driver::medium::MediumError;

#[derive(Clone, Default)]
pub struct Chip {
    pub image: Vec<u8>,
    pub fuse: Option<u32>,
    /// a store was refused for want of power
    pub lost: bool,
    /// each store, as block:offset and bytes
    pub log: Vec<String>,
    /// where a type byte was stored, and which
    types: Vec<(usize, u8)>,
}

pub type Shared = Rc<RefCell<Chip>>;

pub struct Flash<const G: u8, const SIZE: usize, const COUNT: usize>(pub Shared);

/// A medium over a chip that someone else holds too.
pub trait Lent: StorageMedium {
    const GRANULARITY: u8;
    fn lent(chip: &Shared) -> Self;
}

impl<const G: u8, const SIZE: usize, const COUNT: usize> Lent for Flash<G, SIZE, COUNT> {
    const GRANULARITY: u8 = G;

    fn lent(chip: &Shared) -> Self {
        Flash(chip.clone())
    }
}

impl Chip {
    pub fn erased(room: usize) -> Chip {
        Chip { image: vec![0xFF; room], ..Chip::default() }
    }

    pub fn shared(&self) -> Shared {
        Rc::new(RefCell::new(self.clone()))
    }

    /// How many finished objects of a type there are.
    pub fn finished(&self, granularity: u8, kind: u8) -> usize {
        let marks = |at: usize| match granularity {
            0 => self.image[at + 1] == 0xF0,
            w => (self.image[at + w as usize], self.image[at + 2 * w as usize]) == (0, 0xFF),
        };
        self.types.iter().filter(|&&(at, found)| found == kind && self.image[at] == kind && marks(at)).count()
    }

    fn unit(&mut self) -> bool {
        match &mut self.fuse {
            None => true,
            Some(0) => {
                self.lost = true;
                false
            }
            Some(left) => {
                *left -= 1;
                true
            }
        }
    }
}

impl<const G: u8, const SIZE: usize, const COUNT: usize> StorageMedium for Flash<G, SIZE, COUNT> {
    const BLOCK_SIZE: usize = SIZE;
    const BLOCK_COUNT: usize = COUNT;
    const WRITE_GRANULARITY: WriteGranularity = match G {
        0 => WriteGranularity::Bit,
        1 => WriteGranularity::Word(1),
        _ => WriteGranularity::Word(4),
    };

    async fn erase(&mut self, block: usize) -> Result<(), MediumError> {
        let mut chip = self.0.borrow_mut();
        if block >= COUNT || !chip.unit() {
            return Err(MediumError::Erase);
        }
        chip.log.push(format!("erase {block}"));
        chip.image[block * SIZE..(block + 1) * SIZE].fill(0xFF);
        Ok(())
    }

    async fn read(&mut self, block: usize, offset: usize, data: &mut [u8]) -> Result<(), MediumError> {
        if block >= COUNT || offset + data.len() > SIZE {
            return Err(MediumError::Read);
        }
        let at = block * SIZE + offset;
        data.copy_from_slice(&self.0.borrow().image[at..at + data.len()]);
        Ok(())
    }

    async fn write(&mut self, block: usize, offset: usize, data: &[u8]) -> Result<(), MediumError> {
        let word = if G == 4 { 4 } else { 1 };
        if block >= COUNT || offset % word != 0 || offset + data.len().div_ceil(word) * word > SIZE {
            return Err(MediumError::Write);
        }
        let mut chip = self.0.borrow_mut();
        chip.log.push(format!("{block}:{offset} {data:02x?}"));
        let mut at = block * SIZE + offset;
        if let [kind @ 0x8D..=0x8F] = data {
            chip.types.push((at, *kind));
        }
        for new in data.chunks(word) {
            if !chip.unit() {
                return Err(MediumError::Write);
            }
            for (i, byte) in new.iter().enumerate() {
                chip.image[at + i] &= byte;
            }
            at += word;
        }
        Ok(())
    }
}

/// Runs a future that never waits.
pub fn now<F: Future>(future: F) -> F::Output {
    let mut context = std::task::Context::from_waker(std::task::Waker::noop());
    match std::pin::pin!(future).poll(&mut context) {
        std::task::Poll::Ready(value) => value,
        std::task::Poll::Pending => unreachable!("the medium answers at once"),
    }
}
