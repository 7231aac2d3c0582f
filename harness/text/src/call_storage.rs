//! Calls of what is cut out of the text's lib.rs: `lookup`, and `file_size` behind its lookup.

use crate::{
    case::Case,
    flash::Chip,
    ll::objects::reach,
    op::Op,
    run::Shown,
    standins::now,
    storage::{self, BlockInfoCollection, Opened, Storage},
    StorageError,
};

/// A value that has the medium, which is handed back when the value goes, also where the text panics.
struct Taken<'a, M: Chip, T: AsMut<M>> {
    from: &'a mut M,
    over: T,
}

impl<'a, M: Chip, T: AsMut<M>> Taken<'a, M, T> {
    fn new(from: &'a mut M, make: impl FnOnce(M) -> T) -> Self {
        let medium = std::mem::replace(from, M::new(Vec::new(), None, false));
        Taken { from, over: make(medium) }
    }
}

impl<M: Chip, T: AsMut<M>> Drop for Taken<'_, M, T> {
    fn drop(&mut self) {
        std::mem::swap(self.from, self.over.as_mut());
    }
}

pub fn call<M: Chip>(case: &Case, medium: &mut M, shown: &mut Shown) -> Result<(), StorageError> {
    let path = |hash| storage::str { bytes: case.bytes.clone(), hash };
    match case.op {
        Op::Lookup => {
            let blocks = now(BlockInfoCollection::read(medium))?;
            let mut taken = Taken::new(medium, |medium| Storage { medium, blocks });
            let at = now(taken.over.find(&path(case.args[0])))?;
            shown.numbers(&[at.block as u32, at.offset as u32]);
        }
        Op::FileSize => {
            let at = reach::place(case.args[0], case.args[1]);
            let mut taken = Taken::new(medium, |medium| Opened { medium, at });
            shown.value(now(taken.over.file_size(&path(0)))? as u64);
        }
        _ => unreachable!(),
    }
    Ok(())
}
