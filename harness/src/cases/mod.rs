//! Where cases come from: small ones counted through, and random ones at every boundary over built and damaged images.

pub mod batch;
mod blocks;
mod collector;
pub mod exhaustive;
pub mod images;
mod medium;
mod numbers;
mod objects;
mod spoil;
pub mod storage;
pub mod stores;
mod strict;
pub mod sweep;
mod values;

use std::collections::VecDeque;

use crate::{
    case::Case,
    model,
    op::{Layer, Op},
    random::Random,
};

/// An endless row of random cases of one layer, all of them without the strict mark or all of them with it.
pub struct Source {
    random: Random,
    layer: Layer,
    strict: bool,
    waiting: VecDeque<Case>,
}

/// No more units than this are counted through one by one.
const MOST_UNITS: u32 = 96;

impl Source {
    pub fn new(layer: Layer, seed: u64) -> Source {
        Source { random: Random::new(seed ^ (layer as u64) << 56), layer, strict: false, waiting: VecDeque::new() }
    }

    /// Under the mark; a row of its own.
    pub fn strict(layer: Layer, seed: u64) -> Source {
        Source { strict: true, ..Source::new(layer, seed ^ 1 << 48) }
    }

    fn make(&mut self) -> Case {
        if !self.strict {
            return self.plain();
        }
        loop {
            let mut case = self.plain();
            if case.geometry.granularity != 0 || self.random.one_in(12) {
                strict::mark(&mut self.random, &mut case);
                return case;
            }
        }
    }

    fn plain(&mut self) -> Case {
        let r = &mut self.random;
        match self.layer {
            Layer::Medium => medium::make(r),
            Layer::Objects => objects::make(r),
            Layer::Blocks => blocks::make(r),
            Layer::Collector => collector::make(r),
            Layer::Batch => batch::make(r),
            Layer::Storage => storage::make(r),
            Layer::Sweep => sweep::make(r),
        }
    }

    /// Gives the case a fuse, or puts it in line once for every fuse from 0 to one past its last unit, as each sweep.
    fn fuse(&mut self, mut case: Case) -> Case {
        let every = case.op.signature().layer == Layer::Sweep;
        if !case.op.stores() || (!every && self.random.one_in(3)) {
            return case;
        }
        let units = units(&case);
        if units <= MOST_UNITS && (every || self.random.one_in(16)) {
            self.waiting.extend((0..=units + 1).map(|fuse| Case { fuse: Some(fuse), ..case.clone() }));
            return case;
        }
        let r = &mut self.random;
        case.fuse = Some(match r.below(8) {
            0 => 0,
            1 => units,
            2 => units.saturating_sub(1),
            3 => units.saturating_sub(2),
            4 => u32::MAX - r.below(2),
            _ => r.between(0, units + 1),
        });
        case
    }

    /// With a fuse, and now and then wrong in what is tested first.
    fn finish(&mut self, made: Case) -> Case {
        let mut case = self.fuse(made);
        spoil::spoil(&mut self.random, &mut case);
        case
    }
}

impl Iterator for Source {
    type Item = Case;

    fn next(&mut self) -> Option<Case> {
        if let Some(case) = self.waiting.pop_front() {
            return Some(case);
        }
        let made = self.make();
        if made.op == Op::Sweep {
            let lent = sweep::lent(&mut self.random, &made);
            let lent = self.finish(lent);
            self.waiting.push_back(lent);
        }
        Some(self.finish(made))
    }
}

/// How many units the call takes with power.
pub fn units(case: &Case) -> u32 {
    let powered = Case { fuse: Some(u32::MAX), ..case.clone() };
    u32::MAX - model::run(&powered).outcome.fuse.unwrap_or(u32::MAX)
}
