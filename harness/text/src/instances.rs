//! The instances of the text: granularity, block size and count are constants of its medium.

use crate::{case::Case, flash::Flash, outcome::Outcome, run::run_on};

macro_rules! instances {
    ($case:expr; $($size:literal: $($count:literal)*;)*) => {{
        let g = $case.geometry;
        match (g.granularity, g.size, g.count) {
            $($(
                (0, $size, $count) => Some(run_on::<Flash<0, $size, $count>>($case)),
                (1, $size, $count) => Some(run_on::<Flash<1, $size, $count>>($case)),
                (4, $size, $count) => Some(run_on::<Flash<4, $size, $count>>($case)),
            )*)*
            _ => None,
        }
    }};
}

/// None where there is no instance.
pub fn run(case: &Case) -> Option<Outcome> {
    instances! { case;
        64: 1 2 3 4;
        68: 1 3;
        128: 2 4;
        256: 1 4;
        260: 2 3;
        1024: 1 2;
        65536: 1 2;
    }
}
