//! `speed`: what calls over the C interface take, against the same work done otherwise.

#[cfg(all(feature = "batch", feature = "writer"))]
mod batch;
#[cfg(feature = "storage")]
mod storage;
#[cfg(feature = "sweep")]
mod sweep;

use std::time::{Duration, Instant};

use harness::op::Layer;

use crate::options::Options;

/// Rounds a row, unless another number is given.
const ROUNDS: u64 = 1_001;

pub fn run(o: &Options) -> Result<(), String> {
    let runner = std::env::var("HARNESS_RUNNER").unwrap_or_default();
    if !runner.is_empty() {
        println!("run by {runner}, so the times are not those of a chip; the ratio is a hint\n");
    }
    let rounds = o.cases.unwrap_or(ROUNDS).max(1);
    for layer in &o.layers {
        match layer {
            #[cfg(all(feature = "batch", feature = "writer"))]
            Layer::Batch => batch::rows(rounds)?,
            #[cfg(feature = "storage")]
            Layer::Storage => storage::rows(rounds)?,
            #[cfg(feature = "sweep")]
            Layer::Sweep => sweep::rows(rounds)?,
            _ => {}
        }
    }
    Ok(())
}

const fn granularity(number: u8) -> &'static str {
    ["Bit", "Word(1)", "", "", "Word(4)"][number as usize]
}

/// In nanoseconds.
fn median(mut times: Vec<Duration>) -> f64 {
    times.sort();
    times[times.len() / 2].as_nanos() as f64
}

fn timed(call: impl FnOnce() -> bool) -> Result<Duration, String> {
    let start = Instant::now();
    let done = call();
    let time = start.elapsed();
    done.then_some(time).ok_or("speed: a call did not end as it should".to_string())
}
