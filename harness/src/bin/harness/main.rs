//! The harness's command line.

mod compare;
mod inspector;
mod lists;
mod moves;
mod options;
#[cfg(any(all(feature = "batch", feature = "writer"), feature = "storage", feature = "sweep"))]
mod speed;

use std::process::ExitCode;

fn main() -> ExitCode {
    let mut words = std::env::args().skip(1);
    let command = words.next().unwrap_or_default();
    let result = options::parse(words).and_then(|o| match command.as_str() {
        "compare" => compare::run(&o),
        "moves" => moves::run(&o),
        "inspector" => inspector::run(&o),
        "replay" => lists::replay(&o),
        "record" => lists::record(&o),
        "recorded" => lists::recorded(&o),
        #[cfg(any(all(feature = "batch", feature = "writer"), feature = "storage", feature = "sweep"))]
        "speed" => speed::run(&o),
        _ => Err(options::USAGE.to_string()),
    });
    match result {
        Ok(()) => ExitCode::SUCCESS,
        Err(words) => {
            eprintln!("{words}");
            ExitCode::FAILURE
        }
    }
}
