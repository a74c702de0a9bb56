//! The proved library, called through this crate, against the second implementation: every operation, at its limits and on damaged input.
//! Each answer, with the place that some of Deal's have, and each written byte must be the same, a refused call must leave every lent byte,
//! and an accepted one every byte past its result. Every refusal that an operation can give must have been met.
//!
//! NOSINGGINGER_CALLS asks for more calls than 200,000; NOSINGGINGER_SEED, a decimal number, for other draws.

mod calls;
mod counts;
mod draw;
mod evenings;
mod faults;
mod lent;
mod rounds;

use calls::Comparison;
use counts::Counts;
use reference::draw::Generator;
use rounds::LIMIT_BOARDS;
use std::env;
use std::process::exit;
use std::time::Instant;

/// The least calls of a run.
const LEAST_CALLS: u64 = 200_000;
const USUAL_SEED: u64 = 20_151_015;

/// A decimal number of the environment.
fn setting(name: &str, usual: u64) -> u64 {
    match env::var(name) {
        Ok(text) => text.parse().unwrap_or_else(|_| panic!("{name} is not a decimal number: {text}")),
        Err(_) => usual,
    }
}

fn main() {
    let least = setting("NOSINGGINGER_CALLS", LEAST_CALLS).max(LEAST_CALLS);
    let seed = setting("NOSINGGINGER_SEED", USUAL_SEED);
    println!("comparing the library with the second implementation, seed {seed}");
    let start = Instant::now();
    // An odd factor leads small seeds far apart; the generator takes any number but zero.
    let generator = Generator::new(seed.wrapping_mul(0x9E37_79B9_7F4A_7C15).max(1));
    let mut comparison = Comparison { seed, generator, counts: Counts::new() };
    for board in LIMIT_BOARDS {
        comparison.limit_board(board);
    }
    comparison.limit_pages();
    let mut keys = Vec::new();
    while comparison.counts.calls() < least {
        keys = comparison.drawn_board(&keys);
    }
    comparison.counts.print();
    println!("{} calls compared in {:.1} s", comparison.counts.calls(), start.elapsed().as_secs_f64());
    let faults = comparison.counts.faults();
    for fault in &faults {
        println!("FAULT: {fault}");
    }
    if !faults.is_empty() {
        exit(1);
    }
}
