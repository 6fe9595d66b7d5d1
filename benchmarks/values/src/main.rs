//! Reads each line of a stream as a `serde_json::Value`, and prints how many lines that is in a second.
//!
//!     cargo run --release --manifest-path benchmarks/values/Cargo.toml -- STREAM
//!
//! It is what `bench follow` would do of a line if it were ordinary Rust over a tree of values, without events or a
//! monitor. `benchmarks/run.py` says what `follow` itself takes.

use serde_json::Value;
use std::time::Instant;
use std::{env, fs, process};

const PASSES: u32 = 5;

fn main() {
    let Some(path) = env::args().nth(1) else {
        eprintln!("values: which stream?");
        process::exit(2);
    };
    let bytes = match fs::read(&path) {
        Ok(bytes) => bytes,
        Err(error) => {
            eprintln!("values: {path}: {error}");
            process::exit(2);
        }
    };
    let mut best = f64::INFINITY;
    let mut lines = 0;
    for _ in 0..PASSES {
        let began = Instant::now();
        lines = bytes
            .split(|byte| *byte == b'\n')
            .filter(|line| serde_json::from_slice::<Value>(line).is_ok())
            .count();
        best = best.min(began.elapsed().as_secs_f64());
    }
    println!("{lines} lines, {:.0} a second", lines as f64 / best);
}
