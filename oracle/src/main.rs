//! The oracle: runs the unchanged tracker files over stand-ins and writes what went in and what came out.

// The unchanged files and the stand-ins have parts that no trace uses.
#![allow(dead_code)]

mod stand_ins;

// The paths that the unchanged files import.
mod camera_motion {
    pub use crate::stand_ins::camera_motion::CoordinateTransformation;
}
mod distances {
    pub use crate::stand_ins::distances::{distance_function_by_name, DistanceFunction};
}
mod filter {
    pub mod optimized;
    pub mod traits;
    pub use crate::stand_ins::filters::{FilterEnum, FilterFactoryEnum, NoFilter};
}
mod internal {
    pub mod numpy {
        pub use crate::stand_ins::numpy::to_row_major_vec;
    }
}
mod matching;
mod tracked_object;
mod tracker;
pub use stand_ins::detection::Detection;
pub use stand_ins::error::{Error, Result};
pub use tracked_object::TrackedObject;

// The oracle's own.
mod counting;
mod driver;
mod events;
mod frame;
mod levels;
mod pace;
mod pace_inputs;
mod plan;
mod rng;
mod room;
mod sample;
mod steer;
mod trace;
mod words;
mod writing;

use std::io::{BufWriter, Write};

const USE: &str = "use: oracle trace FIRST LAST | sample | pace FILE | pace-inputs NAME ROUNDS";

fn number(text: &str) -> u64 {
    text.parse().unwrap_or_else(|_| driver::fail(USE))
}

fn write_out(text: &[u8]) {
    let mut out = std::io::stdout().lock();
    if out.write_all(text).and_then(|_| out.flush()).is_err() {
        driver::fail("the output could not be written");
    }
}

/// The traces of the seeds, one after the other.
fn traces(first: u64, last: u64) {
    if last < first {
        driver::fail(USE);
    }
    let mut out = BufWriter::with_capacity(1 << 16, std::io::stdout().lock());
    let mut all = events::Events::default();
    let mut put = |text: &[u8]| {
        if out.write_all(text).is_err() {
            driver::fail("the output could not be written");
        }
    };
    put(format!("{:x}\n", last - first + 1).as_bytes());
    for seed in first..=last {
        let (text, events) = trace::run(seed, plan::Size::Any);
        put(&text);
        all.join(&events);
    }
    if out.flush().is_err() {
        driver::fail("the output could not be written");
    }
    all.print();
}

fn main() {
    let words: Vec<String> = std::env::args().skip(1).collect();
    let words: Vec<&str> = words.iter().map(String::as_str).collect();
    match words[..] {
        ["trace", first, last] => traces(number(first), number(last)),
        ["sample"] => {
            let (text, events) = sample::choose();
            write_out(&text);
            events.print();
        }
        ["pace", file] => pace::run(file),
        ["pace-inputs", name, rounds] => write_out(&pace_inputs::make(name, number(rounds))),
        _ => driver::fail(USE),
    }
}
