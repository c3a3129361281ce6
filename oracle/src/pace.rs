//! Replays the frames of a pace file many times, from a fresh tracker each round, and prints checksums.

use crate::driver::{self, fail};
use crate::frame::Lent;
use crate::plan::Settings;
use crate::tracked_object::reset_global_counter;
use crate::words::Reader;
use std::rc::Rc;

/// A frame as read: what is lent, the ReID matrix's shape and its entries.
struct Step {
    lent: Lent,
    shape: (usize, usize),
    entries: Rc<Vec<f64>>,
}

#[derive(Default)]
struct Sums {
    frames: u64,
    pairs: u64,
    active: u64,
    total: u64,
    /// All rounds are alike, so an even number of them leaves 0 here.
    distances: u64,
}

fn settings(words: &mut Reader) -> Settings {
    Settings {
        points: words.size(),
        dims: words.size(),
        capacity: words.size(),
        history: words.size(),
        hit_max: words.signed(),
        delay: words.signed(),
        point_max: words.count(),
        reid_max: words.optional(),
        threshold: words.float(),
        score_threshold: words.float(),
        reid_threshold: words.float(),
        has_reid: words.word() == 1,
        filter: std::array::from_fn(|_| words.float()),
    }
}

fn step(words: &mut Reader, s: &Settings) -> Step {
    let period = words.count();
    let (many, records) = (words.size(), words.size());
    let coordinates = words.floats(many * s.points * s.dims);
    let scores = words.floats(many * s.points);
    let has_scores = (0..many).map(|_| words.word() == 1).collect();
    let distances = Rc::new(words.floats(many * records));
    let shape = (words.size(), words.size());
    let entries = Rc::new(words.floats(shape.0 * shape.1));
    let lent = Lent { period, records, coordinates, scores, has_scores, distances };
    Step { lent, shape, entries }
}

fn round(s: &Settings, steps: &[Step], sums: &mut Sums) {
    reset_global_counter();
    let Ok(mut tracker) = s.make() else { fail("the pace's settings are refused") };
    for step in steps {
        let (entries, shape) = (Rc::clone(&step.entries), step.shape);
        let maker = Box::new(move |old: &[i32], candidates: &[i32]| {
            if (candidates.len(), old.len()) != shape {
                fail("the ReID matrix is not of the shape asked for");
            }
            entries.to_vec()
        });
        let answer = driver::step(&mut tracker, s, &step.lent, maker, false);
        sums.frames += 1;
        sums.pairs += answer.pairs.len() as u64;
        sums.active += answer.active.len() as u64;
        sums.total += tracker.total_object_count() as u64;
        for pair in &answer.pairs {
            sums.distances ^= pair.distance.to_bits();
        }
    }
}

pub fn run(file: &str) {
    let Ok(text) = std::fs::read_to_string(file) else { fail("the pace file could not be read") };
    let mut words = Reader::new(&text);
    let (traces, rounds) = (words.word(), words.word());
    let s = settings(&mut words);
    let (refusal, frames) = (words.word(), words.size());
    let steps: Vec<Step> = (0..frames).map(|_| step(&mut words, &s)).collect();
    if traces != 0 || refusal != 0 || !words.ended() {
        fail("the pace file is not as it should be");
    }
    let mut sums = Sums::default();
    for _ in 0..rounds {
        round(&s, &steps, &mut sums);
    }
    let Sums { frames, pairs, active, total, distances } = sums;
    println!("frames {frames} pairs {pairs} active {active} total {total} distances {distances:x}");
}
