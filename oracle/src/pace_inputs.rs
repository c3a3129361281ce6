//! Makes the frames of the speed comparison: fish that swim evenly, told apart by |dx| + |dy|.

use crate::counting::{self, Before};
use crate::driver::{self, fail};
use crate::events::{Event, Events};
use crate::frame::Lent;
use crate::plan::Settings;
use crate::rng::Rng;
use crate::stand_ins::desk::ReidMaker;
use crate::steer::Kept;
use crate::tracked_object::reset_global_counter;
use crate::tracker::Tracker;
use crate::words::Words;
use crate::writing;
use std::collections::HashMap;
use std::rc::Rc;

const FRAMES: usize = 16;
/// Frames that fill the table: each fish is opened and hit once, which issues its permanent ID.
const PERIOD_FILL: i32 = 15;

/// One comparison: how many fish, how many of them are seen in a frame, and whether ReID is on.
struct Case {
    fish: usize,
    seen: usize,
    capacity: usize,
    reid: bool,
}

struct Fish {
    at: [f64; 2],
    speed: [f64; 2],
}

fn case(name: &str) -> Case {
    let (plain, reid) = match name.strip_suffix("-reid") {
        Some(plain) => (plain, true),
        None => (name, false),
    };
    // With ReID a fish that jumps needs a free place until it is merged.
    let (fish, seen, capacity) = match (plain, reid) {
        ("few-8", false) => (8, 2, 8),
        ("few-8", true) => (7, 2, 8),
        ("many-8", false) => (8, 8, 8),
        ("many-8", true) => (7, 7, 8),
        ("few-64", _) => (60, 4, 64),
        ("many-64", _) => (60, 32, 64),
        _ => fail("names: few-8, many-8, few-64, many-64, each also with -reid"),
    };
    Case { fish, seen, capacity, reid }
}

fn settings(case: &Case) -> Settings {
    Settings {
        points: 1,
        dims: 2,
        capacity: case.capacity,
        history: 4,
        hit_max: 15,
        delay: -1,
        point_max: 4,
        reid_max: case.reid.then_some(20),
        threshold: 20.0,
        score_threshold: 0.0,
        reid_threshold: 1.0,
        has_reid: case.reid,
        filter: [4.0, 0.1, 10.0, 0.0, 1.0],
    }
}

/// Which fish are seen in the frame: all of them, in halves, while the table is filled; then a few in turn.
fn seen(case: &Case, frame: usize) -> Vec<usize> {
    let parts = case.fish.div_ceil(32);
    let half = case.fish.div_ceil(parts);
    if frame < 2 * parts {
        let start = (frame % parts) * half;
        return (start..(start + half).min(case.fish)).collect();
    }
    (0..case.seen).map(|i| (frame * case.seen + i) % case.fish).collect()
}

/// |dx| + |dy| from each seen fish to where each record will be after the predict.
fn distances(coordinates: &[f64], kept: &[Kept]) -> Vec<f64> {
    let mut made = Vec::with_capacity(coordinates.len() / 2 * kept.len());
    for at in coordinates.chunks(2) {
        made.extend(kept.iter().map(|k| (at[0] - k.ahead[0]).abs() + (at[1] - k.ahead[1]).abs()));
    }
    made
}

fn lend(rng: &mut Rng, fish: &[Fish], seen: &[usize], kept: &[Kept], period: i32) -> Lent {
    let mut coordinates = Vec::new();
    for &number in seen {
        for axis in 0..2 {
            coordinates.push(fish[number].at[axis] + rng.unit() - 0.5);
        }
    }
    let distances = Rc::new(distances(&coordinates, kept));
    let scores = seen.iter().map(|_| 0.5 + rng.unit() / 2.0).collect();
    Lent { period, records: kept.len(), coordinates, scores, has_scores: vec![true; seen.len()], distances }
}

/// Looks alike: a candidate is near an old record of the same fish and far from the rest.
fn looks(fish_of: &HashMap<i32, usize>) -> ReidMaker {
    let fish_of = fish_of.clone();
    Box::new(move |old, candidates| {
        let mut made = Vec::new();
        for candidate in candidates {
            for o in old {
                let apart = (fish_of[candidate] as f64 - fish_of[o] as f64).abs();
                made.push(0.25 + apart);
            }
        }
        made
    })
}

fn note_fish(tracker: &Tracker, seen: &[usize], fish_of: &mut HashMap<i32, usize>) {
    for record in &tracker.tracked_objects {
        let number = record.last_detection.as_ref().map_or(0, |d| d.number);
        fish_of.entry(record.global_id).or_insert_with(|| seen[number]);
    }
}

/// The school in its places, far enough apart not to be mixed up.
fn school(rng: &mut Rng, many: usize) -> Vec<Fish> {
    let mut speed = || 2.0 * rng.unit() - 1.0;
    (0..many)
        .map(|i| Fish { at: [(i % 8) as f64 * 100.0, (i / 8) as f64 * 100.0], speed: [speed(), speed()] })
        .collect()
}

/// A fish that jumps is seen twice at its new place, so that it is opened there and then merged.
fn jump(fish: &mut [Fish], seen: &mut [usize], frame: usize) {
    let jumper = frame / 2 % fish.len();
    if frame % 2 == 0 {
        fish[jumper].at[1] += 1000.0;
    }
    if !seen.contains(&jumper) {
        seen[0] = jumper;
    }
}

pub fn make(name: &str, rounds: u64) -> Vec<u8> {
    let case = case(name);
    let s = settings(&case);
    let mut rng = Rng::new(64);
    let mut fish = school(&mut rng, case.fish);
    let mut fish_of = HashMap::new();
    let mut out = Words::default();
    // No traces: a pace follows.
    out.word(0);
    out.word(rounds);
    out.line();
    writing::settings(&mut out, &s, 0, FRAMES);
    reset_global_counter();
    let Ok(mut tracker) = s.make() else { fail("the pace's settings are refused") };
    let mut events = Events::default();
    let filling = 2 * case.fish.div_ceil(32);
    for frame in 0..FRAMES {
        let mut seen = seen(&case, frame);
        if case.reid && frame >= filling {
            jump(&mut fish, &mut seen, frame);
        }
        let period = if frame < filling { PERIOD_FILL } else { 1 };
        let lent = lend(&mut rng, &fish, &seen, &driver::kept(&tracker), period);
        let before = Before::new(&tracker);
        let answer = driver::step(&mut tracker, &s, &lent, looks(&fish_of), true);
        counting::count(&mut events, &s, &before, &tracker, &lent, &answer);
        writing::lent(&mut out, &lent);
        writing::reid(&mut out, &answer);
        note_fish(&tracker, &seen, &mut fish_of);
        fish.iter_mut().for_each(|f| (0..2).for_each(|axis| f.at[axis] += f.speed[axis]));
    }
    let [openings, merges] = [Event::Openings, Event::Merges].map(|event| events.count(event));
    eprintln!("{name}: {openings} openings, {merges} merges, {} records at the end", tracker.tracked_objects.len());
    out.text
}
