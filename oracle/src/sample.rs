//! Chooses the fixed list: small traces, taken while they add events that are still lacking.

use crate::events::{Event, Events, NAMES};
use crate::plan::Size;
use crate::trace;
use std::collections::HashSet;

const FRAMES_LEAST: u64 = 320;
const FRAMES_MOST: u64 = 500;
const BYTES_MOST: usize = 880_000;
const SEEDS: u64 = 1500;
/// Crowded tables are dear, so few are asked for.
const CROWDED: u64 = 4;

struct Sample {
    text: Vec<u8>,
    events: Events,
    taken: HashSet<u64>,
}

impl Sample {
    fn lacks(&self, event: usize, quota: u64) -> bool {
        let quota = if event == Event::Crowded as usize { quota.min(CROWDED) } else { quota };
        self.events.counts[event] < quota
    }

    /// Takes the seed's trace if it adds an event that is lacking and fits.
    fn offer(&mut self, seed: u64, size: Size, quota: u64) {
        let (text, events) = trace::run(seed, size);
        let adds = (0..NAMES.len()).any(|i| events.counts[i] > 0 && self.lacks(i, quota));
        let frames = self.events.count(Event::Frames) + events.count(Event::Frames);
        if !adds || frames > FRAMES_MOST || self.text.len() + text.len() > BYTES_MOST {
            return;
        }
        self.text.extend(text);
        self.events.join(&events);
        self.taken.insert(seed);
    }
}

/// The sample's traces, with their number in front, and its events.
pub fn choose() -> (Vec<u8>, Events) {
    let mut sample = Sample { text: Vec::new(), events: Events::default(), taken: HashSet::new() };
    for seed in SEEDS + 1..SEEDS + 20 {
        if sample.lacks(Event::Crowded as usize, 3) {
            sample.offer(seed, Size::Wide, 3);
        }
    }
    let mut quota = 3;
    while sample.events.count(Event::Frames) < FRAMES_LEAST && quota < 1 << 20 {
        for seed in 1..=SEEDS {
            let enough = (0..NAMES.len()).all(|i| !sample.lacks(i, quota));
            if enough {
                break;
            }
            if !sample.taken.contains(&seed) {
                sample.offer(seed, Size::Small, quota);
            }
        }
        quota += quota.div_ceil(2);
    }
    let mut text = format!("{:x}\n", sample.events.count(Event::Traces)).into_bytes();
    text.extend(sample.text);
    (text, sample.events)
}
