//! Writes settings, frames and answers in the output format.

use crate::driver::Answer;
use crate::frame::Lent;
use crate::plan::Settings;
use crate::stand_ins::detection::Detection;
use crate::stand_ins::numpy::to_row_major_vec;
use crate::tracker::Tracker;
use crate::words::Words;
use crate::TrackedObject;

pub fn settings(out: &mut Words, s: &Settings, refusal: u64, frames: usize) {
    for size in [s.points, s.dims, s.capacity, s.history] {
        out.word(size as u64);
    }
    out.line();
    out.signed(s.hit_max);
    out.signed(s.delay);
    out.word(s.point_max as u64);
    out.optional(s.reid_max);
    out.line();
    out.floats(&[s.threshold, s.score_threshold, s.reid_threshold]);
    out.flag(s.has_reid);
    out.line();
    out.floats(&s.filter);
    out.line();
    out.word(refusal);
    out.word(frames as u64);
    out.line();
}

/// What the host lends to step 2.
pub fn lent(out: &mut Words, lent: &Lent) {
    out.count(lent.period);
    out.word(lent.count() as u64);
    out.word(lent.records as u64);
    out.line();
    out.floats(&lent.coordinates);
    out.line();
    out.floats(&lent.scores);
    out.line();
    lent.has_scores.iter().for_each(|&has| out.flag(has));
    out.line();
    out.floats(&lent.distances);
    out.line();
}

pub fn pairs(out: &mut Words, answer: &Answer) {
    out.word(answer.pairs.len() as u64);
    for pair in &answer.pairs {
        out.word(pair.detection as u64);
        out.count(pair.global_id);
        out.word(pair.pass);
        out.float(pair.distance);
    }
    out.line();
}

/// What the host lends to step 3: the matrix of the frame's one ReID call, if there was one.
pub fn reid(out: &mut Words, answer: &Answer) {
    match &answer.reid {
        None => [0, 0].into_iter().for_each(|zero| out.word(zero)),
        Some(call) => {
            out.word(call.candidates.len() as u64);
            out.word(call.old.len() as u64);
            out.floats(&call.entries);
        }
    }
    out.line();
}

/// The active IDs, both counts and every record.
pub fn table(out: &mut Words, tracker: &Tracker, answer: &Answer) {
    out.word(answer.active.len() as u64);
    answer.active.iter().for_each(|&id| out.count(id));
    out.line();
    out.count(tracker.total_object_count());
    out.word(tracker.current_object_count() as u64);
    out.word(tracker.tracked_objects.len() as u64);
    out.line();
    tracker.tracked_objects.iter().for_each(|record| self::record(out, record));
}

fn record(out: &mut Words, o: &TrackedObject) {
    let last = o.last_detection.as_ref().expect("a record has a last detection");
    out.count(o.global_id);
    out.count(o.initializing_id.expect("a record has an initializing ID"));
    out.count(o.initial_period);
    out.count(o.age);
    out.signed(o.hit_counter);
    out.optional(o.reid_hit_counter);
    out.flag(o.is_initializing);
    out.count(o.id.unwrap_or(0));
    let flags = o.detected_at_least_once_points.iter().enumerate();
    out.word(flags.map(|(i, &seen)| (seen as u64) << i).sum());
    o.point_hit_counter.iter().for_each(|&c| out.count(c));
    out.flag(o.last_distance.is_some());
    out.float(o.last_distance.unwrap_or(0.0));
    out.flag(last.scores.is_some());
    out.word(o.past_detections.len() as u64);
    for past in &o.past_detections {
        out.signed(past.age.unwrap_or(-1));
        out.flag(past.scores.is_some());
    }
    out.line();
    filter(out, o);
    detection(out, last);
    o.past_detections.iter().for_each(|past| detection(out, past));
    out.line();
}

fn filter(out: &mut Words, o: &TrackedObject) {
    let state: Vec<f64> = o.filter.get_state_vector().iter().copied().collect();
    out.floats(&state);
    let text = format!("{:?}", o.filter.kalman());
    for name in [" pos_variance: [", " pos_vel_covariance: [", " vel_variance: ["] {
        out.floats(&named_list(&text, name));
    }
    out.floats(&to_row_major_vec(&o.estimate_velocity));
    out.line();
}

/// A private list of the filter, read from its debug text, where every float comes back exactly.
pub fn named_list(text: &str, name: &str) -> Vec<f64> {
    let start = text.find(name).expect("the list is named") + name.len();
    let end = start + text[start..].find(']').expect("the list ends");
    text[start..end].split(", ").map(|x| x.parse().expect("a float")).collect()
}

fn detection(out: &mut Words, d: &Detection) {
    out.floats(&to_row_major_vec(&d.points));
    out.floats(&d.lent_scores);
}
