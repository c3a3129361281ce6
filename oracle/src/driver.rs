//! Drives the unchanged tracker through a frame and gathers what it answered.

use crate::frame::{Lent, Pair};
use crate::matching::match_detections_and_objects;
use crate::plan::Settings;
use crate::stand_ins::desk::{self, ReidCall, ReidMaker};
use crate::steer::Kept;
use crate::tracker::Tracker;
use crate::TrackedObject;
use nalgebra::DMatrix;
use std::rc::Rc;

pub struct Answer {
    pub pairs: Vec<Pair>,
    pub active: Vec<i32>,
    pub reid: Option<ReidCall>,
}

/// Ends the run: what the driver relies on does not hold.
pub fn fail(text: &str) -> ! {
    eprintln!("oracle: {text}");
    std::process::exit(1);
}

/// Whether step 1 keeps the record, by the Rust's own methods.
pub fn stays(tracker: &Tracker, record: &TrackedObject) -> bool {
    match tracker.config.reid_hit_counter_max {
        None => record.hit_counter_is_positive(),
        Some(_) => record.reid_hit_counter_is_positive(),
    }
}

/// The records kept by step 1, in table order.
pub fn kept(tracker: &Tracker) -> Vec<Kept> {
    let records = tracker.tracked_objects.iter().filter(|o| stays(tracker, o));
    records
        .map(|o| {
            let state = o.filter.get_state_vector();
            let size = o.filter.dim_z();
            Kept {
                global_id: o.global_id,
                initializing: o.is_initializing,
                hit_counter: o.hit_counter,
                merged_only: o.past_detections.iter().all(|d| d.age.is_some()),
                ahead: (0..size).map(|i| state[i] + state[size + i]).collect(),
            }
        })
        .collect()
}

/// Writes each record's global ID and column on its filter, since merges clone filters.
/// Gives, for each column, the global ID and whether the record is initializing.
fn stamp(tracker: &mut Tracker) -> Vec<(i32, bool)> {
    let with_reid = tracker.config.reid_hit_counter_max.is_some();
    let mut columns = Vec::with_capacity(tracker.tracked_objects.len());
    for record in &mut tracker.tracked_objects {
        let stays = if with_reid { record.reid_hit_counter_is_positive() } else { record.hit_counter_is_positive() };
        let column = if stays { columns.len() } else { usize::MAX };
        record.filter.stamp(record.global_id, column);
        if stays {
            columns.push((record.global_id, record.is_initializing));
        }
    }
    columns
}

/// Runs one frame. `checking` keeps what only the checks and the events need.
pub fn step(tracker: &mut Tracker, s: &Settings, lent: &Lent, maker: ReidMaker, checking: bool) -> Answer {
    let columns = stamp(tracker);
    if columns.len() != lent.records {
        fail("the records kept by step 1 are not those that the frame was made for");
    }
    desk::with(|desk| {
        desk.distances = Rc::clone(&lent.distances);
        desk.columns = columns.len();
        desk.hits.clear();
        desk.maker = Some(maker);
        desk.call = None;
        desk.keep_records = checking;
    });
    let detections = lent.detections(s.points, s.dims, checking);
    let active = tracker.update(detections, lent.period, None);
    let active = active.iter().map(|o| o.global_id).collect();
    let (hits, reid) = desk::with(|desk| (std::mem::take(&mut desk.hits), desk.call.take()));
    let pairs: Vec<Pair> = hits.iter().map(|&(owner, detection)| pair(&columns, lent, owner, detection)).collect();
    if columns.len() + lent.count() - pairs.len() > s.capacity {
        fail("the table overflows, which our tracker refuses");
    }
    Answer { pairs, active, reid }
}

/// A noted hit as a pair; the pass follows from the initializing mark before the frame.
fn pair(columns: &[(i32, bool)], lent: &Lent, owner: i32, detection: usize) -> Pair {
    // Global IDs rise along the table, so the column is found by halving.
    let Ok(column) = columns.binary_search_by_key(&owner, |&(id, _)| id) else {
        fail("a hit on a record that is not in the table");
    };
    let pass = if columns[column].1 { 2 } else { 1 };
    let distance = lent.distances[detection * columns.len() + column];
    Pair { detection, global_id: owner, pass, distance }
}

fn same(a: f64, b: f64) -> bool {
    a.to_bits() == b.to_bits() || a.is_nan() && b.is_nan()
}

/// The picks of a ReID call by the unchanged matching: candidate and old one, as global IDs.
pub fn picks(call: &ReidCall, threshold: f64) -> Vec<(i32, i32)> {
    let matrix = DMatrix::from_row_slice(call.candidates.len(), call.old.len(), &call.entries);
    let (rows, columns) = match_detections_and_objects(&matrix, threshold);
    rows.iter().zip(&columns).map(|(&i, &j)| (call.candidates[i], call.old[j])).collect()
}

/// What the answers take for granted: the estimate is the filter's, and last distances are the lent ones.
pub fn check(tracker: &Tracker, s: &Settings, answer: &Answer) {
    let merged = answer.reid.as_ref().map_or(vec![], |call| picks(call, s.reid_threshold));
    for record in &tracker.tracked_objects {
        let state = record.filter.get_state();
        if !record.estimate.iter().zip(state.iter()).all(|(&a, &b)| same(a, b)) {
            fail("an estimate is not the filter's position");
        }
        if record.current_min_distance.is_some() {
            fail("a current minimum distance is set");
        }
        let hit = answer.pairs.iter().find(|pair| pair.global_id == record.global_id);
        let Some(pair) = hit.filter(|_| !merged.iter().any(|pick| pick.1 == record.global_id)) else { continue };
        if !record.last_distance.is_some_and(|d| same(d, pair.distance)) {
            fail("a last distance is not the lent entry");
        }
    }
}
