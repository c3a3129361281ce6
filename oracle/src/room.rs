//! Keeps a frame inside the domain: takes out detections that would open more records than the table has room for.

use crate::frame::Lent;
use crate::matching::{get_unmatched, match_detections_and_objects};
use crate::plan::Settings;
use crate::steer::Kept;
use nalgebra::DMatrix;
use std::rc::Rc;

/// The rows that a pass over these columns leaves over, by the unchanged matching.
fn left_over(lent: &Lent, threshold: f64, rows: &[usize], columns: &[usize]) -> Vec<usize> {
    let mut matrix = DMatrix::zeros(rows.len(), columns.len());
    for (i, &row) in rows.iter().enumerate() {
        for (j, &column) in columns.iter().enumerate() {
            matrix[(i, j)] = lent.distances[row * lent.records + column];
        }
    }
    let (matched, _) = match_detections_and_objects(&matrix, threshold);
    get_unmatched(rows.len(), &matched).into_iter().map(|i| rows[i]).collect()
}

/// The detections that will open records.
fn openers(lent: &Lent, s: &Settings, kept: &[Kept]) -> Vec<usize> {
    let columns = |wanted: &dyn Fn(&Kept) -> bool| -> Vec<usize> {
        (0..kept.len()).filter(|&c| wanted(&kept[c])).collect()
    };
    let alive = columns(&|k| !k.initializing && k.hit_counter >= 0);
    let initializing = columns(&|k| k.initializing);
    let all: Vec<usize> = (0..lent.count()).collect();
    let rest = left_over(lent, s.threshold, &all, &alive);
    left_over(lent, s.threshold, &rest, &initializing)
}

/// The entries of the detections that stay, `width` to each.
fn only<T: Copy>(list: &[T], width: usize, stay: &[usize]) -> Vec<T> {
    stay.iter().flat_map(|&d| list[d * width..(d + 1) * width].iter().copied()).collect()
}

/// A detection that hits nothing takes no part in the picks, so the others' hits stay as they were.
pub fn fit(lent: Lent, s: &Settings, kept: &[Kept]) -> Lent {
    let openers = openers(&lent, s, kept);
    let room = s.capacity - kept.len();
    if openers.len() <= room {
        return lent;
    }
    let out = &openers[room..];
    let stay: Vec<usize> = (0..lent.count()).filter(|d| !out.contains(d)).collect();
    Lent {
        period: lent.period,
        records: lent.records,
        coordinates: only(&lent.coordinates, s.points * s.dims, &stay),
        scores: only(&lent.scores, s.points, &stay),
        has_scores: only(&lent.has_scores, 1, &stay),
        distances: Rc::new(only(&lent.distances, lent.records, &stay)),
    }
}
