//! What a frame lends and what the calls must answer, as plain lists.

use crate::stand_ins::detection::Detection;
use nalgebra::DMatrix;
use std::rc::Rc;

pub struct Lent {
    pub period: i32,
    /// Records in the table after step 1.
    pub records: usize,
    /// Detection by detection, point by point.
    pub coordinates: Vec<f64>,
    pub scores: Vec<f64>,
    pub has_scores: Vec<bool>,
    /// Detections by records, row by row.
    pub distances: Rc<Vec<f64>>,
}

impl Lent {
    pub fn count(&self) -> usize {
        self.has_scores.len()
    }

    /// The frame's detections, made from the flat lists; the scores as lent are kept if asked.
    pub fn detections(&self, points: usize, dims: usize, keep_lent: bool) -> Vec<Detection> {
        let size = points * dims;
        (0..self.count())
            .map(|d| {
                let matrix = DMatrix::from_row_slice(points, dims, &self.coordinates[d * size..(d + 1) * size]);
                let scores = &self.scores[d * points..(d + 1) * points];
                let own = self.has_scores[d].then(|| scores.to_vec());
                let kept = if keep_lent { scores.to_vec() } else { Vec::new() };
                Detection::new(d, matrix, own, kept)
            })
            .collect()
    }
}

#[derive(Clone)]
pub struct Pair {
    pub detection: usize,
    pub global_id: i32,
    pub pass: u64,
    pub distance: f64,
}
