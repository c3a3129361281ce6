//! Stands in for the distance functions: entries are looked up in what the frame lends.

use super::desk::{self, ReidCall};
use crate::{Detection, TrackedObject};
use nalgebra::DMatrix;

#[derive(Clone, Debug)]
pub struct DistanceFunction;

/// The name is ignored: every distance is lent.
pub fn distance_function_by_name(_name: &str) -> DistanceFunction {
    DistanceFunction
}

impl DistanceFunction {
    /// Detections by records, each entry from the frame's matrix.
    pub fn get_distances(&self, objects: &[&TrackedObject], detections: &[&Detection]) -> DMatrix<f64> {
        desk::with(|desk| {
            let mut made = DMatrix::zeros(detections.len(), objects.len());
            for (j, object) in objects.iter().enumerate() {
                let column = object.filter.column();
                for (i, detection) in detections.iter().enumerate() {
                    made[(i, j)] = desk.distances[detection.number * desk.columns + column];
                }
            }
            made
        })
    }

    /// Candidates by old ones: the matrix is made now, by the frame's maker, and kept for the driver.
    pub fn get_distances_objects(&self, old: &[&TrackedObject], candidates: &[&TrackedObject]) -> DMatrix<f64> {
        desk::with(|desk| {
            let old_ids: Vec<i32> = old.iter().map(|o| o.global_id).collect();
            let candidate_ids: Vec<i32> = candidates.iter().map(|o| o.global_id).collect();
            let maker = desk.maker.as_mut().expect("no ReID maker on the desk");
            let entries = maker(&old_ids, &candidate_ids);
            let made = DMatrix::from_row_slice(candidates.len(), old.len(), &entries);
            let mut records = Vec::new();
            if desk.keep_records {
                records.extend(old.iter().chain(candidates).map(|&o| o.clone()));
            }
            desk.call = Some(ReidCall { candidates: candidate_ids, old: old_ids, entries, records });
            made
        })
    }
}
