//! Stands in for the library's detection, with its number in the frame and the scores as lent.

use super::desk;
use nalgebra::DMatrix;

#[derive(Clone, Debug)]
pub struct Detection {
    pub points: DMatrix<f64>,
    pub scores: Option<Vec<f64>>,
    pub label: Option<String>,
    pub age: Option<i32>,
    absolute_points: Option<DMatrix<f64>>,
    /// Which detection of its frame this is.
    pub number: usize,
    /// The scores as lent, also where the detection has none.
    pub lent_scores: Vec<f64>,
}

impl Detection {
    pub fn new(number: usize, points: DMatrix<f64>, scores: Option<Vec<f64>>, lent_scores: Vec<f64>) -> Self {
        Self { points, scores, label: None, age: None, absolute_points: None, number, lent_scores }
    }

    pub fn num_points(&self) -> usize {
        self.points.nrows()
    }

    pub fn num_dims(&self) -> usize {
        self.points.ncols()
    }

    pub fn set_absolute_points(&mut self, points: DMatrix<f64>) {
        self.absolute_points = Some(points);
    }

    /// Notes the number: a filter update that follows belongs to this detection.
    pub fn get_absolute_points(&self) -> &DMatrix<f64> {
        desk::ask(self.number);
        self.absolute_points.as_ref().unwrap_or(&self.points)
    }
}
