//! Stands in for the coordinate transforms: the trait alone, since no trace uses one.

use nalgebra::DMatrix;

pub trait CoordinateTransformation: Send + Sync {
    fn rel_to_abs(&self, points: &DMatrix<f64>) -> DMatrix<f64>;
    fn abs_to_rel(&self, points: &DMatrix<f64>) -> DMatrix<f64>;
    fn clone_box(&self) -> Box<dyn CoordinateTransformation>;
}
