//! Stands in for the filter dispatch: the unchanged optimized filter, with its owner noted at each update.

use super::desk;
use crate::filter::optimized::{OptimizedKalmanFilter, OptimizedKalmanFilterFactory};
use crate::filter::traits::Filter;
use nalgebra::{DMatrix, DVector};

/// The optimized filter and whose it is: the driver stamps both numbers before each frame.
#[derive(Clone, Debug)]
pub struct Owned {
    pub kalman: OptimizedKalmanFilter,
    pub owner: i32,
    pub column: usize,
}

/// Only the default record, which no trace uses, has this one.
#[derive(Clone, Debug)]
pub struct NoFilter {
    state: DVector<f64>,
    points: DMatrix<f64>,
}

impl NoFilter {
    pub fn new(points: &DMatrix<f64>) -> Self {
        let size = points.nrows() * points.ncols();
        Self { state: DVector::zeros(size), points: points.clone() }
    }
}

#[derive(Clone, Debug)]
pub enum FilterEnum {
    Optimized(Owned),
    None(NoFilter),
}

impl FilterEnum {
    pub fn predict(&mut self) {
        if let FilterEnum::Optimized(own) = self {
            own.kalman.predict();
        }
    }

    /// Notes the hit, then lets the unchanged filter do it.
    pub fn update(&mut self, measurement: &DVector<f64>, r: Option<&DMatrix<f64>>, h: Option<&DMatrix<f64>>) {
        if let FilterEnum::Optimized(own) = self {
            desk::with(|desk| desk.hits.push((own.owner, desk::asked())));
            own.kalman.update(measurement, r, h);
        }
    }

    pub fn get_state(&self) -> DMatrix<f64> {
        match self {
            FilterEnum::Optimized(own) => own.kalman.get_state(),
            FilterEnum::None(none) => none.points.clone(),
        }
    }

    pub fn get_state_vector(&self) -> &DVector<f64> {
        match self {
            FilterEnum::Optimized(own) => own.kalman.get_state_vector(),
            FilterEnum::None(none) => &none.state,
        }
    }

    pub fn dim_z(&self) -> usize {
        match self {
            FilterEnum::Optimized(own) => own.kalman.dim_z(),
            FilterEnum::None(none) => none.state.len(),
        }
    }

    pub fn dim_x(&self) -> usize {
        match self {
            FilterEnum::Optimized(own) => own.kalman.dim_x(),
            FilterEnum::None(none) => none.state.len(),
        }
    }

    pub fn stamp(&mut self, owner: i32, column: usize) {
        if let FilterEnum::Optimized(own) = self {
            own.owner = owner;
            own.column = column;
        }
    }

    pub fn column(&self) -> usize {
        match self {
            FilterEnum::Optimized(own) => own.column,
            FilterEnum::None(_) => panic!("a record without a filter has no column"),
        }
    }

    /// The unchanged filter, to be read by the driver.
    pub fn kalman(&self) -> &OptimizedKalmanFilter {
        match self {
            FilterEnum::Optimized(own) => &own.kalman,
            FilterEnum::None(_) => panic!("a record without a filter"),
        }
    }
}

/// Always the optimized filter's settings.
#[derive(Clone, Debug, Default)]
pub struct FilterFactoryEnum(pub OptimizedKalmanFilterFactory);

impl FilterFactoryEnum {
    pub fn create(&self, points: &DMatrix<f64>) -> FilterEnum {
        let f = &self.0;
        let (pos, cov, vel) = (f.pos_variance(), f.pos_vel_covariance(), f.vel_variance());
        let kalman = OptimizedKalmanFilter::new(points, f.r(), f.q(), pos, cov, vel);
        FilterEnum::Optimized(Owned { kalman, owner: 0, column: usize::MAX })
    }
}
