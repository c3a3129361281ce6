//! Stands in for nalgebra: matrices and vectors of f64, only the calls that the unchanged files make.

use std::fmt;
use std::ops::{Index, IndexMut};

/// A matrix, column by column as nalgebra keeps it.
#[derive(Clone, Debug)]
pub struct DMatrix<T> {
    rows: usize,
    columns: usize,
    data: Vec<T>,
}

impl DMatrix<f64> {
    pub fn zeros(rows: usize, columns: usize) -> Self {
        Self { rows, columns, data: vec![0.0; rows * columns] }
    }

    pub fn from_row_slice(rows: usize, columns: usize, entries: &[f64]) -> Self {
        assert_eq!(entries.len(), rows * columns, "entries and shape differ");
        let mut made = Self::zeros(rows, columns);
        for i in 0..rows {
            for j in 0..columns {
                made[(i, j)] = entries[i * columns + j];
            }
        }
        made
    }

    pub fn nrows(&self) -> usize {
        self.rows
    }

    pub fn ncols(&self) -> usize {
        self.columns
    }

    /// Column by column, as nalgebra goes.
    pub fn iter(&self) -> std::slice::Iter<'_, f64> {
        self.data.iter()
    }
}

impl Index<(usize, usize)> for DMatrix<f64> {
    type Output = f64;
    #[inline]
    fn index(&self, (i, j): (usize, usize)) -> &f64 {
        assert!(i < self.rows && j < self.columns, "out of the matrix");
        &self.data[j * self.rows + i]
    }
}

impl IndexMut<(usize, usize)> for DMatrix<f64> {
    #[inline]
    fn index_mut(&mut self, (i, j): (usize, usize)) -> &mut f64 {
        assert!(i < self.rows && j < self.columns, "out of the matrix");
        &mut self.data[j * self.rows + i]
    }
}

/// A vector; its debug text is a plain list, so that it can be read back.
#[derive(Clone)]
pub struct DVector<T> {
    data: Vec<T>,
}

impl DVector<f64> {
    pub fn zeros(length: usize) -> Self {
        Self { data: vec![0.0; length] }
    }

    pub fn from_vec(data: Vec<f64>) -> Self {
        Self { data }
    }

    pub fn len(&self) -> usize {
        self.data.len()
    }

    pub fn is_empty(&self) -> bool {
        self.data.is_empty()
    }

    pub fn iter(&self) -> std::slice::Iter<'_, f64> {
        self.data.iter()
    }

    /// Panics where the lengths differ, as nalgebra does.
    pub fn copy_from(&mut self, other: &Self) {
        self.data.copy_from_slice(&other.data);
    }
}

impl Index<usize> for DVector<f64> {
    type Output = f64;
    #[inline]
    fn index(&self, i: usize) -> &f64 {
        &self.data[i]
    }
}

impl IndexMut<usize> for DVector<f64> {
    #[inline]
    fn index_mut(&mut self, i: usize) -> &mut f64 {
        &mut self.data[i]
    }
}

impl<T: fmt::Debug> fmt::Debug for DVector<T> {
    fn fmt(&self, f: &mut fmt::Formatter<'_>) -> fmt::Result {
        self.data.fmt(f)
    }
}
