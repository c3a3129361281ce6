//! Stands in for the library's array help: a matrix flattened row by row.

use nalgebra::DMatrix;

pub fn to_row_major_vec(matrix: &DMatrix<f64>) -> Vec<f64> {
    let mut flat = Vec::with_capacity(matrix.nrows() * matrix.ncols());
    for i in 0..matrix.nrows() {
        for j in 0..matrix.ncols() {
            flat.push(matrix[(i, j)]);
        }
    }
    flat
}
