//! What the published files use and the publication lacks: the entries of a matrix, and the settings of an event.

use crate::Float;
use crate::matrix::{Matrix, MatrixStorage};
use std::ops::{Index, IndexMut};

/// Of a full matrix, row by row, as its own documentation has it. The solver makes no other.
fn place(matrix: &Matrix, (row, column): (usize, usize)) -> usize {
    assert!(matches!(matrix.storage, MatrixStorage::Full), "only full storage has entries here");
    row * matrix.m + column
}

impl Index<(usize, usize)> for Matrix {
    type Output = Float;

    fn index(&self, at: (usize, usize)) -> &Float {
        &self.data[place(self, at)]
    }
}

impl IndexMut<(usize, usize)> for Matrix {
    fn index_mut(&mut self, at: (usize, usize)) -> &mut Float {
        let place = place(self, at);
        &mut self.data[place]
    }
}

/// No event is ever asked for.
#[derive(Default)]
pub struct EventConfig;
