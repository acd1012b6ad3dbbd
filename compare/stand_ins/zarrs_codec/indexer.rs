//! Boxes of arrays.

use std::ops::Range;

/// Why a box is not one of an array.
#[derive(Debug, Clone)]
pub enum IndexerError {
    Dimensionality(usize, usize),
    OutOfBounds,
}

impl IndexerError {
    pub fn new_incompatible_dimensionality(got: usize, expected: usize) -> Self {
        Self::Dimensionality(got, expected)
    }
}

pub trait Indexer {
    fn dimensionality(&self) -> usize;

    /// How many elements the box has.
    fn len(&self) -> u64;

    /// Where its elements lie in the bytes of an array of the shape, in C order, a row at a time.
    fn iter_contiguous_byte_ranges(
        &self,
        array_shape: &[u64],
        element_size: usize,
    ) -> Result<Box<dyn Iterator<Item = Range<u64>>>, IndexerError>;

    fn as_subset(&self) -> &ArraySubset;
}

/// A box: where it starts and how long it is, in each dimension.
#[derive(Debug, Clone, PartialEq, Eq)]
pub struct ArraySubset {
    start: Vec<u64>,
    shape: Vec<u64>,
}

impl ArraySubset {
    pub fn new_with_shape(shape: Vec<u64>) -> Self {
        Self { start: vec![0; shape.len()], shape }
    }

    pub fn new_with_start_shape(start: Vec<u64>, shape: Vec<u64>) -> Result<Self, IndexerError> {
        if start.len() != shape.len() {
            return Err(IndexerError::Dimensionality(start.len(), shape.len()));
        }
        Ok(Self { start, shape })
    }

    pub fn start(&self) -> &[u64] {
        &self.start
    }

    pub fn shape(&self) -> &[u64] {
        &self.shape
    }

    /// Whether it has the array's dimensions, and start plus length passes none.
    pub fn is_within(&self, array_shape: &[u64]) -> bool {
        self.shape.len() == array_shape.len()
            && self
                .start
                .iter()
                .zip(&self.shape)
                .zip(array_shape)
                .all(|((start, length), dimension)| start.checked_add(*length).is_some_and(|end| end <= *dimension))
    }
}

impl Indexer for ArraySubset {
    fn dimensionality(&self) -> usize {
        self.shape.len()
    }

    fn len(&self) -> u64 {
        self.shape.iter().product()
    }

    fn iter_contiguous_byte_ranges(
        &self,
        array_shape: &[u64],
        element_size: usize,
    ) -> Result<Box<dyn Iterator<Item = Range<u64>>>, IndexerError> {
        if self.dimensionality() != array_shape.len() {
            return Err(IndexerError::new_incompatible_dimensionality(self.dimensionality(), array_shape.len()));
        }
        if !self.is_within(array_shape) {
            return Err(IndexerError::OutOfBounds);
        }
        let size = element_size as u64;
        // where the rows begin, in elements: one in no dimensions, and with each dimension but the last those of every
        // index in it
        let mut rows = vec![0u64];
        let mut row_length = 1;
        for (axis, dimension) in array_shape.iter().enumerate() {
            let (start, length) = (self.start[axis], self.shape[axis]);
            if axis + 1 < array_shape.len() {
                rows = rows.iter().flat_map(|row| (start..start + length).map(move |i| row * dimension + i)).collect();
            } else {
                rows = rows.iter().map(|row| row * dimension + start).collect();
                row_length = length;
            }
        }
        if row_length == 0 {
            rows.clear();
        }
        Ok(Box::new(rows.into_iter().map(move |row| row * size..(row + row_length) * size)))
    }

    fn as_subset(&self) -> &ArraySubset {
        self
    }
}
