//! Shapes, data types, fill values, and how long encoded bytes are.

use std::num::NonZeroU64;

pub type ChunkShape = Vec<NonZeroU64>;

pub trait ChunkShapeTraits {
    fn num_elements_u64(&self) -> u64;
}

impl ChunkShapeTraits for [NonZeroU64] {
    /// The product of all lengths; a shape whose product 64 bits do not hold has none.
    fn num_elements_u64(&self) -> u64 {
        self.iter()
            .try_fold(1u64, |count, length| count.checked_mul(length.get()))
            .expect("the element count passes 64 bits")
    }
}

#[derive(Debug, Clone, Copy, PartialEq, Eq)]
pub enum DataTypeSize {
    Fixed(usize),
    Variable,
}

#[derive(Debug, Clone, PartialEq, Eq)]
pub enum DataType {
    Int { size: usize },
    Float { size: usize },
    String,
    Optional,
}

impl DataType {
    pub fn size(&self) -> DataTypeSize {
        match self {
            Self::Int { size } | Self::Float { size } => DataTypeSize::Fixed(*size),
            Self::String | Self::Optional => DataTypeSize::Variable,
        }
    }

    pub fn fixed_size(&self) -> Option<usize> {
        match self.size() {
            DataTypeSize::Fixed(size) => Some(size),
            DataTypeSize::Variable => None,
        }
    }

    pub fn is_optional(&self) -> bool {
        matches!(self, Self::Optional)
    }
}

/// The bytes of one element.
#[derive(Debug, Clone, PartialEq, Eq)]
pub struct FillValue(Vec<u8>);

impl FillValue {
    pub fn as_bytes(&self) -> &[u8] {
        &self.0
    }
}

impl From<Vec<u8>> for FillValue {
    fn from(bytes: Vec<u8>) -> Self {
        Self(bytes)
    }
}

#[derive(Debug, Clone, Copy, PartialEq, Eq)]
pub enum BytesRepresentation {
    FixedSize(u64),
    BoundedSize(u64),
    UnboundedSize,
}
