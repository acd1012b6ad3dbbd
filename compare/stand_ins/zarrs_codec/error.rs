//! Why a codec refuses.

use std::fmt;

use zarrs_storage::StorageError;
use zarrs_storage::byte_range::InvalidByteRangeError;

use crate::{DataType, IndexerError};

#[derive(Debug, Clone)]
pub enum CodecError {
    /// The bytes have not the length of the array.
    ArrayLength,
    /// The fill value is not one element long.
    FillValue,
    /// Elements of several bytes, and no byte order.
    NoEndianness,
    /// The order of a transposition and the shape differ in dimensions.
    Dimensions,
    UnsupportedDataType(DataType, String),
    InvalidChecksum,
    InvalidByteRangeError(InvalidByteRangeError),
    IndexerError(IndexerError),
    StorageError(StorageError),
    Other(String),
}

impl From<IndexerError> for CodecError {
    fn from(error: IndexerError) -> Self {
        Self::IndexerError(error)
    }
}

impl From<StorageError> for CodecError {
    fn from(error: StorageError) -> Self {
        Self::StorageError(error)
    }
}

impl fmt::Display for CodecError {
    fn fmt(&self, out: &mut fmt::Formatter<'_>) -> fmt::Result {
        match self {
            Self::Other(text) => out.write_str(text),
            other => write!(out, "{other:?}"),
        }
    }
}
