//! Stands in for zarrs' module `array`: the names that its codecs use.

pub mod codec;

pub use zarrs_codec::{
    ArrayBytes, ArrayBytesRaw, ArraySubset, BytesRepresentation, ChunkShape, ChunkShapeTraits, DataType, DataTypeSize,
    FillValue, Indexer, IndexerError, update_array_bytes,
};
