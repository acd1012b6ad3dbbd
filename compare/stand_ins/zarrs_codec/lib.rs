//! Stands in for the crate `zarrs_codec`: what codecs are, the arrays that they code, and the decoders of parts that a codec
//! has when it brings none of its own. The bytes of an array have the length that docs/RULES.md gives it; a box or a byte range
//! is taken out if it lies within, and is an error else.

mod array_bytes;
mod codec;
mod error;
mod indexer;
mod options;
mod partial;
mod plugin;
mod representation;

pub use array_bytes::{
    ArrayBytes, ArrayBytesDecodeIntoTarget, ArrayBytesRaw, decode_into_array_bytes_target, update_array_bytes,
};
pub use codec::{
    ArrayCodecTraits, ArrayToArrayCodecTraits, ArrayToBytesCodecTraits, BytesToBytesCodecTraits, CodecTraits,
    PartialDecoderCapability, PartialEncoderCapability, RecommendedConcurrency,
};
pub use error::CodecError;
pub use indexer::{ArraySubset, Indexer, IndexerError};
pub use options::{CodecMetadataOptions, CodecOptions, CodecSpecificOptions};
pub use partial::{
    ArrayPartialDecoderTraits, ArrayPartialEncoderTraits, BytesPartialDecoderTraits, BytesPartialEncoderTraits,
    StoredBytes,
};
pub use plugin::{Codec, CodecPluginV2, CodecPluginV3, CodecTraitsV2, CodecTraitsV3, register};
pub use representation::{BytesRepresentation, ChunkShape, ChunkShapeTraits, DataType, DataTypeSize, FillValue};
