//! Stands in for zarrs' module `array::codec`.

mod array_partial_decoder_cache;
pub mod array_to_array;
pub mod array_to_bytes;
mod bytes_partial_decoder_cache;
pub mod bytes_to_bytes;

pub(crate) use array_partial_decoder_cache::ArrayPartialDecoderCache;
pub(crate) use bytes_partial_decoder_cache::BytesPartialDecoderCache;
