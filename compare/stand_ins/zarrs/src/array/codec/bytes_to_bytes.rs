//! Stands in for zarrs' module `array::codec::bytes_to_bytes`.

pub mod crc32c;
pub mod fletcher32;
pub mod shuffle;
mod strip_prefix_partial_decoder;
mod strip_suffix_partial_decoder;
