//! Stands in for zarrs' module `array::codec::array_to_bytes`.

pub mod bytes;
pub mod codec_chain;
