//! The name of a codec whose own file is not here, so that the file around it can be built. It codes nothing, and nothing makes
//! or compares one.

use std::any::Any;
use std::sync::Arc;

use zarrs_codec::{BytesToBytesCodecTraits, CodecTraits, PartialDecoderCapability};

use super::Crc32cCodecConfiguration;

#[derive(Debug, Clone)]
pub struct Crc32cCodec;

impl Crc32cCodec {
    pub const fn new_with_configuration(_configuration: &Crc32cCodecConfiguration) -> Self {
        Self
    }
}

impl CodecTraits for Crc32cCodec {
    fn as_any(&self) -> &dyn Any {
        self
    }

    fn partial_decoder_capability(&self) -> PartialDecoderCapability {
        PartialDecoderCapability { partial_read: false, partial_decode: false }
    }
}

impl BytesToBytesCodecTraits for Crc32cCodec {
    fn into_dyn(self: Arc<Self>) -> Arc<dyn BytesToBytesCodecTraits> {
        self
    }
}
