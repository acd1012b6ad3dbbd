//! zarrs' fletcher32 with one change: a last odd byte is followed by a 0, which is taken away again. HDF5 sums a last odd
//! byte as the upper half of a word whose lower half is 0, so zarrs' own sum of the padded bytes is HDF5's of the bytes.

use std::any::Any;
use std::borrow::Cow;
use std::sync::Arc;

use zarrs::array::codec::bytes_to_bytes::fletcher32::Fletcher32Codec;
use zarrs_codec::{
    ArrayBytesRaw, BytesRepresentation, BytesToBytesCodecTraits, CodecError, CodecOptions, CodecTraits,
    PartialDecoderCapability,
};

const CHECKSUM_SIZE: usize = 4;

#[derive(Debug, Clone, Default)]
pub struct Fletcher32Padded(Fletcher32Codec);

zarrs_plugin::impl_extension_aliases!(Fletcher32Padded, v3: "numcodecs.fletcher32", v2: "fletcher32");

impl CodecTraits for Fletcher32Padded {
    fn as_any(&self) -> &dyn Any {
        self
    }

    fn partial_decoder_capability(&self) -> PartialDecoderCapability {
        self.0.partial_decoder_capability()
    }
}

impl BytesToBytesCodecTraits for Fletcher32Padded {
    fn into_dyn(self: Arc<Self>) -> Arc<dyn BytesToBytesCodecTraits> {
        self
    }

    fn encoded_representation(&self, decoded_representation: &BytesRepresentation) -> BytesRepresentation {
        self.0.encoded_representation(decoded_representation)
    }

    fn encode<'a>(
        &self,
        decoded_value: ArrayBytesRaw<'a>,
        options: &CodecOptions,
    ) -> Result<ArrayBytesRaw<'a>, CodecError> {
        let length = decoded_value.len();
        if length % 2 == 0 {
            return self.0.encode(decoded_value, options);
        }
        let mut padded = decoded_value.into_owned();
        padded.push(0);
        let mut encoded = self.0.encode(Cow::Owned(padded), options)?.into_owned();
        encoded.remove(length);
        Ok(Cow::Owned(encoded))
    }

    fn decode<'a>(
        &self,
        encoded_value: ArrayBytesRaw<'a>,
        decoded_representation: &BytesRepresentation,
        options: &CodecOptions,
    ) -> Result<ArrayBytesRaw<'a>, CodecError> {
        let length = match encoded_value.len().checked_sub(CHECKSUM_SIZE) {
            Some(length) if length % 2 == 1 => length,
            _ => return self.0.decode(encoded_value, decoded_representation, options),
        };
        let mut padded = encoded_value.into_owned();
        padded.insert(length, 0);
        let mut decoded = self.0.decode(Cow::Owned(padded), decoded_representation, options)?.into_owned();
        decoded.pop();
        Ok(Cow::Owned(decoded))
    }
}
