//! Stands in for zarrs' module `bytes` around its codec: the configuration, and the byte order of the elements of an array.
//! Big reverses the bytes of each element, and little leaves them; elements of several bytes need one of the two.

mod bytes_codec;
mod bytes_codec_partial;

use std::borrow::Cow;
use std::sync::Arc;

use zarrs_codec::{ArrayBytesRaw, Codec, CodecError, CodecTraitsV3, DataType};
use zarrs_metadata::v3::MetadataV3;
use zarrs_plugin::PluginCreateError;

pub use bytes_codec::BytesCodec;
pub use zarrs_metadata_ext::codec::bytes::{BytesCodecConfiguration, BytesCodecConfigurationV1, Endianness};

zarrs_plugin::impl_extension_aliases!(BytesCodec, v3: "bytes", v2: "bytes");

impl CodecTraitsV3 for BytesCodec {
    fn create(metadata: &MetadataV3) -> Result<Codec, PluginCreateError> {
        let configuration: BytesCodecConfiguration = metadata.to_typed_configuration()?;
        Ok(Codec::ArrayToBytes(Arc::new(Self::new_with_configuration(&configuration)?)))
    }
}

/// Elements of so many bytes.
pub struct CodecBytes(usize);

pub trait BytesDataTypeExt {
    fn codec_bytes(&self) -> Result<CodecBytes, CodecError>;
}

impl BytesDataTypeExt for DataType {
    fn codec_bytes(&self) -> Result<CodecBytes, CodecError> {
        match self.fixed_size() {
            Some(size) => Ok(CodecBytes(size)),
            None => Err(CodecError::UnsupportedDataType(self.clone(), "bytes".to_string())),
        }
    }
}

impl CodecBytes {
    pub fn encode<'a>(
        &self,
        bytes: ArrayBytesRaw<'a>,
        endian: Option<Endianness>,
    ) -> Result<ArrayBytesRaw<'a>, CodecError> {
        match endian {
            None if self.0 > 1 => Err(CodecError::NoEndianness),
            None | Some(Endianness::Little) => Ok(bytes),
            Some(Endianness::Big) => {
                let mut reversed = bytes.into_owned();
                reversed.chunks_mut(self.0).for_each(<[u8]>::reverse);
                Ok(Cow::Owned(reversed))
            }
        }
    }

    pub fn decode<'a>(
        &self,
        bytes: ArrayBytesRaw<'a>,
        endian: Option<Endianness>,
    ) -> Result<ArrayBytesRaw<'a>, CodecError> {
        self.encode(bytes, endian)
    }
}
