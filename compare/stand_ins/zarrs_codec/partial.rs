//! Decoders of parts: their traits, those of codecs that bring none of their own (which decode the whole and take the part
//! out of it), and the one of bytes as they are stored. Encoders of parts: their traits, and the one of stored bytes.

use std::any::Any;
use std::borrow::Cow;
use std::num::NonZeroU64;
use std::sync::{Arc, Mutex};

use zarrs_storage::StorageError;
use zarrs_storage::byte_range::{ByteRange, ByteRangeIterator, extract_byte_ranges};

use crate::array_bytes::whole;
use crate::{
    ArrayBytes, ArrayBytesRaw, ArrayToArrayCodecTraits, BytesRepresentation, BytesToBytesCodecTraits, ChunkShape,
    CodecError, CodecOptions, DataType, FillValue, Indexer,
};

pub trait BytesPartialDecoderTraits: Any + Send + Sync {
    fn exists(&self) -> Result<bool, StorageError>;

    fn size_held(&self) -> usize;

    fn partial_decode(
        &self,
        decoded_region: ByteRange,
        options: &CodecOptions,
    ) -> Result<Option<ArrayBytesRaw<'_>>, CodecError> {
        let decoded = self.partial_decode_many(Box::new(std::iter::once(decoded_region)), options)?;
        Ok(decoded.map(|mut parts| parts.pop().expect("one part for one range")))
    }

    fn partial_decode_many(
        &self,
        decoded_regions: ByteRangeIterator,
        options: &CodecOptions,
    ) -> Result<Option<Vec<ArrayBytesRaw<'_>>>, CodecError>;

    fn supports_partial_decode(&self) -> bool;
}

pub trait ArrayPartialDecoderTraits: Any + Send + Sync {
    fn data_type(&self) -> &DataType;

    fn exists(&self) -> Result<bool, StorageError>;

    fn size_held(&self) -> usize;

    fn partial_decode(&self, indexer: &dyn Indexer, options: &CodecOptions) -> Result<ArrayBytes<'_>, CodecError>;

    fn supports_partial_decode(&self) -> bool;
}

/// Bytes to write, with the offset that they go to.
pub type OffsetBytesIterator<'a> = Box<dyn Iterator<Item = (u64, ArrayBytesRaw<'a>)> + 'a>;

pub trait BytesPartialEncoderTraits: BytesPartialDecoderTraits {
    fn erase(&self) -> Result<(), CodecError>;

    fn partial_encode(&self, offset: u64, bytes: ArrayBytesRaw<'_>, options: &CodecOptions) -> Result<(), CodecError>;

    fn partial_encode_many(
        &self,
        offset_values: OffsetBytesIterator<'_>,
        options: &CodecOptions,
    ) -> Result<(), CodecError>;

    fn supports_partial_encode(&self) -> bool;
}

pub trait ArrayPartialEncoderTraits: ArrayPartialDecoderTraits {
    fn into_dyn_decoder(self: Arc<Self>) -> Arc<dyn ArrayPartialDecoderTraits>;

    fn erase(&self) -> Result<(), CodecError>;

    fn partial_encode(
        &self,
        indexer: &dyn Indexer,
        bytes: &ArrayBytes<'_>,
        options: &CodecOptions,
    ) -> Result<(), CodecError>;

    fn supports_partial_encode(&self) -> bool;
}

/// The value of a cell: absent or bytes.
pub struct StoredBytes(Mutex<Option<Vec<u8>>>);

impl StoredBytes {
    pub fn new(value: Option<Vec<u8>>) -> Self {
        Self(Mutex::new(value))
    }

    pub fn value(&self) -> Option<Vec<u8>> {
        self.0.lock().expect("no holder fails").clone()
    }
}

impl BytesPartialDecoderTraits for StoredBytes {
    fn exists(&self) -> Result<bool, StorageError> {
        Ok(self.value().is_some())
    }

    fn size_held(&self) -> usize {
        0
    }

    fn partial_decode_many(
        &self,
        decoded_regions: ByteRangeIterator,
        _options: &CodecOptions,
    ) -> Result<Option<Vec<ArrayBytesRaw<'_>>>, CodecError> {
        self.value().map(|bytes| extracted(&bytes, decoded_regions)).transpose()
    }

    fn supports_partial_decode(&self) -> bool {
        true
    }
}

impl BytesPartialEncoderTraits for StoredBytes {
    fn erase(&self) -> Result<(), CodecError> {
        *self.0.lock().expect("no holder fails") = None;
        Ok(())
    }

    /// Bytes past the end make the value longer, with zeros between it and them.
    fn partial_encode(&self, offset: u64, bytes: ArrayBytesRaw<'_>, _options: &CodecOptions) -> Result<(), CodecError> {
        let mut value = self.0.lock().expect("no holder fails");
        let stored = value.get_or_insert_default();
        let start = offset as usize;
        let end = start + bytes.len();
        stored.resize(stored.len().max(end), 0);
        stored[start..end].copy_from_slice(&bytes);
        Ok(())
    }

    fn partial_encode_many(
        &self,
        mut offset_values: OffsetBytesIterator<'_>,
        options: &CodecOptions,
    ) -> Result<(), CodecError> {
        offset_values.try_for_each(|(offset, bytes)| self.partial_encode(offset, bytes, options))
    }

    fn supports_partial_encode(&self) -> bool {
        true
    }
}

fn extracted(bytes: &[u8], regions: ByteRangeIterator) -> Result<Vec<ArrayBytesRaw<'static>>, CodecError> {
    let parts = extract_byte_ranges(bytes, regions).map_err(CodecError::InvalidByteRangeError)?;
    Ok(parts.into_iter().map(Cow::Owned).collect())
}

pub(crate) struct BytesToBytesPartialDecoderDefault {
    input_handle: Arc<dyn BytesPartialDecoderTraits>,
    codec: Arc<dyn BytesToBytesCodecTraits>,
    decoded_representation: BytesRepresentation,
}

impl BytesToBytesPartialDecoderDefault {
    pub(crate) fn new(
        input_handle: Arc<dyn BytesPartialDecoderTraits>,
        codec: Arc<dyn BytesToBytesCodecTraits>,
        decoded_representation: BytesRepresentation,
    ) -> Self {
        Self { input_handle, codec, decoded_representation }
    }
}

impl BytesPartialDecoderTraits for BytesToBytesPartialDecoderDefault {
    fn exists(&self) -> Result<bool, StorageError> {
        self.input_handle.exists()
    }

    fn size_held(&self) -> usize {
        self.input_handle.size_held()
    }

    fn partial_decode_many(
        &self,
        decoded_regions: ByteRangeIterator,
        options: &CodecOptions,
    ) -> Result<Option<Vec<ArrayBytesRaw<'_>>>, CodecError> {
        let Some(encoded) = self.input_handle.partial_decode(ByteRange::FromStart(0, None), options)? else {
            return Ok(None);
        };
        let decoded = self.codec.decode(encoded, &self.decoded_representation, options)?;
        Ok(Some(extracted(&decoded, decoded_regions)?))
    }

    fn supports_partial_decode(&self) -> bool {
        false
    }
}

pub(crate) struct ArrayToArrayPartialDecoderDefault {
    input_handle: Arc<dyn ArrayPartialDecoderTraits>,
    codec: Arc<dyn ArrayToArrayCodecTraits>,
    shape: ChunkShape,
    data_type: DataType,
    fill_value: FillValue,
}

impl ArrayToArrayPartialDecoderDefault {
    pub(crate) fn new(
        input_handle: Arc<dyn ArrayPartialDecoderTraits>,
        codec: Arc<dyn ArrayToArrayCodecTraits>,
        shape: &[NonZeroU64],
        data_type: &DataType,
        fill_value: &FillValue,
    ) -> Self {
        Self {
            input_handle,
            codec,
            shape: shape.to_vec(),
            data_type: data_type.clone(),
            fill_value: fill_value.clone(),
        }
    }
}

impl ArrayPartialDecoderTraits for ArrayToArrayPartialDecoderDefault {
    fn data_type(&self) -> &DataType {
        &self.data_type
    }

    fn exists(&self) -> Result<bool, StorageError> {
        self.input_handle.exists()
    }

    fn size_held(&self) -> usize {
        self.input_handle.size_held()
    }

    fn partial_decode(&self, indexer: &dyn Indexer, options: &CodecOptions) -> Result<ArrayBytes<'_>, CodecError> {
        let encoded_shape = self.codec.encoded_shape(&self.shape)?;
        let encoded = self.input_handle.partial_decode(&whole(&encoded_shape), options)?;
        let decoded = self.codec.decode(encoded, &self.shape, &self.data_type, &self.fill_value, options)?;
        let shape: Vec<u64> = self.shape.iter().map(|length| length.get()).collect();
        decoded.extract_array_subset(indexer, &shape, &self.data_type)
    }

    fn supports_partial_decode(&self) -> bool {
        false
    }
}
