//! The traits of codecs. Where a trait gives a function, the codec has it unless it brings its own: what nothing here asks of a
//! codec need not be written for it, and one that only tells its capabilities codes nothing.

use std::any::Any;
use std::fmt::Debug;
use std::num::NonZeroU64;
use std::ops::Range;
use std::sync::Arc;

use zarrs_metadata::Configuration;
use zarrs_plugin::{ExtensionName, ZarrVersion};

use crate::partial::{ArrayToArrayPartialDecoderDefault, BytesToBytesPartialDecoderDefault};
use crate::{
    ArrayBytes, ArrayBytesDecodeIntoTarget, ArrayBytesRaw, ArrayPartialDecoderTraits, ArrayPartialEncoderTraits,
    BytesPartialDecoderTraits, BytesPartialEncoderTraits, BytesRepresentation, ChunkShape, CodecError,
    CodecMetadataOptions, CodecOptions, CodecSpecificOptions, DataType, FillValue, decode_into_array_bytes_target,
};

#[derive(Debug, Clone, Copy, PartialEq, Eq)]
pub struct PartialDecoderCapability {
    /// Parts of the input are enough for a part of the output.
    pub partial_read: bool,
    /// A part can be decoded without the whole.
    pub partial_decode: bool,
}

#[derive(Debug, Clone, Copy, PartialEq, Eq)]
pub struct PartialEncoderCapability {
    pub partial_encode: bool,
}

#[derive(Debug, Clone)]
pub struct RecommendedConcurrency(Range<usize>);

impl RecommendedConcurrency {
    pub fn new(range: Range<usize>) -> Self {
        Self(range)
    }

    pub fn new_maximum(maximum: usize) -> Self {
        Self(1..maximum)
    }

    pub fn min(&self) -> usize {
        self.0.start
    }

    pub fn max(&self) -> usize {
        self.0.end
    }
}

fn codes_nothing<T>() -> Result<T, CodecError> {
    Err(CodecError::Other("this codec does not code so".to_string()))
}

pub trait CodecTraits: ExtensionName + Debug + Send + Sync {
    fn as_any(&self) -> &dyn Any;

    fn configuration(&self, _version: ZarrVersion, _options: &CodecMetadataOptions) -> Option<Configuration> {
        None
    }

    fn configuration_v3(&self, options: &CodecMetadataOptions) -> Option<Configuration> {
        self.configuration(ZarrVersion::V3, options)
    }

    fn partial_decoder_capability(&self) -> PartialDecoderCapability;

    fn partial_encoder_capability(&self) -> PartialEncoderCapability {
        PartialEncoderCapability { partial_encode: false }
    }
}

pub trait ArrayCodecTraits: CodecTraits {
    fn recommended_concurrency(
        &self,
        _shape: &[NonZeroU64],
        _data_type: &DataType,
    ) -> Result<RecommendedConcurrency, CodecError> {
        Ok(RecommendedConcurrency::new_maximum(1))
    }

    fn partial_decode_granularity(&self, shape: &[NonZeroU64]) -> ChunkShape {
        vec![NonZeroU64::MIN; shape.len()]
    }
}

pub trait ArrayToArrayCodecTraits: ArrayCodecTraits {
    fn into_dyn(self: Arc<Self>) -> Arc<dyn ArrayToArrayCodecTraits>;

    fn with_codec_specific_options(
        self: Arc<Self>,
        _options: &CodecSpecificOptions,
    ) -> Arc<dyn ArrayToArrayCodecTraits> {
        self.into_dyn()
    }

    fn encoded_shape(&self, shape: &[NonZeroU64]) -> Result<ChunkShape, CodecError> {
        Ok(shape.to_vec())
    }

    fn encoded_data_type(&self, data_type: &DataType) -> Result<DataType, CodecError> {
        Ok(data_type.clone())
    }

    fn encoded_fill_value(&self, _data_type: &DataType, fill_value: &FillValue) -> Result<FillValue, CodecError> {
        Ok(fill_value.clone())
    }

    fn encoded_representation(
        &self,
        shape: &[NonZeroU64],
        data_type: &DataType,
        fill_value: &FillValue,
    ) -> Result<(ChunkShape, DataType, FillValue), CodecError> {
        Ok((
            self.encoded_shape(shape)?,
            self.encoded_data_type(data_type)?,
            self.encoded_fill_value(data_type, fill_value)?,
        ))
    }

    fn encode<'a>(
        &self,
        _bytes: ArrayBytes<'a>,
        _shape: &[NonZeroU64],
        _data_type: &DataType,
        _fill_value: &FillValue,
        _options: &CodecOptions,
    ) -> Result<ArrayBytes<'a>, CodecError> {
        codes_nothing()
    }

    fn decode<'a>(
        &self,
        _bytes: ArrayBytes<'a>,
        _shape: &[NonZeroU64],
        _data_type: &DataType,
        _fill_value: &FillValue,
        _options: &CodecOptions,
    ) -> Result<ArrayBytes<'a>, CodecError> {
        codes_nothing()
    }

    fn partial_decoder(
        self: Arc<Self>,
        input_handle: Arc<dyn ArrayPartialDecoderTraits>,
        shape: &[NonZeroU64],
        data_type: &DataType,
        fill_value: &FillValue,
        _options: &CodecOptions,
    ) -> Result<Arc<dyn ArrayPartialDecoderTraits>, CodecError> {
        Ok(Arc::new(ArrayToArrayPartialDecoderDefault::new(
            input_handle,
            self.into_dyn(),
            shape,
            data_type,
            fill_value,
        )))
    }

    fn partial_encoder(
        self: Arc<Self>,
        _input_output_handle: Arc<dyn ArrayPartialEncoderTraits>,
        _shape: &[NonZeroU64],
        _data_type: &DataType,
        _fill_value: &FillValue,
        _options: &CodecOptions,
    ) -> Result<Arc<dyn ArrayPartialEncoderTraits>, CodecError> {
        codes_nothing()
    }
}

pub trait ArrayToBytesCodecTraits: ArrayCodecTraits {
    fn into_dyn(self: Arc<Self>) -> Arc<dyn ArrayToBytesCodecTraits>;

    fn with_codec_specific_options(
        self: Arc<Self>,
        _options: &CodecSpecificOptions,
    ) -> Arc<dyn ArrayToBytesCodecTraits> {
        self.into_dyn()
    }

    fn encoded_representation(
        &self,
        _shape: &[NonZeroU64],
        _data_type: &DataType,
        _fill_value: &FillValue,
    ) -> Result<BytesRepresentation, CodecError> {
        codes_nothing()
    }

    fn encode<'a>(
        &self,
        _bytes: ArrayBytes<'a>,
        _shape: &[NonZeroU64],
        _data_type: &DataType,
        _fill_value: &FillValue,
        _options: &CodecOptions,
    ) -> Result<ArrayBytesRaw<'a>, CodecError> {
        codes_nothing()
    }

    fn decode<'a>(
        &self,
        _bytes: ArrayBytesRaw<'a>,
        _shape: &[NonZeroU64],
        _data_type: &DataType,
        _fill_value: &FillValue,
        _options: &CodecOptions,
    ) -> Result<ArrayBytes<'a>, CodecError> {
        codes_nothing()
    }

    fn decode_into(
        &self,
        bytes: ArrayBytesRaw<'_>,
        shape: &[NonZeroU64],
        data_type: &DataType,
        fill_value: &FillValue,
        output_target: ArrayBytesDecodeIntoTarget<'_>,
        options: &CodecOptions,
    ) -> Result<(), CodecError> {
        let decoded = self.decode(bytes, shape, data_type, fill_value, options)?;
        decode_into_array_bytes_target(&decoded, output_target)
    }

    fn compact<'a>(
        &self,
        _bytes: ArrayBytesRaw<'a>,
        _shape: &[NonZeroU64],
        _data_type: &DataType,
        _fill_value: &FillValue,
        _options: &CodecOptions,
    ) -> Result<Option<ArrayBytesRaw<'a>>, CodecError> {
        Ok(None)
    }

    fn partial_decoder(
        self: Arc<Self>,
        _input_handle: Arc<dyn BytesPartialDecoderTraits>,
        _shape: &[NonZeroU64],
        _data_type: &DataType,
        _fill_value: &FillValue,
        _options: &CodecOptions,
    ) -> Result<Arc<dyn ArrayPartialDecoderTraits>, CodecError> {
        codes_nothing()
    }

    fn partial_encoder(
        self: Arc<Self>,
        _input_output_handle: Arc<dyn BytesPartialEncoderTraits>,
        _shape: &[NonZeroU64],
        _data_type: &DataType,
        _fill_value: &FillValue,
        _options: &CodecOptions,
    ) -> Result<Arc<dyn ArrayPartialEncoderTraits>, CodecError> {
        codes_nothing()
    }
}

pub trait BytesToBytesCodecTraits: CodecTraits {
    fn into_dyn(self: Arc<Self>) -> Arc<dyn BytesToBytesCodecTraits>;

    fn with_codec_specific_options(
        self: Arc<Self>,
        _options: &CodecSpecificOptions,
    ) -> Arc<dyn BytesToBytesCodecTraits> {
        self.into_dyn()
    }

    fn recommended_concurrency(
        &self,
        _decoded_representation: &BytesRepresentation,
    ) -> Result<RecommendedConcurrency, CodecError> {
        Ok(RecommendedConcurrency::new_maximum(1))
    }

    fn encoded_representation(&self, decoded_representation: &BytesRepresentation) -> BytesRepresentation {
        *decoded_representation
    }

    fn encode<'a>(
        &self,
        _decoded_value: ArrayBytesRaw<'a>,
        _options: &CodecOptions,
    ) -> Result<ArrayBytesRaw<'a>, CodecError> {
        codes_nothing()
    }

    fn decode<'a>(
        &self,
        _encoded_value: ArrayBytesRaw<'a>,
        _decoded_representation: &BytesRepresentation,
        _options: &CodecOptions,
    ) -> Result<ArrayBytesRaw<'a>, CodecError> {
        codes_nothing()
    }

    fn partial_decoder(
        self: Arc<Self>,
        input_handle: Arc<dyn BytesPartialDecoderTraits>,
        decoded_representation: &BytesRepresentation,
        _options: &CodecOptions,
    ) -> Result<Arc<dyn BytesPartialDecoderTraits>, CodecError> {
        Ok(Arc::new(BytesToBytesPartialDecoderDefault::new(input_handle, self.into_dyn(), *decoded_representation)))
    }

    fn partial_encoder(
        self: Arc<Self>,
        _input_output_handle: Arc<dyn BytesPartialEncoderTraits>,
        _decoded_representation: &BytesRepresentation,
        _options: &CodecOptions,
    ) -> Result<Arc<dyn BytesPartialEncoderTraits>, CodecError> {
        codes_nothing()
    }
}
