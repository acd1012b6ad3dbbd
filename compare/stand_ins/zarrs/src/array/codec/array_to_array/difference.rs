//! The difference codec, which zarrs has not: element 0 stays, and each later one becomes itself less its predecessor in C
//! order, integers modulo 2 to the power of their bits, floats by exclusive or of their bits.

use std::any::Any;
use std::num::NonZeroU64;
use std::sync::Arc;

use zarrs_codec::{
    ArrayBytes, ArrayCodecTraits, ArrayToArrayCodecTraits, Codec, CodecError, CodecOptions, CodecTraits, CodecTraitsV3,
    DataType, FillValue, PartialDecoderCapability,
};
use zarrs_metadata::v3::MetadataV3;
use zarrs_plugin::PluginCreateError;

#[derive(Debug, Clone)]
pub struct DifferenceCodec;

zarrs_plugin::impl_extension_aliases!(DifferenceCodec, v3: "difference", v2: "difference");

fn element(bytes: &[u8]) -> u64 {
    bytes.iter().rev().fold(0, |number, byte| number << 8 | u64::from(*byte))
}

/// The array's elements as numbers, and how long and of which kind they are.
fn elements(
    bytes: ArrayBytes<'_>,
    shape: &[NonZeroU64],
    data_type: &DataType,
) -> Result<(Vec<u64>, usize, bool), CodecError> {
    bytes.validate(shape.iter().map(|length| length.get()).product(), data_type)?;
    let (size, float) = match data_type {
        DataType::Int { size } => (*size, false),
        DataType::Float { size } => (*size, true),
        DataType::String | DataType::Optional => return Err(CodecError::ArrayLength),
    };
    Ok((bytes.into_fixed()?.chunks(size).map(element).collect(), size, float))
}

/// The low bytes of each number, least first; what is above them is what subtraction and addition are modulo of.
fn stored(numbers: &[u64], size: usize) -> ArrayBytes<'static> {
    let stored: Vec<u8> = numbers.iter().flat_map(|number| number.to_le_bytes().into_iter().take(size)).collect();
    ArrayBytes::from(stored)
}

impl CodecTraits for DifferenceCodec {
    fn as_any(&self) -> &dyn Any {
        self
    }

    fn partial_decoder_capability(&self) -> PartialDecoderCapability {
        PartialDecoderCapability { partial_read: false, partial_decode: false }
    }
}

impl ArrayCodecTraits for DifferenceCodec {}

impl ArrayToArrayCodecTraits for DifferenceCodec {
    fn into_dyn(self: Arc<Self>) -> Arc<dyn ArrayToArrayCodecTraits> {
        self
    }

    fn encode<'a>(
        &self,
        bytes: ArrayBytes<'a>,
        shape: &[NonZeroU64],
        data_type: &DataType,
        _fill_value: &FillValue,
        _options: &CodecOptions,
    ) -> Result<ArrayBytes<'a>, CodecError> {
        let (elements, size, float) = elements(bytes, shape, data_type)?;
        let less = |(i, element): (usize, &u64)| match i.checked_sub(1).map(|before| elements[before]) {
            Some(before) if float => element ^ before,
            Some(before) => element.wrapping_sub(before),
            None => *element,
        };
        let differences: Vec<u64> = elements.iter().enumerate().map(less).collect();
        Ok(stored(&differences, size))
    }

    fn decode<'a>(
        &self,
        bytes: ArrayBytes<'a>,
        shape: &[NonZeroU64],
        data_type: &DataType,
        _fill_value: &FillValue,
        _options: &CodecOptions,
    ) -> Result<ArrayBytes<'a>, CodecError> {
        let (differences, size, float) = elements(bytes, shape, data_type)?;
        let mut running = 0u64;
        let sums: Vec<u64> = differences
            .into_iter()
            .map(|difference| {
                running = if float { running ^ difference } else { running.wrapping_add(difference) };
                running
            })
            .collect();
        Ok(stored(&sums, size))
    }
}

impl CodecTraitsV3 for DifferenceCodec {
    fn create(_metadata: &MetadataV3) -> Result<Codec, PluginCreateError> {
        Ok(Codec::ArrayToArray(Arc::new(Self)))
    }
}
