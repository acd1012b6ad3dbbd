//! Stands in for zarrs' transposition, with the meaning that Zarr v3 gives it: the new length of axis a is the old length of
//! axis order[a], and so with each element's index. An order has one to four axes, as shapes have here.

use std::any::Any;
use std::num::NonZeroU64;
use std::sync::Arc;

use zarrs_codec::{
    ArrayBytes, ArrayCodecTraits, ArrayPartialDecoderTraits, ArraySubset, ArrayToArrayCodecTraits, ChunkShape, Codec,
    CodecError, CodecOptions, CodecTraits, CodecTraitsV3, DataType, FillValue, Indexer, IndexerError,
    PartialDecoderCapability,
};
use zarrs_metadata::Configuration;
use zarrs_metadata::v3::MetadataV3;
use zarrs_plugin::PluginCreateError;
use zarrs_storage::StorageError;

#[derive(Debug, Clone)]
pub struct TransposeCodec {
    order: Vec<usize>,
}

zarrs_plugin::impl_extension_aliases!(TransposeCodec, v3: "transpose", v2: "transpose");

impl TransposeCodec {
    /// The order must be a permutation of one to four axes.
    pub fn new(order: Vec<usize>) -> Result<Self, PluginCreateError> {
        if (1..=4).contains(&order.len()) && (0..order.len()).all(|axis| order.contains(&axis)) {
            Ok(Self { order })
        } else {
            Err(PluginCreateError::from("the order is no permutation"))
        }
    }

    fn turned<T: Copy>(&self, values: &[T]) -> Result<Vec<T>, CodecError> {
        if values.len() != self.order.len() {
            return Err(CodecError::Dimensions);
        }
        Ok(self.order.iter().map(|axis| values[*axis]).collect())
    }
}

/// Where the element with the index lies in an array of the shape, in C order.
fn position(index: &[u64], shape: &[u64]) -> usize {
    index.iter().zip(shape).fold(0, |position, (i, length)| position * length + i) as usize
}

/// All indices of the shape in C order.
fn indices(shape: &[u64]) -> Vec<Vec<u64>> {
    shape.iter().fold(vec![vec![]], |indices, length| {
        indices.iter().flat_map(|index| (0..*length).map(move |i| [index.as_slice(), &[i]].concat())).collect()
    })
}

fn numbers(shape: &[NonZeroU64]) -> Vec<u64> {
    shape.iter().map(|length| length.get()).collect()
}

/// For each element of an array of the shape, in C order, its position there and after the transposition.
fn moves(codec: &TransposeCodec, shape: &[u64]) -> Result<Vec<(usize, usize)>, CodecError> {
    let turned_shape = codec.turned(shape)?;
    let moved = |index: Vec<u64>| Ok((position(&index, shape), position(&codec.turned(&index)?, &turned_shape)));
    indices(shape).into_iter().map(moved).collect()
}

fn element_size(data_type: &DataType) -> Result<usize, CodecError> {
    data_type.fixed_size().ok_or(CodecError::ArrayLength)
}

/// Moves elements from the first position of each pair to the second.
fn gathered(bytes: &[u8], size: usize, moves: impl Iterator<Item = (usize, usize)>) -> Vec<u8> {
    let mut gathered = vec![0; bytes.len()];
    for (from, to) in moves {
        gathered[to * size..][..size].copy_from_slice(&bytes[from * size..][..size]);
    }
    gathered
}

fn decoded(codec: &TransposeCodec, bytes: &[u8], shape: &[u64], data_type: &DataType) -> Result<Vec<u8>, CodecError> {
    let moves = moves(codec, shape)?;
    Ok(gathered(bytes, element_size(data_type)?, moves.into_iter().map(|(before, after)| (after, before))))
}

impl CodecTraits for TransposeCodec {
    fn as_any(&self) -> &dyn Any {
        self
    }

    fn partial_decoder_capability(&self) -> PartialDecoderCapability {
        PartialDecoderCapability { partial_read: true, partial_decode: true }
    }
}

impl ArrayCodecTraits for TransposeCodec {}

impl ArrayToArrayCodecTraits for TransposeCodec {
    fn into_dyn(self: Arc<Self>) -> Arc<dyn ArrayToArrayCodecTraits> {
        self
    }

    fn encoded_shape(&self, shape: &[NonZeroU64]) -> Result<ChunkShape, CodecError> {
        self.turned(shape)
    }

    fn encode<'a>(
        &self,
        bytes: ArrayBytes<'a>,
        shape: &[NonZeroU64],
        data_type: &DataType,
        _fill_value: &FillValue,
        _options: &CodecOptions,
    ) -> Result<ArrayBytes<'a>, CodecError> {
        let shape = numbers(shape);
        bytes.validate(shape.iter().product(), data_type)?;
        let moves = moves(self, &shape)?;
        let encoded = gathered(&bytes.into_fixed()?, element_size(data_type)?, moves.into_iter());
        Ok(ArrayBytes::from(encoded))
    }

    fn decode<'a>(
        &self,
        bytes: ArrayBytes<'a>,
        shape: &[NonZeroU64],
        data_type: &DataType,
        _fill_value: &FillValue,
        _options: &CodecOptions,
    ) -> Result<ArrayBytes<'a>, CodecError> {
        let shape = numbers(shape);
        bytes.validate(shape.iter().product(), data_type)?;
        Ok(ArrayBytes::from(decoded(self, &bytes.into_fixed()?, &shape, data_type)?))
    }

    fn partial_decoder(
        self: Arc<Self>,
        input_handle: Arc<dyn ArrayPartialDecoderTraits>,
        shape: &[NonZeroU64],
        data_type: &DataType,
        _fill_value: &FillValue,
        _options: &CodecOptions,
    ) -> Result<Arc<dyn ArrayPartialDecoderTraits>, CodecError> {
        Ok(Arc::new(TransposePartialDecoder {
            input_handle,
            codec: self,
            dimensions: shape.len(),
            data_type: data_type.clone(),
        }))
    }
}

/// A box before the transposition is the turned box after it.
struct TransposePartialDecoder {
    input_handle: Arc<dyn ArrayPartialDecoderTraits>,
    codec: Arc<TransposeCodec>,
    dimensions: usize,
    data_type: DataType,
}

impl ArrayPartialDecoderTraits for TransposePartialDecoder {
    fn data_type(&self) -> &DataType {
        &self.data_type
    }

    fn exists(&self) -> Result<bool, StorageError> {
        self.input_handle.exists()
    }

    fn size_held(&self) -> usize {
        self.input_handle.size_held()
    }

    fn partial_decode(&self, indexer: &dyn Indexer, options: &CodecOptions) -> Result<ArrayBytes<'_>, CodecError> {
        if indexer.dimensionality() != self.dimensions {
            return Err(IndexerError::Dimensionality(indexer.dimensionality(), self.dimensions).into());
        }
        let subset = indexer.as_subset();
        let turned =
            ArraySubset::new_with_start_shape(self.codec.turned(subset.start())?, self.codec.turned(subset.shape())?)?;
        let bytes = self.input_handle.partial_decode(&turned, options)?.into_fixed()?;
        Ok(ArrayBytes::from(decoded(&self.codec, &bytes, subset.shape(), &self.data_type)?))
    }

    fn supports_partial_decode(&self) -> bool {
        self.input_handle.supports_partial_decode()
    }
}

impl CodecTraitsV3 for TransposeCodec {
    fn create(metadata: &MetadataV3) -> Result<Codec, PluginCreateError> {
        let configuration: Order = metadata.to_typed_configuration()?;
        Ok(Codec::ArrayToArray(Arc::new(Self::new(configuration.0)?)))
    }
}

struct Order(Vec<usize>);

impl zarrs_metadata::TypedConfiguration for Order {
    fn read(configuration: &Configuration) -> Result<Self, PluginCreateError> {
        let order = configuration.get("order").unwrap_or_default();
        let axes: Result<Vec<usize>, _> = order.split(',').filter(|axis| !axis.is_empty()).map(str::parse).collect();
        axes.map(Self).map_err(|_| PluginCreateError::from("the order is no list of axes"))
    }
}
