//! The bytes of an array: its elements in C order, each least byte first.

use std::borrow::Cow;

use crate::{ArraySubset, CodecError, DataType, DataTypeSize, FillValue, Indexer};

pub type ArrayBytesRaw<'a> = Cow<'a, [u8]>;

#[derive(Debug, Clone, PartialEq, Eq)]
pub struct ArrayBytes<'a>(ArrayBytesRaw<'a>);

impl<'a> From<ArrayBytesRaw<'a>> for ArrayBytes<'a> {
    fn from(bytes: ArrayBytesRaw<'a>) -> Self {
        Self(bytes)
    }
}

impl From<Vec<u8>> for ArrayBytes<'_> {
    fn from(bytes: Vec<u8>) -> Self {
        Self(Cow::Owned(bytes))
    }
}

impl<'a> ArrayBytes<'a> {
    /// The array with the fill value for each of its elements.
    pub fn new_fill_value(data_type: &DataType, elements: u64, fill_value: &FillValue) -> Result<Self, CodecError> {
        if data_type.fixed_size() != Some(fill_value.as_bytes().len()) {
            return Err(CodecError::FillValue);
        }
        let elements = usize::try_from(elements).map_err(|_| CodecError::ArrayLength)?;
        Ok(Self::from(fill_value.as_bytes().repeat(elements)))
    }

    /// Whether the bytes have the length of that many elements.
    pub fn validate(&self, elements: u64, data_type: &DataType) -> Result<(), CodecError> {
        let size = data_type.fixed_size().ok_or(CodecError::ArrayLength)?;
        if elements.checked_mul(size as u64) == Some(self.0.len() as u64) {
            Ok(())
        } else {
            Err(CodecError::ArrayLength)
        }
    }

    pub fn into_fixed(self) -> Result<ArrayBytesRaw<'a>, CodecError> {
        Ok(self.0)
    }

    pub fn into_owned(self) -> ArrayBytes<'static> {
        ArrayBytes(Cow::Owned(self.0.into_owned()))
    }

    pub fn size(&self) -> usize {
        self.0.len()
    }

    /// The elements of a box of this array, in C order.
    pub fn extract_array_subset(
        &self,
        indexer: &dyn Indexer,
        array_shape: &[u64],
        data_type: &DataType,
    ) -> Result<ArrayBytes<'static>, CodecError> {
        let size = data_type.fixed_size().ok_or(CodecError::ArrayLength)?;
        let mut extracted = Vec::new();
        for range in indexer.iter_contiguous_byte_ranges(array_shape, size)? {
            let part = self.0.get(range.start as usize..range.end as usize);
            extracted.extend_from_slice(part.ok_or(CodecError::ArrayLength)?);
        }
        Ok(ArrayBytes::from(extracted))
    }
}

/// The array with the elements of a box replaced.
pub fn update_array_bytes<'a>(
    bytes: ArrayBytes<'a>,
    shape: &[u64],
    indexer: &dyn Indexer,
    update: &ArrayBytes<'_>,
    size: DataTypeSize,
) -> Result<ArrayBytes<'a>, CodecError> {
    let DataTypeSize::Fixed(size) = size else {
        return Err(CodecError::ArrayLength);
    };
    let mut updated = bytes.0.into_owned();
    let mut rest: &[u8] = &update.0;
    for range in indexer.iter_contiguous_byte_ranges(shape, size)? {
        let row = updated.get_mut(range.start as usize..range.end as usize).ok_or(CodecError::ArrayLength)?;
        let (part, later) = rest.split_at_checked(row.len()).ok_or(CodecError::ArrayLength)?;
        row.copy_from_slice(part);
        rest = later;
    }
    if rest.is_empty() { Ok(ArrayBytes::from(updated)) } else { Err(CodecError::ArrayLength) }
}

/// A whole array that bytes are decoded into.
pub struct ArrayBytesDecodeIntoTarget<'a>(pub &'a mut [u8]);

pub fn decode_into_array_bytes_target(
    bytes: &ArrayBytes<'_>,
    target: ArrayBytesDecodeIntoTarget<'_>,
) -> Result<(), CodecError> {
    if bytes.0.len() != target.0.len() {
        return Err(CodecError::ArrayLength);
    }
    target.0.copy_from_slice(&bytes.0);
    Ok(())
}

/// The whole of an array of the shape, as a box of it.
pub(crate) fn whole(shape: &[std::num::NonZeroU64]) -> ArraySubset {
    ArraySubset::new_with_shape(shape.iter().map(|length| length.get()).collect())
}
