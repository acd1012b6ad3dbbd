//! zarrs' codecs for the stages of a command, one by one.

use std::any::Any;
use std::borrow::Cow;
use std::fmt;
use std::num::NonZeroU64;
use std::sync::{Arc, Mutex};

use zarrs::array::codec::array_to_array::difference::DifferenceCodec;
use zarrs::array::codec::array_to_array::transpose::TransposeCodec;
use zarrs::array::codec::array_to_bytes::bytes::BytesCodec;
use zarrs::array::codec::bytes_to_bytes::fletcher32::Fletcher32Codec;
use zarrs::array::codec::bytes_to_bytes::shuffle::ShuffleCodec;
use zarrs_codec::{
    ArrayBytes, ArrayCodecTraits, ArrayPartialDecoderTraits, ArrayToArrayCodecTraits, ArrayToBytesCodecTraits,
    BytesPartialDecoderTraits, BytesRepresentation, BytesToBytesCodecTraits, ChunkShape, Codec, CodecError,
    CodecOptions, CodecTraits, DataType, FillValue, PartialDecoderCapability, register,
};
use zarrs_metadata::Configuration;
use zarrs_metadata::v3::MetadataV3;
use zarrs_plugin::{ExtensionName, PluginCreateError, ZarrVersion};

use crate::fletcher32_padded::Fletcher32Padded;
use crate::words::Stage;

pub fn register_all() {
    register::<TransposeCodec>("transpose");
    register::<DifferenceCodec>("difference");
    register::<BytesCodec>("bytes");
    register::<ShuffleCodec>("numcodecs.shuffle");
    register::<Fletcher32Codec>("numcodecs.fletcher32");
}

/// A form: what an array is.
#[derive(Debug, Clone)]
pub struct Form {
    pub shape: ChunkShape,
    pub data_type: DataType,
    pub fill_value: FillValue,
    /// Of an element, in bytes.
    pub size: usize,
    /// Of the array.
    pub bytes: usize,
}

pub fn metadata(stage: &Stage) -> MetadataV3 {
    let (name, configuration) = match stage {
        Stage::Transpose(order) => {
            let order: Vec<String> = order.iter().map(usize::to_string).collect();
            ("transpose", vec![("order", order.join(","))])
        }
        Stage::Difference => ("difference", vec![]),
        Stage::Bytes(None) => ("bytes", vec![]),
        Stage::Bytes(Some(false)) => ("bytes", vec![("endian", "little".to_string())]),
        Stage::Bytes(Some(true)) => ("bytes", vec![("endian", "big".to_string())]),
        Stage::Shuffle(element) => ("numcodecs.shuffle", vec![("elementsize", element.to_string())]),
        Stage::Fletcher32 => ("numcodecs.fletcher32", vec![]),
    };
    MetadataV3::new_with_configuration(name.to_string(), Configuration(configuration))
}

/// The codecs of a run or a chain, by kind and each in encode order.
#[derive(Debug, Clone, Default)]
pub struct Codecs {
    pub array_to_array: Vec<Arc<dyn ArrayToArrayCodecTraits>>,
    pub array_to_bytes: Option<Arc<dyn ArrayToBytesCodecTraits>>,
    pub bytes_to_bytes: Vec<Arc<dyn BytesToBytesCodecTraits>>,
}

/// The decoded length or the form, whichever the stages are over.
pub enum Over<'a> {
    Length(usize),
    Form(&'a Form),
}

impl Codecs {
    pub fn new(stages: &[Stage]) -> Result<Self, PluginCreateError> {
        let mut codecs = Self::default();
        for stage in stages {
            match Codec::from_metadata(&metadata(stage))? {
                Codec::ArrayToArray(codec) => codecs.array_to_array.push(codec),
                Codec::ArrayToBytes(codec) => codecs.array_to_bytes = Some(codec),
                Codec::BytesToBytes(codec) => codecs.bytes_to_bytes.push(codec),
            }
        }
        Ok(codecs)
    }

    /// The same with a checksum that takes a last odd byte.
    pub fn padded(&self) -> Self {
        let mut padded = self.clone();
        for codec in &mut padded.bytes_to_bytes {
            if codec.as_any().is::<Fletcher32Codec>() {
                *codec = Arc::new(Fletcher32Padded::default());
            }
        }
        padded
    }

    /// The same with a bytes stage that lends the bytes that it reads.
    pub fn watched(&self) -> (Self, Arc<Watched>) {
        let codec = self.array_to_bytes.clone().expect("a chain has a bytes stage");
        let watched = Arc::new(Watched { codec, input_handle: Mutex::default() });
        (Self { array_to_bytes: Some(watched.clone()), ..self.clone() }, watched)
    }

    fn count(&self) -> usize {
        self.array_to_array.len() + usize::from(self.array_to_bytes.is_some()) + self.bytes_to_bytes.len()
    }

    /// In decode order.
    pub fn capabilities(&self) -> Vec<PartialDecoderCapability> {
        let bytes = self.bytes_to_bytes.iter().rev().map(|codec| codec.partial_decoder_capability());
        let middle = self.array_to_bytes.iter().map(|codec| codec.partial_decoder_capability());
        let arrays = self.array_to_array.iter().rev().map(|codec| codec.partial_decoder_capability());
        bytes.chain(middle).chain(arrays).collect()
    }

    /// The form before each array codec and after the last, in encode order.
    fn forms(&self, form: &Form) -> Result<Vec<(ChunkShape, DataType, FillValue)>, CodecError> {
        let mut forms = vec![(form.shape.clone(), form.data_type.clone(), form.fill_value.clone())];
        for codec in &self.array_to_array {
            let (shape, data_type, fill_value) = forms.last().expect("the first is there");
            forms.push(codec.encoded_representation(shape, data_type, fill_value)?);
        }
        Ok(forms)
    }

    /// The length before each byte codec and after the last, in encode order.
    fn representations(&self, over: &Over) -> Result<Vec<BytesRepresentation>, CodecError> {
        let decoded = match over {
            Over::Length(length) => BytesRepresentation::FixedSize(*length as u64),
            Over::Form(form) => {
                let forms = self.forms(form)?;
                let (shape, data_type, fill_value) = forms.last().expect("the first is there");
                match &self.array_to_bytes {
                    Some(codec) => codec.encoded_representation(shape, data_type, fill_value)?,
                    None => BytesRepresentation::FixedSize(form.bytes as u64),
                }
            }
        };
        let mut representations = vec![decoded];
        for codec in &self.bytes_to_bytes {
            representations.push(codec.encoded_representation(representations.last().expect("the first is there")));
        }
        Ok(representations)
    }

    /// The length at every place, place 0 first.
    pub fn lengths(&self, over: &Over) -> Result<Vec<u64>, CodecError> {
        let fixed = |representation: BytesRepresentation| match representation {
            BytesRepresentation::FixedSize(size) => Ok(size),
            other => Err(CodecError::Other(format!("{other:?}"))),
        };
        let mut lengths: Vec<u64> =
            self.representations(over)?.into_iter().rev().map(fixed).collect::<Result<_, _>>()?;
        if let Over::Form(form) = over {
            lengths.resize(self.count() + 1, form.bytes as u64);
        }
        Ok(lengths)
    }

    /// One codec after another.
    pub fn encode(&self, bytes: &[u8], over: &Over, options: &CodecOptions) -> Result<Vec<u8>, CodecError> {
        let mut raw = Cow::Borrowed(bytes);
        if let Over::Form(form) = over {
            let mut array = ArrayBytes::from(raw);
            let forms = self.forms(form)?;
            for (codec, (shape, data_type, fill_value)) in self.array_to_array.iter().zip(&forms) {
                array = codec.encode(array, shape, data_type, fill_value, options)?;
            }
            let (shape, data_type, fill_value) = forms.last().expect("the first is there");
            raw = match &self.array_to_bytes {
                Some(codec) => codec.encode(array, shape, data_type, fill_value, options)?,
                None => array.into_fixed()?,
            };
        }
        for codec in &self.bytes_to_bytes {
            raw = codec.encode(raw, options)?;
        }
        Ok(raw.into_owned())
    }

    /// Decodes from place to place, one codec after another. An error comes with the single that gives it.
    pub fn undo(
        &self,
        bytes: &[u8],
        over: &Over,
        from: usize,
        to: usize,
        options: &CodecOptions,
    ) -> Result<Vec<u8>, (usize, CodecError)> {
        let undo_one = |raw, single| self.undo_one(raw, over, single, options).map_err(|error| (single, error));
        (from..to).try_fold(bytes.to_vec(), undo_one)
    }

    fn undo_one(
        &self,
        raw: Vec<u8>,
        over: &Over,
        single: usize,
        options: &CodecOptions,
    ) -> Result<Vec<u8>, CodecError> {
        let raw = Cow::Owned(raw);
        if let Some(i) = self.bytes_to_bytes.len().checked_sub(single + 1) {
            let representation = self.representations(over)?[i];
            return Ok(self.bytes_to_bytes[i].decode(raw, &representation, options)?.into_owned());
        }
        let Over::Form(form) = over else {
            return Err(CodecError::Other("no form".to_string()));
        };
        let i = self.count() - 1 - single;
        let (shape, data_type, fill_value) = &self.forms(form)?[i];
        let decoded = match self.array_to_array.get(i) {
            Some(codec) => codec.decode(ArrayBytes::from(raw), shape, data_type, fill_value, options)?,
            None => {
                let codec = self.array_to_bytes.as_ref().expect("this single is that of the bytes stage");
                codec.decode(raw, shape, data_type, fill_value, options)?
            }
        };
        Ok(decoded.into_fixed()?.into_owned())
    }
}

/// A bytes stage that keeps the decoder of the bytes that it reads, which are those with all byte stages undone. It is asked for
/// parts alone.
pub struct Watched {
    codec: Arc<dyn ArrayToBytesCodecTraits>,
    input_handle: Mutex<Option<Arc<dyn BytesPartialDecoderTraits>>>,
}

impl Watched {
    pub fn input_handle(&self) -> Option<Arc<dyn BytesPartialDecoderTraits>> {
        self.input_handle.lock().expect("no holder fails").clone()
    }
}

impl fmt::Debug for Watched {
    fn fmt(&self, out: &mut fmt::Formatter<'_>) -> fmt::Result {
        self.codec.fmt(out)
    }
}

impl ExtensionName for Watched {
    fn name(&self, version: ZarrVersion) -> Option<Cow<'static, str>> {
        self.codec.name(version)
    }
}

impl CodecTraits for Watched {
    fn as_any(&self) -> &dyn Any {
        self
    }

    fn partial_decoder_capability(&self) -> PartialDecoderCapability {
        self.codec.partial_decoder_capability()
    }
}

impl ArrayCodecTraits for Watched {}

impl ArrayToBytesCodecTraits for Watched {
    fn into_dyn(self: Arc<Self>) -> Arc<dyn ArrayToBytesCodecTraits> {
        self
    }

    fn encoded_representation(
        &self,
        shape: &[NonZeroU64],
        data_type: &DataType,
        fill_value: &FillValue,
    ) -> Result<BytesRepresentation, CodecError> {
        self.codec.encoded_representation(shape, data_type, fill_value)
    }

    fn partial_decoder(
        self: Arc<Self>,
        input_handle: Arc<dyn BytesPartialDecoderTraits>,
        shape: &[NonZeroU64],
        data_type: &DataType,
        fill_value: &FillValue,
        options: &CodecOptions,
    ) -> Result<Arc<dyn ArrayPartialDecoderTraits>, CodecError> {
        *self.input_handle.lock().expect("no holder fails") = Some(input_handle.clone());
        self.codec.clone().partial_decoder(input_handle, shape, data_type, fill_value, options)
    }
}
