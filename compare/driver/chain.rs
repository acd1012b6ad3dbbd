//! zarrs' chain over a form: its whole calls.

use std::borrow::Cow;
use std::sync::Arc;

use zarrs::array::codec::array_to_bytes::codec_chain::CodecChain;
use zarrs_codec::{
    ArrayBytes, ArrayBytesDecodeIntoTarget, ArrayToBytesCodecTraits, BytesRepresentation, ChunkShapeTraits, CodecError,
    CodecOptions,
};
use zarrs_metadata::v3::MetadataV3;

use crate::answer::{Outcome, caught, outcome};
use crate::codecs::{self, Codecs, Form, Over};
use crate::words::Stage;

#[derive(Clone)]
pub struct Chain {
    pub chain: Arc<CodecChain>,
    pub codecs: Codecs,
    pub form: Form,
}

/// zarrs' chain of the stages, made from their names as zarrs makes one from an array's metadata.
pub fn from_stages(stages: &[Stage]) -> Result<CodecChain, Outcome> {
    let metadata: Vec<MetadataV3> = stages.iter().map(codecs::metadata).collect();
    CodecChain::from_metadata(&metadata).map_err(|error| match error.to_string().as_str() {
        "multiple array to bytes codecs" | "missing array to bytes codec" => Outcome::Refused(5),
        "the order is no permutation" => Outcome::Refused(7),
        text => Outcome::Fails(text.to_string()),
    })
}

/// The cache place, which a chain shows only in its debug output.
pub fn cache_index(chain: &CodecChain) -> Option<usize> {
    let shown = format!("{chain:?}");
    let (_, place) = shown.rsplit_once("cache_index: ").expect("the field is shown");
    let digits: String = place.chars().filter(char::is_ascii_digit).collect();
    digits.parse().ok()
}

impl Chain {
    pub fn new(chain: CodecChain, form: &Form) -> Self {
        let codecs = Codecs {
            array_to_array: chain.array_to_array_codecs().to_vec(),
            array_to_bytes: Some(chain.array_to_bytes_codec().clone()),
            bytes_to_bytes: chain.bytes_to_bytes_codecs().to_vec(),
        };
        Self { chain: Arc::new(chain), codecs, form: form.clone() }
    }

    pub fn of(codecs: Codecs, form: &Form) -> Self {
        let chain = CodecChain::new(
            codecs.array_to_array.clone(),
            codecs.array_to_bytes.clone().expect("a chain has a bytes stage"),
            codecs.bytes_to_bytes.clone(),
        );
        Self { chain: Arc::new(chain), codecs, form: form.clone() }
    }

    pub fn place(&self) -> Option<usize> {
        cache_index(&self.chain)
    }

    fn encoded_length(&self) -> Result<u64, CodecError> {
        let form = &self.form;
        match self.chain.encoded_representation(&form.shape, &form.data_type, &form.fill_value)? {
            BytesRepresentation::FixedSize(size) => Ok(size),
            other => Err(CodecError::Other(format!("{other:?}"))),
        }
    }

    pub fn fill(&self) -> Vec<u8> {
        self.form.fill_value.as_bytes().repeat(self.form.bytes / self.form.size)
    }

    /// The cache place and the encoded length, and if the chain can encode nothing, with what it refuses the fill array.
    pub fn fitted(&self) -> Outcome {
        let length = match self.encoded_length() {
            Ok(length) => length,
            Err(error) => return Outcome::refused(&error),
        };
        let place = self.place().map_or("none".to_string(), |place| place.to_string());
        let fitted = Outcome::Done(format!("{place} {length}"));
        match outcome(|| self.encode(&self.fill())) {
            Outcome::Done(_) => fitted,
            refused => fitted.but("encode", refused),
        }
    }

    pub fn encode(&self, bytes: &[u8]) -> Outcome {
        let Form { shape, data_type, fill_value, .. } = &self.form;
        let bytes = ArrayBytes::from(bytes.to_vec());
        Outcome::of(
            self.chain
                .encode(bytes, shape, data_type, fill_value, &CodecOptions::new(true))
                .map(|bytes| bytes.into_owned()),
        )
    }

    /// Both decodings of zarrs, into a new array and into one of the caller's, which must be the same.
    pub fn decode(&self, bytes: &[u8], options: &CodecOptions) -> Outcome {
        let Form { shape, data_type, fill_value, .. } = &self.form;
        let decoded = self
            .chain
            .decode(Cow::Borrowed(bytes), shape, data_type, fill_value, options)
            .and_then(|array| Ok(array.into_fixed()?.into_owned()));
        let length = shape.num_elements_u64() as usize * self.form.size;
        let mut target = vec![0xee; length];
        let into = self.chain.decode_into(
            Cow::Borrowed(bytes),
            shape,
            data_type,
            fill_value,
            ArrayBytesDecodeIntoTarget(&mut target),
            options,
        );
        match (decoded, into) {
            (Ok(bytes), Ok(())) if bytes == target => Outcome::bytes(&bytes),
            (Err(CodecError::InvalidChecksum), Err(CodecError::InvalidChecksum)) => {
                let over = Over::Form(&self.form);
                Outcome::undone(self.codecs.undo(bytes, &over, 0, self.codecs.capabilities().len(), options))
            }
            (Err(error), Err(into)) if error.to_string() == into.to_string() => Outcome::refused(&error),
            (decoded, into) => Outcome::Fails(format!("decode {decoded:?} and decode_into {into:?}")),
        }
    }
}

/// Whether zarrs makes the chain at all, and what it says of it.
pub fn made(stages: &[Stage], form: &Form) -> Result<Chain, Outcome> {
    caught(|| from_stages(stages))?.map(|chain| Chain::new(chain, form))
}
