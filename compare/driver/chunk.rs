//! An open chunk: boxes and byte ranges by zarrs' decoders of parts, and by the rules from its whole decoding.

use std::sync::Arc;

use zarrs_codec::{
    ArrayBytes, ArrayPartialDecoderTraits, ArrayPartialEncoderTraits, ArraySubset, ArrayToBytesCodecTraits,
    BytesPartialDecoderTraits, CodecError, CodecOptions, Indexer, IndexerError, StoredBytes, update_array_bytes,
};
use zarrs_storage::byte_range::ByteRange;

use crate::answer::{Answer, Outcome, caught, outcome};
use crate::chain::Chain;
use crate::codecs::{Form, Over};
use crate::rules::{self, UNEXPLAINED};
use crate::words::{self, Error, Stage};

/// The value of a slot and its capacity.
#[derive(Debug, Clone, Default)]
pub struct Cell {
    pub value: Option<Vec<u8>>,
    pub capacity: usize,
}

impl Cell {
    /// A slot over a buffer that begins with the bytes; the mark says how many of its first bytes are the value.
    pub fn slot(size: usize, mark: Option<usize>, bytes: &[u8]) -> Result<Self, u8> {
        let capacity = size.min(rules::LIMIT);
        if mark.is_some_and(|count| count > capacity) {
            return Err(20);
        }
        let value = mark.map(|count| bytes.iter().copied().chain(std::iter::repeat(0)).take(count).collect());
        Ok(Self { value, capacity })
    }
}

struct Opened {
    boxes: Arc<dyn ArrayPartialDecoderTraits>,
    ranges: Arc<dyn BytesPartialDecoderTraits>,
    options: CodecOptions,
}

/// What a present cell means by the rules.
struct Undone {
    array: Vec<u8>,
    /// The cell with all byte stages undone.
    bytes: Vec<u8>,
    /// The cell undone to the cache place.
    kept: Option<Vec<u8>>,
}

/// What the chunk is by the rules: the refusal of opening, which every later call gives too, or what its cell means, if it is
/// not absent.
type Meaning = Result<Option<Undone>, u8>;

pub struct Chunk {
    chain: Chain,
    stages: Vec<Stage>,
    /// By zarrs, with checks off and on.
    opened: [Result<Opened, Outcome>; 2],
    meaning: Meaning,
    /// The encoded length.
    encoded: usize,
    pub cell: Cell,
}

fn open_by_zarrs(chain: &Chain, cell: &Cell, options: CodecOptions) -> Result<Opened, CodecError> {
    let (codecs, watched) = chain.codecs.watched();
    let form = &chain.form;
    let boxes = Chain::of(codecs, form).chain.partial_decoder(
        Arc::new(StoredBytes::new(cell.value.clone())),
        &form.shape,
        &form.data_type,
        &form.fill_value,
        &options,
    )?;
    let ranges = watched.input_handle().ok_or(CodecError::Other("the bytes stage is not read".to_string()))?;
    Ok(Opened { boxes, ranges, options })
}

fn meaning_by_rules(chain: &Chain, cell: &Cell, encoded: usize) -> Meaning {
    if cell.capacity < encoded {
        return Err(16);
    }
    let Some(value) = &cell.value else {
        return Ok(None);
    };
    if value.len() != encoded {
        return Err(13);
    }
    let singles = chain.codecs.capabilities().len();
    let over = Over::Form(&chain.form);
    let undone = |to| {
        let undone = chain.codecs.undo(value, &over, 0, to, &CodecOptions::new(false));
        undone.expect("bytes of the encoded length are decoded with checks off")
    };
    Ok(Some(Undone {
        array: undone(singles),
        bytes: undone(chain.codecs.bytes_to_bytes.len()),
        kept: chain.place().map(undone),
    }))
}

impl Chunk {
    /// `encoded` is the encoded length.
    pub fn open(chain: Chain, stages: &[Stage], cell: Cell, encoded: usize) -> Self {
        let opened = [false, true].map(|checks| {
            let opened = caught(|| open_by_zarrs(&chain, &cell, CodecOptions::new(checks)));
            opened.and_then(|opened| opened.map_err(|error| Outcome::refused(&error)))
        });
        let meaning = meaning_by_rules(&chain, &cell, encoded);
        Self { chain, stages: stages.to_vec(), opened, meaning, encoded, cell }
    }

    /// Opens it again over another value, since what zarrs' decoders keep is of the value that they were made for.
    fn reopen(&mut self, value: Option<Vec<u8>>) {
        let cell = Cell { value, ..self.cell };
        *self = Self::open(self.chain.clone(), &self.stages, cell, self.encoded);
    }

    /// How many byte stages the chain has.
    fn byte_stages(&self) -> usize {
        self.chain.codecs.bytes_to_bytes.len()
    }

    /// zarrs keeps the array below a transposition with the shape above it.
    fn shape_kept_is_another(&self) -> bool {
        let Some(i) = self.chain.place().and_then(|place| self.stages.len().checked_sub(place + 1)) else {
            return false;
        };
        let mut shape = self.shape();
        for stage in &self.stages[..i] {
            if let Stage::Transpose(order) = stage {
                shape = order.iter().map(|axis| shape[*axis]).collect();
            }
        }
        match &self.stages[i] {
            Stage::Transpose(order) => order.iter().enumerate().any(|(a, axis)| shape[a] != shape[*axis]),
            _ => false,
        }
    }

    /// The class of a difference in any call but a range read.
    fn class(&self) -> &'static str {
        match &self.meaning {
            Err(refusal) => rules::class(*refusal),
            Ok(_) if self.shape_kept_is_another() => "kept-shape",
            Ok(None) if self.stages.contains(&Stage::Difference) => "absent-fill",
            Ok(_) => UNEXPLAINED,
        }
    }

    /// The class of a difference in a range read. zarrs reads the checksum as data where the bytes before it are not kept.
    fn range_class(&self, range: ByteRange) -> &'static str {
        let checksum_last = self.stages.get(self.stages.len() - self.byte_stages()) == Some(&Stage::Fletcher32);
        match range {
            _ if self.meaning.is_err() || self.shape_kept_is_another() => self.class(),
            _ if !checksum_last || self.chain.place() == Some(self.byte_stages()) => UNEXPLAINED,
            ByteRange::Suffix(_) => "last-n",
            ByteRange::FromStart(..) => "range-end",
        }
    }

    /// The answer to opening.
    pub fn answer(&self) -> Answer {
        let done = Outcome::Done(String::new());
        let zarrs = self.by_zarrs(|_| done.clone());
        let ruled = match &self.meaning {
            Ok(_) => done,
            Err(refusal) => Outcome::Refused(*refusal),
        };
        Answer::of(zarrs, ruled, self.class())
    }

    /// What zarrs gives, which with checks off and on must be the same.
    fn by_zarrs(&self, call: impl Fn(&Opened) -> Outcome) -> Outcome {
        let [off, on] = self.opened.each_ref().map(|opened| match opened {
            Ok(opened) => outcome(|| call(opened)),
            Err(refused) => refused.clone(),
        });
        if off == on { off } else { Outcome::Fails(format!("{off} with checks off, {on} with checks on")) }
    }

    /// What is kept. Of what zarrs keeps, only the size is to be seen.
    pub fn kept(&self) -> Answer {
        let (size, ruled) = match (&self.meaning, self.chain.place()) {
            (Err(refusal), _) => (0, Outcome::Refused(*refusal)),
            (Ok(_), None) => (0, Outcome::Done("none".to_string())),
            (Ok(None), Some(_)) => (0, Outcome::Done("absent".to_string())),
            (Ok(Some(undone)), Some(_)) => {
                let kept = undone.kept.as_deref().unwrap_or_default();
                (kept.len(), Outcome::bytes(kept))
            }
        };
        let zarrs = self.by_zarrs(|opened| match (opened.boxes.size_held(), opened.boxes.exists()) {
            (held, Ok(exists)) if held == size && exists == self.cell.value.is_some() && self.meaning.is_ok() => {
                ruled.clone()
            }
            (held, Ok(exists)) => Outcome::Done(format!("holding {held} bytes, exists {exists}")),
            (_, Err(error)) => Outcome::refused(&error.into()),
        });
        let class = match &self.meaning {
            Ok(None) if !self.shape_kept_is_another() => "absent-kept",
            _ => self.class(),
        };
        Answer::of(zarrs, ruled, class)
    }

    pub fn box_read(&self, start: &[u64], lengths: &[u64]) -> Answer {
        let subset = ArraySubset::new_with_start_shape(start.to_vec(), lengths.to_vec());
        let zarrs = self.by_zarrs(|opened| {
            let subset = match &subset {
                Ok(subset) => subset,
                Err(error) => return Outcome::refused(&error.clone().into()),
            };
            let part = opened.boxes.partial_decode(subset, &opened.options);
            Outcome::of(part.and_then(|part| Ok(part.into_fixed()?.into_owned())))
        });
        let ruled = match self.array_with(&subset) {
            Err(refusal) => Outcome::Refused(refusal),
            Ok((array, subset)) => {
                let part = array.extract_array_subset(subset, &self.shape(), &self.chain.form.data_type);
                Outcome::of(part.and_then(|part| Ok(part.into_fixed()?.into_owned())))
            }
        };
        Answer::of(zarrs, ruled, self.class())
    }

    fn shape(&self) -> Vec<u64> {
        self.chain.form.shape.iter().map(|length| length.get()).collect()
    }

    /// The array by the rules and the box, if it is one of it.
    fn array_with<'a>(
        &self,
        subset: &'a Result<ArraySubset, IndexerError>,
    ) -> Result<(ArrayBytes<'static>, &'a ArraySubset), u8> {
        let meaning = self.meaning.as_ref().map_err(|refusal| *refusal)?;
        let subset = subset.as_ref().ok().filter(|subset| subset.is_within(&self.shape())).ok_or(17)?;
        let array = meaning.as_ref().map_or_else(|| self.chain.fill(), |undone| undone.array.clone());
        Ok((ArrayBytes::from(array), subset))
    }

    /// Writes a box.
    pub fn write(&mut self, start: &[u64], lengths: &[u64], data: &[u8]) -> Result<Answer, Error> {
        let subset = ArraySubset::new_with_start_shape(start.to_vec(), lengths.to_vec());
        let data = ArrayBytes::from(data.to_vec());
        let (zarrs, stored) = self.change(|encoder, options| {
            let subset = subset.as_ref().map_err(IndexerError::clone)?;
            encoder.partial_encode(subset, &data, options)
        })?;
        let ruled = self.array_with(&subset).and_then(|(array, subset)| {
            let data_type = &self.chain.form.data_type;
            data.validate(subset.len(), data_type).map_err(|_| 13)?;
            let written = update_array_bytes(array, &self.shape(), subset, &data, data_type.size());
            Ok(Some(written.and_then(ArrayBytes::into_fixed).expect("a box and its data").into_owned()))
        });
        Ok(self.changed(zarrs, stored, ruled))
    }

    pub fn erase(&mut self) -> Result<Answer, Error> {
        let (zarrs, stored) = self.change(|encoder, _| encoder.erase())?;
        let ruled = self.meaning.as_ref().map(|_| None).map_err(|refusal| *refusal);
        Ok(self.changed(zarrs, stored, ruled))
    }

    /// What a call of zarrs' encoder of parts gives, and the value that it leaves. Of the codecs, only the bytes codec has such
    /// an encoder here.
    fn change(
        &self,
        call: impl FnOnce(&dyn ArrayPartialEncoderTraits, &CodecOptions) -> Result<(), CodecError>,
    ) -> Result<(Outcome, Option<Vec<u8>>), Error> {
        if self.stages.len() > 1 {
            return Err("one of these codecs has no encoder of parts here");
        }
        let stored = Arc::new(StoredBytes::new(self.cell.value.clone()));
        let options = CodecOptions::new(true);
        let Form { shape, data_type, fill_value, .. } = &self.chain.form;
        let chain = self.chain.chain.clone();
        let encoder = chain.partial_encoder(stored.clone(), shape, data_type, fill_value, &options);
        let outcome = outcome(|| match encoder.and_then(|encoder| call(&*encoder, &options)) {
            Ok(()) => Outcome::Done(String::new()),
            Err(error) => Outcome::refused(&error),
        });
        Ok((outcome, stored.value()))
    }

    /// The answer to a change that by the rules is refused or leaves an array or nothing. The value that zarrs leaves is told
    /// where it is another.
    fn changed(&mut self, zarrs: Outcome, stored: Option<Vec<u8>>, ruled: Result<Option<Vec<u8>>, u8>) -> Answer {
        let value = match &ruled {
            Ok(None) => None,
            Ok(Some(array)) => {
                let over = Over::Form(&self.chain.form);
                let encoded = self.chain.codecs.encode(array, &over, &CodecOptions::new(true));
                Some(encoded.expect("an array of the form"))
            }
            Err(_) => self.cell.value.clone(),
        };
        let storing = || stored.as_deref().map_or("nothing".to_string(), words::hex);
        let zarrs = match zarrs {
            zarrs if stored == value => zarrs,
            Outcome::Done(_) => Outcome::Done(format!("storing {}", storing())),
            refused => Outcome::Fails(format!("{refused}, but storing {}", storing())),
        };
        let class = if self.meaning.is_ok() && ruled == Err(13) { "write-length" } else { self.class() };
        let ruled = ruled.map_or_else(Outcome::Refused, |_| Outcome::Done(String::new()));
        if value != self.cell.value {
            self.reopen(value);
        }
        Answer::of(zarrs, ruled, class)
    }

    pub fn range_read(&self, range: ByteRange) -> Answer {
        let zarrs = self.by_zarrs(|opened| match opened.ranges.partial_decode(range, &opened.options) {
            Ok(Some(part)) => Outcome::bytes(&part),
            Ok(None) => Outcome::Refused(19),
            Err(error) => Outcome::refused(&error),
        });
        let ruled = match &self.meaning {
            Err(refusal) => Outcome::Refused(*refusal),
            Ok(None) => Outcome::Refused(19),
            Ok(Some(Undone { bytes, .. })) => match range.of(bytes.len()) {
                Ok(part) => Outcome::bytes(&bytes[part]),
                Err(_) => Outcome::Refused(18),
            },
        };
        Answer::of(zarrs, ruled, self.range_class(range))
    }
}
