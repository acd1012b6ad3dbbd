//! What the commands so far have left, and the answer to the next.

use std::borrow::Cow;
use std::num::NonZeroU64;

use zarrs::array::codec::array_to_bytes::bytes::BytesCodec;
use zarrs::array::codec::bytes_to_bytes::fletcher32::Fletcher32Codec;
use zarrs_codec::{
    ArrayBytes, ArrayToBytesCodecTraits, BytesRepresentation, BytesToBytesCodecTraits, ChunkShape, CodecOptions,
    DataType, FillValue,
};
use zarrs_storage::byte_range::ByteRange;

use crate::answer::{Answer, Outcome, outcome};
use crate::chain::{self, Chain};
use crate::chunk::{Cell, Chunk};
use crate::codecs::{Codecs, Form, Over};
use crate::fletcher32_padded::Fletcher32Padded;
use crate::rules;
use crate::singles;
use crate::words::{self, Error, Stage};

/// The class of the last odd byte that is not summed.
const ODD_BYTE: &str = "odd-byte";

/// The class of products and sums that pass 64 bits.
const OVERFLOW: &str = "overflow";

const NO_CHUNK: Error = "no chunk is open";

/// The stages of a run or a chain; of a chain, also zarrs' chain and the form that it is fitted to.
#[derive(Clone)]
struct Stages {
    stages: Vec<Stage>,
    codecs: Codecs,
    chain: Option<Chain>,
}

#[derive(Default)]
pub struct Session {
    form: Option<Form>,
    stages: Option<Stages>,
    cell: Option<Cell>,
    chunk: Option<Chunk>,
}

impl Session {
    /// The answer to a line, as text.
    pub fn answer(&mut self, line: &str) -> String {
        match self.command(line) {
            Ok(answer) => answer.to_string(),
            Err(error) => format!("error: {error}"),
        }
    }

    pub fn command(&mut self, line: &str) -> Result<Answer, Error> {
        let line: Vec<&str> = line.split_ascii_whitespace().collect();
        match line.as_slice() {
            ["form", shape, data_type, fill] => self.form(shape, data_type, fill),
            ["stages", stages] => self.run(words::stages(stages)?),
            ["chain", stages] => self.chain(words::stages(stages)?),
            ["singles"] => Ok(self.singles()?),
            ["lengths", length] => self.lengths(length),
            ["encode", bytes] => self.encode(&words::bytes(bytes)?),
            ["decode", checks, bytes] => self.decode(words::checks(checks)?, &words::bytes(bytes)?),
            ["undo", length, from, to, checks, bytes] => {
                let places = (words::size(from)?, words::size(to)?);
                self.undo(length, places, words::checks(checks)?, &words::bytes(bytes)?)
            }
            ["sum", bytes] => Ok(sum(&words::bytes(bytes)?)),
            ["data", bytes] => Ok(data(&words::bytes(bytes)?)),
            ["cache", bytes, middle, arrays] => singles::cache(bytes, middle, arrays),
            ["slot", size, mark, bytes] => self.slot(words::size(size)?, mark, &words::bytes(bytes)?),
            ["open"] => self.open(),
            ["box", start, lengths] => {
                let (start, lengths) = (words::list(start, ',')?, words::list(lengths, ',')?);
                Ok(self.open_chunk()?.box_read(&start, &lengths))
            }
            ["range", range] => {
                let range = byte_range(range)?;
                Ok(self.open_chunk()?.range_read(range))
            }
            ["kept"] => Ok(self.open_chunk()?.kept()),
            ["write", start, lengths, data] => {
                let (start, lengths) = (words::list(start, ',')?, words::list(lengths, ',')?);
                let data = words::bytes(data)?;
                self.chunk.as_mut().ok_or(NO_CHUNK)?.write(&start, &lengths, &data)
            }
            ["erase"] => self.chunk.as_mut().ok_or(NO_CHUNK)?.erase(),
            ["close"] => {
                let chunk = self.chunk.take().ok_or(NO_CHUNK)?;
                self.cell = Some(chunk.cell);
                Ok(Answer::same(Outcome::Done(String::new())))
            }
            _ => Err("no such command"),
        }
    }

    fn form(&mut self, shape: &str, data_type: &str, fill: &str) -> Result<Answer, Error> {
        let lengths = words::list(shape, 'x')?;
        let fill = words::bytes(fill)?;
        let size = rules::data_type(data_type).ok_or("no data type")?;
        let ruled = rules::form(&lengths, size.map(|(size, _)| size), fill.len());
        let data_type = match size {
            Some((size, false)) => DataType::Int { size },
            Some((size, true)) => DataType::Float { size },
            None if data_type == "optional" || data_type == "12" => DataType::Optional,
            None => DataType::String,
        };
        let zarrs = form_by_zarrs(&lengths, &data_type)?;
        match (ruled, size) {
            (Ok(bytes), Some((size, _))) => {
                let shape = lengths.iter().map(|length| NonZeroU64::new(*length).expect("no length is 0")).collect();
                self.form = Some(Form { shape, data_type, fill_value: FillValue::from(fill), size, bytes });
                Ok(Answer::same(zarrs))
            }
            // zarrs does not check it in the files that are here
            (Err(4), _) => Ok(Answer::same(Outcome::Refused(4))),
            (Err(refusal), _) => {
                let overflows = size.is_some_and(|(size, _)| passes_64_bits(&lengths, size));
                let class = if overflows && refusal == 3 { OVERFLOW } else { rules::class(refusal) };
                Ok(Answer::of(zarrs, Outcome::Refused(refusal), class))
            }
            (Ok(_), None) => Err("no form has a type of no size"),
        }
    }

    fn run(&mut self, stages: Vec<Stage>) -> Result<Answer, Error> {
        if stages.iter().any(|stage| stage.kind() != stages[0].kind()) || (stages.len() > 1 && stages[0].kind() == 1) {
            return Err("stages of several kinds, or several bytes stages");
        }
        let codecs = Codecs::new(&stages);
        let zarrs = match &codecs {
            Ok(_) => Outcome::Done(String::new()),
            Err(_) => Outcome::Refused(7),
        };
        match (rules::run(&stages), codecs) {
            (Err(refusal), codecs) => {
                let zarrs = match codecs.map(|codecs| code_nothing(&codecs)) {
                    Ok(Outcome::Panics(text)) => zarrs.but("encode", Outcome::Panics(text)),
                    _ => zarrs,
                };
                Ok(Answer::of(zarrs, Outcome::Refused(refusal), rules::class(refusal)))
            }
            (Ok(()), Ok(codecs)) => {
                self.stages = Some(Stages { stages, codecs, chain: None });
                Ok(Answer::same(zarrs))
            }
            (Ok(()), Err(_)) => Ok(Answer::same(zarrs)),
        }
    }

    fn chain(&mut self, stages: Vec<Stage>) -> Result<Answer, Error> {
        let form = self.form.clone().ok_or("no form")?;
        let refused = rules::draft(&stages).and_then(|()| lengths_of_form(&stages, &form)).err();
        let chain = chain::made(&stages, &form);
        let zarrs = match &chain {
            Ok(chain) => outcome(|| chain.fitted()),
            Err(refused) => refused.clone(),
        };
        match (refused, chain) {
            (Some(refusal), _) => Ok(Answer::of(zarrs, Outcome::Refused(refusal), rules::class(refusal))),
            (None, Ok(chain)) => {
                self.stages = Some(Stages { stages, codecs: chain.codecs.clone(), chain: Some(chain) });
                Ok(Answer::same(zarrs))
            }
            (None, Err(_)) => Ok(Answer::same(zarrs)),
        }
    }

    fn stages(&self) -> Result<&Stages, Error> {
        self.stages.as_ref().ok_or("no stages")
    }

    /// What the stages are over, with the word for a decoded length.
    fn over<'a>(&'a self, stages: &'a Stages, length: &str) -> Result<Over<'a>, Error> {
        match (stages.are_over_bytes(), length) {
            (true, "-") => Err("a length is wanted"),
            (true, length) => Ok(Over::Length(words::size(length)?)),
            (false, "-") => stages.form(&self.form).map(Over::Form),
            (false, _) => Err("no length is wanted"),
        }
    }

    fn singles(&self) -> Result<Answer, Error> {
        let word = |yes| if yes { "yes" } else { "no" };
        let singles: Vec<String> = self
            .stages()?
            .codecs
            .capabilities()
            .iter()
            .map(|single| format!("{}/{}", word(single.partial_read), word(single.partial_decode)))
            .collect();
        let singles = if singles.is_empty() { "-".to_string() } else { singles.join(",") };
        Ok(Answer::same(Outcome::Done(singles)))
    }

    fn lengths(&self, length: &str) -> Result<Answer, Error> {
        let stages = self.stages()?;
        let over = self.over(stages, length)?;
        let zarrs = outcome(|| match stages.codecs.lengths(&over) {
            Ok(lengths) => Outcome::Done(joined(&lengths)),
            Err(error) => Outcome::refused(&error),
        });
        Ok(match stages.lengths_by_rules(&over) {
            Ok(_) => Answer::same(zarrs),
            Err(refusal) => {
                let class = if stages.overflows(&over) { OVERFLOW } else { rules::class(refusal) };
                Answer::of(zarrs, Outcome::Refused(refusal), class)
            }
        })
    }

    fn encode(&self, bytes: &[u8]) -> Result<Answer, Error> {
        let stages = self.stages()?;
        let over =
            if stages.are_over_bytes() { Over::Length(bytes.len()) } else { Over::Form(stages.form(&self.form)?) };
        let coded = |codecs: &Codecs| match &stages.chain {
            Some(chain) => outcome(|| Chain::of(codecs.clone(), &chain.form).encode(bytes)),
            None => outcome(|| Outcome::of(codecs.encode(bytes, &over, &CodecOptions::new(true)))),
        };
        let refusal = match stages.lengths_by_rules(&over) {
            Ok(lengths) if lengths[0] != bytes.len() => Some(13),
            Ok(_) => None,
            Err(refusal) => Some(refusal),
        };
        Ok(stages.both(coded, refusal))
    }

    fn decode(&self, checks: bool, bytes: &[u8]) -> Result<Answer, Error> {
        let stages = self.stages()?;
        let chain = stages.chain.as_ref().ok_or("no chain")?;
        let options = CodecOptions::new(checks);
        let coded = |codecs: &Codecs| outcome(|| Chain::of(codecs.clone(), &chain.form).decode(bytes, &options));
        let encoded = stages.lengths_by_rules(&Over::Form(&chain.form)).map(|lengths| lengths.last().copied());
        let refusal = (encoded != Ok(Some(bytes.len()))).then_some(13);
        Ok(stages.both(coded, refusal))
    }

    fn undo(&self, length: &str, places: (usize, usize), checks: bool, bytes: &[u8]) -> Result<Answer, Error> {
        let stages = self.stages()?;
        let over = self.over(stages, length)?;
        let (from, to) = places;
        let count = stages.stages.len();
        let refusal = match stages.lengths_by_rules(&over) {
            Err(refusal) => Some(refusal),
            Ok(_) if from > to || to > count => Some(13),
            Ok(lengths) if lengths[count - from] != bytes.len() => Some(13),
            Ok(_) => None,
        };
        if from > to || to > count {
            // zarrs has no places, and is not asked
            return Ok(Answer::same(Outcome::Refused(refusal.expect("there is a refusal"))));
        }
        let options = CodecOptions::new(checks);
        let coded = |codecs: &Codecs| outcome(|| Outcome::undone(codecs.undo(bytes, &over, from, to, &options)));
        Ok(stages.both(coded, refusal))
    }

    fn slot(&mut self, size: usize, mark: &str, bytes: &[u8]) -> Result<Answer, Error> {
        let mark = if mark == "absent" { None } else { Some(words::size(mark)?) };
        let cell = Cell::slot(size, mark, bytes);
        let answer = match &cell {
            Ok(cell) => Outcome::Done(cell.capacity.to_string()),
            Err(refusal) => Outcome::Refused(*refusal),
        };
        self.cell = Some(cell.unwrap_or_default());
        Ok(Answer::same(answer))
    }

    fn open(&mut self) -> Result<Answer, Error> {
        if self.chunk.is_some() {
            return Err("a chunk is open");
        }
        let stages = self.stages()?;
        let chain = stages.chain.clone().ok_or("no chain")?;
        let encoded = stages.lengths_by_rules(&Over::Form(&chain.form)).map_err(|_| "no chain")?;
        let encoded = *encoded.last().expect("a length at every place");
        let stages = stages.stages.clone();
        let chunk = Chunk::open(chain, &stages, self.cell.take().ok_or("no cell")?, encoded);
        let answer = chunk.answer();
        self.chunk = Some(chunk);
        Ok(answer)
    }

    fn open_chunk(&self) -> Result<&Chunk, Error> {
        self.chunk.as_ref().ok_or(NO_CHUNK)
    }
}

impl Stages {
    fn are_over_bytes(&self) -> bool {
        self.chain.is_none() && self.stages.first().is_none_or(|stage| stage.kind() == 2)
    }

    /// The form that they are over.
    fn form<'a>(&'a self, given: &'a Option<Form>) -> Result<&'a Form, Error> {
        match &self.chain {
            Some(chain) => Ok(&chain.form),
            None => given.as_ref().ok_or("no form"),
        }
    }

    fn lengths_by_rules(&self, over: &Over) -> Result<Vec<usize>, u8> {
        match over {
            Over::Length(length) => rules::lengths(&self.stages, 0, 1, *length),
            Over::Form(form) => lengths_of_form(&self.stages, form),
        }
    }

    /// Whether the encoded length of byte stages passes 64 bits.
    fn overflows(&self, over: &Over) -> bool {
        let checksums = self.stages.iter().filter(|stage| **stage == Stage::Fletcher32).count();
        matches!(over, Over::Length(length) if length.checked_add(4 * checksums).is_none())
    }

    /// What zarrs' codecs give, beside the refusal of the rules or what the same codecs give with a checksum that takes
    /// a last odd byte.
    fn both(&self, coded: impl Fn(&Codecs) -> Outcome, refusal: Option<u8>) -> Answer {
        let zarrs = coded(&self.codecs);
        match refusal {
            Some(refusal) => Answer::of(zarrs, Outcome::Refused(refusal), rules::class(refusal)),
            None => Answer::of(zarrs, coded(&self.codecs.padded()), ODD_BYTE),
        }
    }
}

fn lengths_of_form(stages: &[Stage], form: &Form) -> Result<Vec<usize>, u8> {
    rules::lengths(stages, form.shape.len(), form.size, form.bytes)
}

/// Encodes no bytes at all.
fn code_nothing(codecs: &Codecs) -> Outcome {
    outcome(|| Outcome::of(codecs.encode(&[], &Over::Length(0), &CodecOptions::new(true))))
}

fn joined(lengths: &[u64]) -> String {
    let lengths: Vec<String> = lengths.iter().map(u64::to_string).collect();
    lengths.join(",")
}

/// Whether an array of so many elements of the size has more bytes than 64 bits count.
fn passes_64_bits(lengths: &[u64], size: usize) -> bool {
    lengths.iter().try_fold(size as u64, |bytes, length| bytes.checked_mul(*length)).is_none()
}

/// The count of elements and bytes by zarrs' bytes codec, which knows which types it takes. Where the exact product of the
/// lengths passes 64 bits, what it does with as many bytes as the product has by wrapping arithmetic.
fn form_by_zarrs(lengths: &[u64], data_type: &DataType) -> Result<Outcome, Error> {
    let Some(shape) = lengths.iter().map(|length| NonZeroU64::new(*length)).collect::<Option<ChunkShape>>() else {
        return Ok(Outcome::Refused(1));
    };
    let codec = BytesCodec::little();
    let size = data_type.fixed_size().unwrap_or(1);
    let fill_value = FillValue::from(vec![0; size]);
    let passes = lengths.iter().try_fold(1u64, |count, length| count.checked_mul(*length)).is_none();
    if passes && data_type.fixed_size().is_some() {
        let wrapped = lengths.iter().fold(1u64, |count, length| count.wrapping_mul(*length));
        if wrapped > rules::LIMIT as u64 {
            return Err("zarrs is not asked to encode so many bytes");
        }
        let bytes = ArrayBytes::from(vec![0; wrapped as usize * size]);
        let encoded = || codec.encode(bytes, &shape, data_type, &fill_value, &CodecOptions::new(true));
        return Ok(outcome(|| match encoded() {
            Ok(bytes) => Outcome::Done(format!("encoding {} bytes", bytes.len())),
            Err(error) => Outcome::refused(&error),
        }));
    }
    Ok(outcome(|| match codec.encoded_representation(&shape, data_type, &fill_value) {
        Ok(BytesRepresentation::FixedSize(bytes)) => Outcome::Done(format!("{} {bytes}", bytes / size as u64)),
        Ok(other) => Outcome::Fails(format!("{other:?}")),
        Err(error) => Outcome::refused(&error),
    }))
}

fn sum(bytes: &[u8]) -> Answer {
    let sum = |codec: &dyn BytesToBytesCodecTraits| {
        outcome(|| match codec.encode(Cow::Borrowed(bytes), &CodecOptions::new(true)) {
            Ok(encoded) => match encoded.last_chunk() {
                Some(stored) => Outcome::Done(format!("{:#010x}", u32::from_le_bytes(*stored))),
                None => Outcome::Fails("no checksum".to_string()),
            },
            Err(error) => Outcome::refused(&error),
        })
    };
    Answer::of(sum(&Fletcher32Codec::new()), sum(&Fletcher32Padded::default()), ODD_BYTE)
}

fn data(bytes: &[u8]) -> Answer {
    Answer::same(outcome(|| {
        let representation = BytesRepresentation::FixedSize(bytes.len() as u64);
        let data = Fletcher32Codec::new().decode(Cow::Borrowed(bytes), &representation, &CodecOptions::new(false));
        Outcome::of(data.map(Cow::into_owned))
    }))
}

fn byte_range(word: &str) -> Result<ByteRange, Error> {
    let parts: Vec<&str> = word.split(':').collect();
    match parts.as_slice() {
        ["at", offset, count] => Ok(ByteRange::FromStart(words::number(offset)?, Some(words::number(count)?))),
        ["from", offset] => Ok(ByteRange::FromStart(words::number(offset)?, None)),
        ["last", count] => Ok(ByteRange::Suffix(words::number(count)?)),
        _ => Err("no range"),
    }
}
