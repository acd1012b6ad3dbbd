//! What is answered, and the number that the rules have for an error of zarrs.

use std::cell::RefCell;
use std::fmt;
use std::panic::{self, AssertUnwindSafe};

use zarrs_codec::CodecError;

use crate::words;

/// What a call gives: a text after `ok`, a numbered refusal, or what zarrs alone can do.
#[derive(Debug, Clone, PartialEq, Eq)]
pub enum Outcome {
    Done(String),
    Refused(u8),
    /// A checksum that does not fit, with the number of the single.
    Checksum(usize),
    /// An error in words that no refusal says.
    Fails(String),
    Panics(String),
    /// What zarrs answers and then refuses to do.
    Yet(Box<Outcome>, &'static str, Box<Outcome>),
}

impl fmt::Display for Outcome {
    fn fmt(&self, out: &mut fmt::Formatter<'_>) -> fmt::Result {
        match self {
            Self::Done(text) if text.is_empty() => out.write_str("ok"),
            Self::Done(text) => write!(out, "ok {text}"),
            Self::Refused(number) => write!(out, "refused {number}"),
            Self::Checksum(single) => write!(out, "refused 15 at {single}"),
            Self::Fails(text) => write!(out, "fails: {text}"),
            Self::Panics(text) => write!(out, "panics: {text}"),
            Self::Yet(first, call, then) => write!(out, "{first}; {call} {then}"),
        }
    }
}

impl Outcome {
    pub fn bytes(bytes: &[u8]) -> Self {
        Self::Done(words::hex(bytes))
    }

    /// This, and then the outcome of a call.
    pub fn but(self, call: &'static str, then: Outcome) -> Self {
        Self::Yet(Box::new(self), call, Box::new(then))
    }

    /// The outcome of a call that answers bytes.
    pub fn of(result: Result<Vec<u8>, CodecError>) -> Self {
        match result {
            Ok(bytes) => Self::bytes(&bytes),
            Err(error) => Self::refused(&error),
        }
    }

    /// The outcome of decoding one codec after another.
    pub fn undone(result: Result<Vec<u8>, (usize, CodecError)>) -> Self {
        match result {
            Err((single, CodecError::InvalidChecksum)) => Self::Checksum(single),
            result => Self::of(result.map_err(|(_, error)| error)),
        }
    }

    /// The refusal for an error of zarrs. Its errors in words are those of the three places where its codecs give one.
    pub fn refused(error: &CodecError) -> Self {
        match error {
            CodecError::UnsupportedDataType(..) => Self::Refused(2),
            CodecError::Dimensions => Self::Refused(9),
            CodecError::NoEndianness => Self::Refused(10),
            CodecError::Other(text) if text.starts_with("the shuffle codec expects") => Self::Refused(11),
            CodecError::Other(text) if text.starts_with("fletcher32 decoder expects") => Self::Refused(13),
            CodecError::ArrayLength => Self::Refused(13),
            CodecError::InvalidChecksum => Self::Refused(15),
            CodecError::IndexerError(_) => Self::Refused(17),
            CodecError::InvalidByteRangeError(_) => Self::Refused(18),
            CodecError::FillValue | CodecError::StorageError(_) | CodecError::Other(_) => {
                Self::Fails(error.to_string())
            }
        }
    }
}

/// What zarrs answers, and the class and the answer by the rules where that is another.
#[derive(Debug, Clone)]
pub struct Answer {
    pub zarrs: Outcome,
    pub ruled: Option<(&'static str, Outcome)>,
}

impl Answer {
    /// Both answers, which are of that class where they differ.
    pub fn of(zarrs: Outcome, ruled: Outcome, class: &'static str) -> Self {
        let differs = zarrs != ruled;
        Self { zarrs, ruled: differs.then_some((class, ruled)) }
    }

    pub fn same(outcome: Outcome) -> Self {
        Self { zarrs: outcome, ruled: None }
    }

    /// The answer by the rules.
    pub fn by_rules(&self) -> &Outcome {
        match &self.ruled {
            Some((_, ruled)) => ruled,
            None => &self.zarrs,
        }
    }
}

impl fmt::Display for Answer {
    fn fmt(&self, out: &mut fmt::Formatter<'_>) -> fmt::Result {
        write!(out, "{}", self.zarrs)?;
        match &self.ruled {
            Some((class, ruled)) => write!(out, " | {class} {ruled}"),
            None => Ok(()),
        }
    }
}

thread_local! {
    static PANIC: RefCell<String> = const { RefCell::new(String::new()) };
}

/// Panics are answers here: their messages are kept, and not printed.
pub fn keep_panics_quiet() {
    panic::set_hook(Box::new(|info| {
        let message = info.payload_as_str().unwrap_or("without a message").to_string();
        PANIC.with(|kept| *kept.borrow_mut() = message);
    }));
}

/// What the call gives, if it only panics that it does.
pub fn caught<T>(call: impl FnOnce() -> T) -> Result<T, Outcome> {
    panic::catch_unwind(AssertUnwindSafe(call)).map_err(|_| Outcome::Panics(PANIC.with(|kept| kept.borrow().clone())))
}

/// The outcome of a call, a panic included.
pub fn outcome(call: impl FnOnce() -> Outcome) -> Outcome {
    caught(call).unwrap_or_else(|panics| panics)
}
