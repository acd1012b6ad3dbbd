//! The words of commands.

use std::fmt::Write;

/// Why a line is no command.
pub type Error = &'static str;

pub fn hex(bytes: &[u8]) -> String {
    if bytes.is_empty() {
        return "-".to_string();
    }
    bytes.iter().fold(String::new(), |mut text, byte| {
        let _ = write!(text, "{byte:02x}");
        text
    })
}

pub fn bytes(word: &str) -> Result<Vec<u8>, Error> {
    if word == "-" {
        return Ok(vec![]);
    }
    let lower_case = word.bytes().all(|digit| matches!(digit, b'0'..=b'9' | b'a'..=b'f'));
    if !lower_case || word.is_empty() || word.len() % 2 == 1 {
        return Err("no bytes");
    }
    let digits: Vec<u32> = word.chars().filter_map(|digit| digit.to_digit(16)).collect();
    Ok(digits.chunks(2).map(|pair| (pair[0] * 16 + pair[1]) as u8).collect())
}

pub fn number(word: &str) -> Result<u64, Error> {
    if word.bytes().all(|digit| digit.is_ascii_digit()) {
        word.parse().map_err(|_| "no number")
    } else {
        Err("no number")
    }
}

pub fn size(word: &str) -> Result<usize, Error> {
    number(word)?.try_into().map_err(|_| "no number")
}

/// A list with the separator between its values, `-` for an empty one.
pub fn list(word: &str, separator: char) -> Result<Vec<u64>, Error> {
    if word == "-" { Ok(vec![]) } else { word.split(separator).map(number).collect() }
}

pub fn checks(word: &str) -> Result<bool, Error> {
    match word {
        "on" => Ok(true),
        "off" => Ok(false),
        _ => Err("neither on nor off"),
    }
}

#[derive(Debug, Clone, PartialEq, Eq)]
pub enum Stage {
    Transpose(Vec<usize>),
    Difference,
    Bytes(Option<bool>),
    Shuffle(usize),
    Fletcher32,
}

impl Stage {
    /// 0 for array stages, 1 for the bytes stage, 2 for byte stages.
    pub fn kind(&self) -> usize {
        match self {
            Self::Transpose(_) | Self::Difference => 0,
            Self::Bytes(_) => 1,
            Self::Shuffle(_) | Self::Fletcher32 => 2,
        }
    }

    fn parse(word: &str) -> Result<Self, Error> {
        Ok(match word.split_once(':') {
            None if word == "difference" => Self::Difference,
            None if word == "fletcher32" => Self::Fletcher32,
            Some(("transpose", order)) => {
                Self::Transpose(list(order, ',')?.into_iter().map(|axis| axis as usize).collect())
            }
            Some(("bytes", "little")) => Self::Bytes(Some(false)),
            Some(("bytes", "big")) => Self::Bytes(Some(true)),
            Some(("bytes", "none")) => Self::Bytes(None),
            Some(("shuffle", element)) => Self::Shuffle(size(element)?),
            _ => return Err("no stage"),
        })
    }
}

pub fn stages(word: &str) -> Result<Vec<Stage>, Error> {
    if word == "-" { Ok(vec![]) } else { word.split('+').map(Stage::parse).collect() }
}
