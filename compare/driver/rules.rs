//! What docs/RULES.md refuses, and in which order, written from that page.

use crate::words::Stage;

/// The most bytes of an array, and at any place of a byte stage.
pub const LIMIT: usize = 4096;

/// Size and kind of a data type by its name or code: (size, is a float). Types of no fixed size have none.
pub fn data_type(word: &str) -> Option<Option<(usize, bool)>> {
    let code = match word {
        "uint8" => 1,
        "int8" => 2,
        "uint16" => 3,
        "int16" => 4,
        "uint32" => 5,
        "int32" => 6,
        "uint64" => 7,
        "int64" => 8,
        "float32" => 9,
        "float64" => 10,
        "string" => 11,
        "optional" => 12,
        code => code.parse::<u64>().ok()?,
    };
    Some(match code {
        1 | 2 => Some((1, false)),
        3 | 4 => Some((2, false)),
        5 | 6 => Some((4, false)),
        7 | 8 => Some((8, false)),
        9 => Some((4, true)),
        10 => Some((8, true)),
        _ => None,
    })
}

/// The byte count of a form, or its refusal.
pub fn form(shape: &[u64], size: Option<usize>, fill: usize) -> Result<usize, u8> {
    if shape.is_empty() || shape.len() > 4 || shape.contains(&0) {
        return Err(1);
    }
    let size = size.ok_or(2)?;
    let count = shape.iter().fold(1u128, |count, length| count.saturating_mul(u128::from(*length)));
    let bytes = count.saturating_mul(size as u128);
    if bytes > LIMIT as u128 {
        return Err(3);
    }
    if fill == size { Ok(bytes as usize) } else { Err(4) }
}

fn is_permutation(order: &[usize]) -> bool {
    (1..=4).contains(&order.len()) && (0..order.len()).all(|axis| order.contains(&axis))
}

/// What a stage's own numbers are refused with.
fn codec(stage: &Stage) -> Result<(), u8> {
    match stage {
        Stage::Transpose(order) if !is_permutation(order) => Err(7),
        Stage::Shuffle(element) if !(1..=LIMIT).contains(element) => Err(8),
        _ => Ok(()),
    }
}

/// A run of stages of one kind, added one by one.
pub fn run(stages: &[Stage]) -> Result<(), u8> {
    for (i, stage) in stages.iter().enumerate() {
        if i >= [2, 1, 4][stage.kind()] {
            return Err(6);
        }
        codec(stage)?;
    }
    Ok(())
}

/// A draft that the stages are added to one by one, and sealed.
pub fn draft(stages: &[Stage]) -> Result<(), u8> {
    let mut added = [0, 0, 0];
    for stage in stages {
        let in_order = match stage.kind() {
            0 | 1 => added[1] == 0,
            _ => added[1] == 1,
        };
        if !in_order {
            return Err(5);
        }
        if added[stage.kind()] == [2, 1, 4][stage.kind()] {
            return Err(6);
        }
        codec(stage)?;
        added[stage.kind()] += 1;
    }
    if added[1] == 1 { Ok(()) } else { Err(5) }
}

/// The length at every place, the decoded one first, or the first refusal in encode order.
pub fn lengths(stages: &[Stage], dimensions: usize, size: usize, decoded: usize) -> Result<Vec<usize>, u8> {
    let mut lengths = vec![decoded];
    let mut length = decoded;
    if stages.is_empty() && length > LIMIT {
        return Err(12);
    }
    for stage in stages {
        match stage {
            Stage::Transpose(order) if order.len() != dimensions => return Err(9),
            Stage::Bytes(None) if size > 1 => return Err(10),
            Stage::Shuffle(element) if length % element != 0 => return Err(11),
            Stage::Shuffle(_) if length > LIMIT => return Err(12),
            Stage::Fletcher32 => {
                length = length.saturating_add(4);
                if length > LIMIT {
                    return Err(12);
                }
            }
            _ => {}
        }
        lengths.push(length);
    }
    Ok(lengths)
}

/// The cache place for singles in decode order, each with (`partial_read`, `partial_decode`): none if every single has both,
/// else the least place i such that singles i and later all have `partial_decode` and those after i all have `partial_read`.
pub fn cache_place(singles: &[(bool, bool)]) -> Option<usize> {
    if singles.iter().all(|(read, decode)| *read && *decode) {
        return None;
    }
    let meets = |i: usize| {
        let decoding = singles.iter().skip(i).all(|(_, decode)| *decode);
        decoding && singles.iter().skip(i + 1).all(|(read, _)| *read)
    };
    (0..=singles.len()).find(|place| meets(*place))
}

/// The class of difference for a refusal of the rules that zarrs has not.
pub fn class(refusal: u8) -> &'static str {
    match refusal {
        1 => "dimensions",
        3 => "array-length",
        5 => "codec-order",
        6 => "room",
        8 => "element-size",
        9..=11 => "fit",
        12 => "byte-length",
        13 => "length",
        16 => "capacity",
        _ => UNEXPLAINED,
    }
}

/// A difference of no class.
pub const UNEXPLAINED: &str = "unexplained";
