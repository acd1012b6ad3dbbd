//! Stands in for the crate `zarrs_storage`: byte ranges, and taking them out of bytes.

use std::fmt;

/// The storage of the comparison is a list of bytes or nothing, and never fails.
#[derive(Debug, Clone)]
pub enum StorageError {}

impl fmt::Display for StorageError {
    fn fmt(&self, _out: &mut fmt::Formatter<'_>) -> fmt::Result {
        match *self {}
    }
}

pub mod byte_range {
    use std::fmt;
    use std::ops::Range;

    #[derive(Debug, Clone, Copy, PartialEq, Eq)]
    pub enum ByteRange {
        /// From an offset, a count of bytes or all to the end.
        FromStart(u64, Option<u64>),
        /// The last bytes, so many.
        Suffix(u64),
    }

    impl ByteRange {
        pub fn new(range: Range<u64>) -> Self {
            Self::FromStart(range.start, Some(range.end - range.start))
        }

        /// The range in bytes of the given length, if it does not pass their end.
        pub fn of(self, length: usize) -> Result<Range<usize>, InvalidByteRangeError> {
            let invalid = InvalidByteRangeError(self, length);
            let given = |number: u64| usize::try_from(number).map_err(|_| invalid);
            let range = match self {
                Self::FromStart(offset, Some(count)) => {
                    let start = given(offset)?;
                    start..start.checked_add(given(count)?).ok_or(invalid)?
                }
                Self::FromStart(offset, None) => given(offset)?..length,
                Self::Suffix(count) => length.checked_sub(given(count)?).ok_or(invalid)?..length,
            };
            if range.start <= range.end && range.end <= length { Ok(range) } else { Err(invalid) }
        }
    }

    pub type ByteRangeIterator<'a> = Box<dyn Iterator<Item = ByteRange> + 'a>;

    /// A byte range passes the end of that many bytes.
    #[derive(Debug, Clone, Copy)]
    pub struct InvalidByteRangeError(pub ByteRange, pub usize);

    impl fmt::Display for InvalidByteRangeError {
        fn fmt(&self, out: &mut fmt::Formatter<'_>) -> fmt::Result {
            write!(out, "{:?} passes the end of {} bytes", self.0, self.1)
        }
    }

    pub fn extract_byte_ranges(bytes: &[u8], ranges: ByteRangeIterator) -> Result<Vec<Vec<u8>>, InvalidByteRangeError> {
        ranges.map(|range| Ok(bytes[range.of(bytes.len())?].to_vec())).collect()
    }
}
