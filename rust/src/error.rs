//! The reasons for which a file or a call is refused.

use std::fmt;

use crate::ffi::c;

/// Why a file or a call is refused.
///
/// Each variant has a number, [`Error::number`]. Where several reasons hold, the one given is the
/// first in the order that the function names. No refusal changes anything, except that
/// [`Error::TableFull`] empties and closes the converter.
#[derive(Clone, Copy, Debug, PartialEq, Eq, Hash)]
#[non_exhaustive]
pub enum Error {
    /// 1: the file has under 8 bytes.
    TooShort,
    /// 2: the file was written by a system of the other endianness.
    WrongEndianness,
    /// 3: the file's magic does not match.
    WrongFormat,
    /// 4: the file's version is not 9.
    WrongVersion,
    /// 5: the header is cut off.
    InvalidHeader,
    /// 6: the files are cut off.
    InvalidFiles,
    /// 7: the functions are cut off.
    InvalidFunctions,
    /// 8: the source locations are cut off.
    InvalidSourceLocations,
    /// 9: the ranges are cut off, or more than the source locations.
    InvalidRanges,
    /// 10: the texts, or the padding before them, are cut off.
    UnexpectedStringBytes {
        /// How many text bytes the header tells of.
        expected: u64,
        /// How many there are; 0 where the padding is cut off.
        found: u64,
    },
    /// 11: the file has variables, which are left out here.
    InvalidVariableHeader,
    /// 12: the starts of the ranges do not ascend strictly.
    UnorderedRanges,
    /// 13: no function rows, over 65,536 of them, depths that are not a tree's in preorder, line
    /// counts that don't sum to the line rows, or columns whose lengths disagree.
    InvalidRows,
    /// 25, right after 13: a function row is deeper than 41, [`MAX_DEPTH`](crate::MAX_DEPTH), be it
    /// skipped or not.
    TooDeep,
    /// 14: a text lies outside the lent text, or one other than a compilation directory isn't
    /// UTF-8.
    InvalidText,
    /// 15: the address plus the size of a function is above 2^64 - 1.
    AddressOverflow,
    /// 16: the scratch memory has under four words for each function and line row.
    ScratchTooSmall,
    /// 17: a table would need more rows or bytes than its capacity. The converter is closed now,
    /// and empty.
    TableFull,
    /// 18: the output is shorter than the file.
    OutputTooShort,
    /// 19: the converter is closed.
    Closed,
    /// A number that this version of the crate does not know.
    Other(u32),
}

impl Error {
    /// The number of this reason: 1 to 19, or 25.
    pub fn number(&self) -> u32 {
        match *self {
            Error::TooShort => c::SYMCACHE_TOO_SHORT,
            Error::WrongEndianness => c::SYMCACHE_WRONG_ENDIANNESS,
            Error::WrongFormat => c::SYMCACHE_WRONG_FORMAT,
            Error::WrongVersion => c::SYMCACHE_WRONG_VERSION,
            Error::InvalidHeader => c::SYMCACHE_INVALID_HEADER,
            Error::InvalidFiles => c::SYMCACHE_INVALID_FILES,
            Error::InvalidFunctions => c::SYMCACHE_INVALID_FUNCTIONS,
            Error::InvalidSourceLocations => c::SYMCACHE_INVALID_SOURCE_LOCATIONS,
            Error::InvalidRanges => c::SYMCACHE_INVALID_RANGES,
            Error::UnexpectedStringBytes { .. } => c::SYMCACHE_UNEXPECTED_STRING_BYTES,
            Error::InvalidVariableHeader => c::SYMCACHE_INVALID_VARIABLE_HEADER,
            Error::UnorderedRanges => c::SYMCACHE_UNORDERED_RANGES,
            Error::InvalidRows => c::SYMCACHE_INVALID_ROWS,
            Error::TooDeep => c::SYMCACHE_TOO_DEEP,
            Error::InvalidText => c::SYMCACHE_INVALID_TEXT,
            Error::AddressOverflow => c::SYMCACHE_ADDRESS_OVERFLOW,
            Error::ScratchTooSmall => c::SYMCACHE_SCRATCH_TOO_SMALL,
            Error::TableFull => c::SYMCACHE_TABLE_FULL,
            Error::OutputTooShort => c::SYMCACHE_OUTPUT_TOO_SHORT,
            Error::Closed => c::SYMCACHE_CLOSED,
            Error::Other(number) => number,
        }
    }

    /// What a number other than 0 means. 10 comes with its counts.
    fn of(number: u32, expected: u64, found: u64) -> Error {
        match number {
            c::SYMCACHE_TOO_SHORT => Error::TooShort,
            c::SYMCACHE_WRONG_ENDIANNESS => Error::WrongEndianness,
            c::SYMCACHE_WRONG_FORMAT => Error::WrongFormat,
            c::SYMCACHE_WRONG_VERSION => Error::WrongVersion,
            c::SYMCACHE_INVALID_HEADER => Error::InvalidHeader,
            c::SYMCACHE_INVALID_FILES => Error::InvalidFiles,
            c::SYMCACHE_INVALID_FUNCTIONS => Error::InvalidFunctions,
            c::SYMCACHE_INVALID_SOURCE_LOCATIONS => Error::InvalidSourceLocations,
            c::SYMCACHE_INVALID_RANGES => Error::InvalidRanges,
            c::SYMCACHE_UNEXPECTED_STRING_BYTES => Error::UnexpectedStringBytes { expected, found },
            c::SYMCACHE_INVALID_VARIABLE_HEADER => Error::InvalidVariableHeader,
            c::SYMCACHE_UNORDERED_RANGES => Error::UnorderedRanges,
            c::SYMCACHE_INVALID_ROWS => Error::InvalidRows,
            c::SYMCACHE_TOO_DEEP => Error::TooDeep,
            c::SYMCACHE_INVALID_TEXT => Error::InvalidText,
            c::SYMCACHE_ADDRESS_OVERFLOW => Error::AddressOverflow,
            c::SYMCACHE_SCRATCH_TOO_SMALL => Error::ScratchTooSmall,
            c::SYMCACHE_TABLE_FULL => Error::TableFull,
            c::SYMCACHE_OUTPUT_TOO_SHORT => Error::OutputTooShort,
            c::SYMCACHE_CLOSED => Error::Closed,
            other => Error::Other(other),
        }
    }

    /// What a call of the converter answered.
    pub(crate) fn check(number: u32) -> Result<(), Error> {
        Error::check_file(number, 0, 0)
    }

    /// What a call of the reader answered.
    pub(crate) fn check_file(number: u32, expected: u64, found: u64) -> Result<(), Error> {
        match number {
            c::SYMCACHE_OK => Ok(()),
            _ => Err(Error::of(number, expected, found)),
        }
    }
}

impl fmt::Display for Error {
    fn fmt(&self, f: &mut fmt::Formatter<'_>) -> fmt::Result {
        match *self {
            Error::TooShort => f.write_str("the file has under 8 bytes"),
            Error::WrongEndianness => {
                f.write_str("the file was written by a system of the other endianness")
            }
            Error::WrongFormat => f.write_str("the file is not a SymCache"),
            Error::WrongVersion => f.write_str("the file's version is not 9"),
            Error::InvalidHeader => f.write_str("the file's header is cut off"),
            Error::InvalidFiles => f.write_str("the file's table of source files is cut off"),
            Error::InvalidFunctions => f.write_str("the file's table of functions is cut off"),
            Error::InvalidSourceLocations => {
                f.write_str("the file's table of source locations is cut off")
            }
            Error::InvalidRanges => {
                f.write_str("the file's ranges are cut off or more than its source locations")
            }
            Error::UnexpectedStringBytes { expected, found } => {
                write!(
                    f,
                    "the file's texts are cut off: expected {expected} bytes, found {found}"
                )
            }
            Error::InvalidVariableHeader => {
                f.write_str("the file has variables, which are not read here")
            }
            Error::UnorderedRanges => f.write_str("the starts of the file's ranges do not ascend"),
            Error::InvalidRows => {
                f.write_str("the rows are not those of a function tree in preorder")
            }
            Error::TooDeep => f.write_str("a function row is deeper than 41"),
            Error::InvalidText => f.write_str("a text lies outside the lent text or is not UTF-8"),
            Error::AddressOverflow => f.write_str("a function ends above 2^64 - 1"),
            Error::ScratchTooSmall => {
                f.write_str("the scratch memory has under four words for each row")
            }
            Error::TableFull => {
                f.write_str("a table of the converter is full; the converter is closed")
            }
            Error::OutputTooShort => f.write_str("the output is shorter than the file"),
            Error::Closed => f.write_str("the converter is closed"),
            Error::Other(number) => write!(f, "refused with the unknown number {number}"),
        }
    }
}

impl std::error::Error for Error {}

#[cfg(test)]
mod tests {
    use super::{c, Error};

    #[test]
    fn every_number_has_its_own_reason_and_sentence() {
        let mut sentences = std::collections::HashSet::new();
        // The numbers stand first in the header, ascending from 0, up to MAX.
        assert_eq!(c::NUMBERS[0], ("SYMCACHE_OK", 0));
        let mut before = 0;
        for (name, number) in &c::NUMBERS[1..] {
            if *name == "SYMCACHE_MAX" {
                break;
            }
            assert!(*number > before, "{name}");
            before = *number;
            let error = Error::check_file(*number, 25, 24).unwrap_err();
            assert_eq!(error.number(), *number);
            assert!(sentences.insert(error.to_string()), "{name}");
            let words = name.split('_').skip(1);
            let camel: String = words
                .map(|word| word[..1].to_string() + &word[1..].to_lowercase())
                .collect();
            assert!(
                format!("{error:?}").starts_with(&camel),
                "{name} is {error:?}"
            );
        }
        assert!(before >= 25);
        assert_eq!(Error::check(0), Ok(()));
        assert_eq!(Error::check(20), Err(Error::Other(20)));
        assert_eq!(Error::Other(20).number(), 20);
    }

    #[test]
    fn ten_names_its_counts() {
        let error = Error::check_file(10, 25, 24).unwrap_err();
        assert_eq!(
            error,
            Error::UnexpectedStringBytes {
                expected: 25,
                found: 24
            }
        );
        assert_eq!(
            error.to_string(),
            "the file's texts are cut off: expected 25 bytes, found 24"
        );
    }
}
