//! The head of a tablegram: its header and the handler options.

use std::ops::Range;

use crate::raw::{self, size, Numbers, Value};
use crate::Error;

/// A header, and where it ends.
#[derive(Clone, Copy, Debug, PartialEq, Eq)]
pub struct Header {
    /// The major version.
    pub major: u8,
    /// The minor version.
    pub minor: u8,
    /// The byte order, which is 0.
    pub order: u8,
    /// The unicode flag, 0 or 1.
    pub unicode: u8,
    /// Where the header ends.
    pub end: usize,
}

/// Handler options, and where they end.
#[derive(Clone, Debug, PartialEq, Eq)]
pub struct Options {
    /// The update type.
    pub update_type: u8,
    /// Where each of the three strings starts and ends.
    pub strings: [Range<usize>; 3],
    /// The async option, 1 to 3.
    pub async_option: u16,
    /// Where the options end.
    pub end: usize,
}

/// Reads the header at the start of `bytes`.
pub fn read_header(bytes: &[u8]) -> Result<Header, Error> {
    raw::read_header(bytes).result()
}

/// Writes a header at the start of `output`, and answers how many bytes it has. The byte order is 0.
/// The unicode flag is 0 or 1.
pub fn write_header(
    major: u8,
    minor: u8,
    order: u8,
    unicode: u8,
    output: &mut [u8],
) -> Result<usize, Error> {
    raw::write_header(major, minor, order, unicode, output).result()
}

/// Writes a header with byte order 0 and unicode flag 0, and answers how many bytes it has.
pub fn write_header_short(major: u8, minor: u8, output: &mut [u8]) -> Result<usize, Error> {
    raw::write_header_short(major, minor, output).result()
}

/// Reads the handler options at the start of `bytes`.
pub fn read_options(bytes: &[u8]) -> Result<Options, Error> {
    raw::read_options(bytes).result()
}

/// Writes handler options with update type 1 at the start of `output`, and answers how many bytes
/// they have. The async option is 1, 2 or 3.
pub fn write_options(
    strings: [&[u8]; 3],
    async_option: u16,
    output: &mut [u8],
) -> Result<usize, Error> {
    raw::write_options(strings, async_option, output).result()
}

impl Value for Header {
    const COUNT: usize = 5;

    fn of(numbers: &Numbers) -> Option<Header> {
        Some(Header {
            major: u8::try_from(numbers[0]).ok()?,
            minor: u8::try_from(numbers[1]).ok()?,
            order: u8::try_from(numbers[2]).ok()?,
            unicode: u8::try_from(numbers[3]).ok()?,
            end: size(numbers[4]),
        })
    }
}

impl Value for Options {
    const COUNT: usize = 9;

    fn of(numbers: &Numbers) -> Option<Options> {
        let string = |at: usize| size(numbers[at])..size(numbers[at + 1]);
        Some(Options {
            update_type: u8::try_from(numbers[0]).ok()?,
            strings: [string(1), string(3), string(5)],
            async_option: u16::try_from(numbers[7]).ok()?,
            end: size(numbers[8]),
        })
    }
}

#[cfg(test)]
mod tests {
    use super::*;
    use crate::{ErrorKind, Input};

    #[test]
    fn a_header_is_read_as_it_was_written() {
        let mut output = [9; 12];
        assert_eq!(write_header(1, 2, 0, 1, &mut output), Ok(9));
        assert_eq!(output, *b"\x01\x07TG!\x01\x02\x00\x01\x09\x09\x09");
        let header = Header {
            major: 1,
            minor: 2,
            order: 0,
            unicode: 1,
            end: 9,
        };
        assert_eq!(read_header(&output), Ok(header));
        assert_eq!(write_header_short(3, 4, &mut output), Ok(9));
        assert_eq!(output[5..9], [3, 4, 0, 0]);
    }

    #[test]
    fn header_errors_name_their_input() {
        let error = |kind, offset, input| Error {
            kind,
            offset,
            input,
        };
        let empty = error(ErrorKind::Short, 0, Input::Single);
        assert_eq!(read_header(&[]), Err(empty));
        let mut output = [9; 9];
        let order = error(ErrorKind::Value, 7, Input::Order);
        assert_eq!(write_header(1, 0, 1, 0, &mut output), Err(order));
        let unicode = error(ErrorKind::Value, 8, Input::Unicode);
        assert_eq!(write_header(1, 0, 0, 2, &mut output), Err(unicode));
        let room = error(ErrorKind::Capacity, 9, Input::Output);
        assert_eq!(write_header(1, 0, 0, 0, &mut output[..8]), Err(room));
        assert_eq!(write_header_short(1, 0, &mut []), Err(room));
        assert_eq!(output, [9; 9]);
    }

    #[test]
    fn options_hand_out_their_strings() {
        let mut output = [0; 40];
        let strings: [&[u8]; 3] = [b"one", b"", b"three"];
        assert_eq!(write_options(strings, 2, &mut output), Ok(36));
        let options = read_options(&output).unwrap();
        assert_eq!((options.update_type, options.async_option), (1, 2));
        assert_eq!(options.strings.clone().map(|ends| &output[ends]), strings);
        assert_eq!(options.end, 36);
        let error = Error {
            kind: ErrorKind::Value,
            offset: 34,
            input: Input::Async,
        };
        assert_eq!(write_options(strings, 4, &mut output), Err(error));
    }
}
