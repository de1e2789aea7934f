//! The tablegram header: nine bytes, checked from left to right.

use super::{check_size, Error, ErrorCode, Input};

/// The bytes that open every header: its token, the size of the rest, the mark.
const START: [u8; 5] = [0x01, 0x07, b'T', b'G', b'!'];
const MAJOR_AT: usize = 5;
const MINOR_AT: usize = 6;
const ORDER_AT: usize = 7;
const UNICODE_AT: usize = 8;
const SIZE: usize = 9;

/// The only byte order that a header may name.
const LITTLE_ENDIAN: u8 = 0;
const MAX_UNICODE: u8 = 1;

/// A header, and where it ends.
#[derive(Clone, Copy, Debug, PartialEq, Eq)]
pub struct Header {
    pub major: u8,
    pub minor: u8,
    pub order: u8,
    pub unicode: u8,
    pub end: usize,
}

/// The header at the start of `bytes`; what follows it does not matter.
pub fn read_header(bytes: &[u8]) -> Result<Header, Error> {
    check_size(bytes, Input::Only)?;
    for (at, constant) in START.iter().enumerate() {
        if byte_at(bytes, at)? != *constant {
            return Err(Error::new(ErrorCode::Constant, at, Input::Only));
        }
    }
    let major = byte_at(bytes, MAJOR_AT)?;
    let minor = byte_at(bytes, MINOR_AT)?;
    let order = byte_at(bytes, ORDER_AT)?;
    check_order(order, Input::Only)?;
    let unicode = byte_at(bytes, UNICODE_AT)?;
    check_unicode(unicode, Input::Only)?;
    Ok(Header {
        major,
        minor,
        order,
        unicode,
        end: SIZE,
    })
}

/// Writes a header at the start of `output` and answers its size.
pub fn write_header(
    major: u8,
    minor: u8,
    order: u8,
    unicode: u8,
    output: &mut [u8],
) -> Result<usize, Error> {
    check_order(order, Input::ByteOrder)?;
    check_unicode(unicode, Input::Unicode)?;
    let piece =
        output
            .get_mut(..SIZE)
            .ok_or(Error::new(ErrorCode::Capacity, SIZE, Input::Output))?;
    piece[..START.len()].copy_from_slice(&START);
    piece[MAJOR_AT] = major;
    piece[MINOR_AT] = minor;
    piece[ORDER_AT] = order;
    piece[UNICODE_AT] = unicode;
    Ok(SIZE)
}

/// Writes a header of these versions with unicode 0.
pub fn write_header_short(major: u8, minor: u8, output: &mut [u8]) -> Result<usize, Error> {
    write_header(major, minor, LITTLE_ENDIAN, 0, output)
}

/// The byte at `at`, or error 1.
fn byte_at(bytes: &[u8], at: usize) -> Result<u8, Error> {
    bytes
        .get(at)
        .copied()
        .ok_or(Error::truncated(bytes, Input::Only))
}

/// Error 3 for a byte order other than the little-endian one.
fn check_order(order: u8, input: Input) -> Result<(), Error> {
    if order != LITTLE_ENDIAN {
        return Err(Error::new(ErrorCode::FieldValue, ORDER_AT, input));
    }
    Ok(())
}

/// Error 3 for a unicode byte that is neither 0 nor 1.
fn check_unicode(unicode: u8, input: Input) -> Result<(), Error> {
    if unicode > MAX_UNICODE {
        return Err(Error::new(ErrorCode::FieldValue, UNICODE_AT, input));
    }
    Ok(())
}

#[cfg(test)]
mod tests {
    use super::*;

    const PLAIN: [u8; 9] = [0x01, 0x07, 0x54, 0x47, 0x21, 0x01, 0x00, 0x00, 0x00];

    fn error(code: ErrorCode, offset: usize, input: Input) -> Error {
        Error::new(code, offset, input)
    }

    #[test]
    fn the_examples_of_the_rules() {
        let header = Header {
            major: 1,
            minor: 0,
            order: 0,
            unicode: 0,
            end: 9,
        };
        assert_eq!(read_header(&PLAIN), Ok(header));
        let only = Input::Only;
        assert_eq!(read_header(&[]), Err(error(ErrorCode::Truncated, 0, only)));
        let wrong = read_header(&[0x01, 0x08]);
        assert_eq!(wrong, Err(error(ErrorCode::Constant, 1, only)));
        let mut bytes = PLAIN;
        bytes[UNICODE_AT] = 2;
        let wrong = read_header(&bytes);
        assert_eq!(wrong, Err(error(ErrorCode::FieldValue, 8, only)));
    }

    #[test]
    fn a_wrong_order_comes_before_a_missing_unicode() {
        let mut bytes = PLAIN;
        bytes[ORDER_AT] = 1;
        let wrong = read_header(&bytes[..8]);
        assert_eq!(wrong, Err(error(ErrorCode::FieldValue, 7, Input::Only)));
    }

    #[test]
    fn the_writer_looks_at_values_before_capacity() {
        let mut output = [0xAA; 4];
        let order = write_header(1, 0, 9, 9, &mut output);
        assert_eq!(
            order,
            Err(error(ErrorCode::FieldValue, 7, Input::ByteOrder))
        );
        let unicode = write_header(1, 0, 0, 9, &mut output);
        assert_eq!(
            unicode,
            Err(error(ErrorCode::FieldValue, 8, Input::Unicode))
        );
        let short = write_header_short(1, 0, &mut output);
        assert_eq!(short, Err(error(ErrorCode::Capacity, 9, Input::Output)));
        assert_eq!(output, [0xAA; 4]);
    }

    #[test]
    fn the_writer_leaves_what_follows() {
        let mut output = [0xAA; 11];
        assert_eq!(write_header_short(1, 0, &mut output), Ok(9));
        assert_eq!(output[..9], PLAIN);
        assert_eq!(output[9..], [0xAA; 2]);
    }
}
