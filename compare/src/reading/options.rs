//! Handler options: a sized piece with a GUID, an update type, three strings and an async
//! option.

use std::ops::Range;

use super::{check_size, Error, ErrorCode, Input};

const TOKEN: u8 = 0x02;
const SIZE_AT: usize = 1;
/// Where the part that the size counts begins.
const BODY_AT: usize = 3;
const GUID: [u8; 16] = [
    0xB6, 0x92, 0xF2, 0x3F, 0x04, 0xB2, 0xCF, 0x11, 0x8D, 0x23, 0x00, 0xAA, 0x00, 0x5F, 0xFE, 0x58,
];
const UPDATE_TYPE_AT: usize = BODY_AT + GUID.len();
const STRINGS_AT: usize = UPDATE_TYPE_AT + 1;
/// The size of a piece whose strings are all empty.
const MIN_SIZE: usize = 25;
const MAX_SIZE: usize = 65_535;
/// The update type that the writer always writes.
const WRITTEN_UPDATE_TYPE: u8 = 1;

/// Handler options: the ends of each string in the input, and where the piece ends.
#[derive(Clone, Debug, PartialEq, Eq)]
pub struct Options {
    pub update_type: u8,
    pub strings: [Range<usize>; 3],
    pub async_option: u16,
    pub end: usize,
}

/// The handler options at the start of `bytes`; what follows them does not matter.
pub fn read_options(bytes: &[u8]) -> Result<Options, Error> {
    check_size(bytes, Input::Only)?;
    let piece = sized_piece(bytes)?;
    check_guid(piece)?;
    let mut at = STRINGS_AT;
    let mut strings = [0..0, 0..0, 0..0];
    for string in &mut strings {
        *string = string_at(piece, at)?;
        at = string.end;
    }
    let async_option = two_bytes(piece, at).ok_or(wrong_size(Input::Only))?;
    if at + 2 != piece.len() {
        return Err(wrong_size(Input::Only));
    }
    check_async(async_option, at, Input::Only)?;
    Ok(Options {
        update_type: piece[UPDATE_TYPE_AT],
        strings,
        async_option,
        end: piece.len(),
    })
}

/// Writes handler options at the start of `output` and answers their size in bytes.
pub fn write_options(
    strings: [&[u8]; 3],
    async_option: u16,
    output: &mut [u8],
) -> Result<usize, Error> {
    for (string, input) in strings.iter().zip(Input::STRINGS) {
        check_size(string, input)?;
    }
    let size = written_size(strings)?;
    let end = BODY_AT + usize::from(size);
    check_async(async_option, end - 2, Input::AsyncOption)?;
    let piece = output
        .get_mut(..end)
        .ok_or(Error::new(ErrorCode::Capacity, end, Input::Output))?;
    piece[0] = TOKEN;
    piece[SIZE_AT..BODY_AT].copy_from_slice(&size.to_le_bytes());
    piece[BODY_AT..UPDATE_TYPE_AT].copy_from_slice(&GUID);
    piece[UPDATE_TYPE_AT] = WRITTEN_UPDATE_TYPE;
    let mut at = STRINGS_AT;
    for string in strings {
        // Shorter than the whole, whose size is two bytes wide.
        let length = string.len() as u16;
        piece[at..at + 2].copy_from_slice(&length.to_le_bytes());
        piece[at + 2..at + 2 + string.len()].copy_from_slice(string);
        at += 2 + string.len();
    }
    piece[at..].copy_from_slice(&async_option.to_le_bytes());
    Ok(end)
}

/// The whole piece, from its token to the end that its size names.
fn sized_piece(bytes: &[u8]) -> Result<&[u8], Error> {
    let token = *bytes.first().ok_or(Error::truncated(bytes, Input::Only))?;
    if token != TOKEN {
        return Err(Error::new(ErrorCode::Constant, 0, Input::Only));
    }
    let size = two_bytes(bytes, SIZE_AT).ok_or(Error::truncated(bytes, Input::Only))?;
    let size = usize::from(size);
    let piece = bytes
        .get(..BODY_AT + size)
        .ok_or(Error::truncated(bytes, Input::Only))?;
    if size < MIN_SIZE {
        return Err(wrong_size(Input::Only));
    }
    Ok(piece)
}

/// Error 2 at the first byte that differs from the GUID.
fn check_guid(piece: &[u8]) -> Result<(), Error> {
    let found = &piece[BODY_AT..UPDATE_TYPE_AT];
    match found
        .iter()
        .zip(GUID)
        .position(|(byte, wanted)| *byte != wanted)
    {
        Some(at) => Err(Error::new(ErrorCode::Constant, BODY_AT + at, Input::Only)),
        None => Ok(()),
    }
}

/// The ends of the string whose length stands at `at`. One that leaves the piece is error 4.
fn string_at(piece: &[u8], at: usize) -> Result<Range<usize>, Error> {
    let length = two_bytes(piece, at).ok_or(wrong_size(Input::Only))?;
    let start = at + 2;
    let end = start + usize::from(length);
    if end > piece.len() {
        return Err(wrong_size(Input::Only));
    }
    Ok(start..end)
}

/// The size of a piece with these strings. Error 4 names the string that takes it over the
/// limit.
fn written_size(strings: [&[u8]; 3]) -> Result<u16, Error> {
    let mut size = MIN_SIZE;
    for (string, input) in strings.iter().zip(Input::STRINGS) {
        size += string.len();
        if size > MAX_SIZE {
            return Err(wrong_size(input));
        }
    }
    // Not over the limit of two bytes.
    Ok(size as u16)
}

/// Error 3 for an async option outside 1 to 3.
fn check_async(async_option: u16, at: usize, input: Input) -> Result<(), Error> {
    if !(1..=3).contains(&async_option) {
        return Err(Error::new(ErrorCode::FieldValue, at, input));
    }
    Ok(())
}

/// Error 4: the size and the fields do not fit each other.
fn wrong_size(input: Input) -> Error {
    Error::new(ErrorCode::OptionsSize, SIZE_AT, input)
}

/// The two-byte number at `at`, if it is whole.
fn two_bytes(bytes: &[u8], at: usize) -> Option<u16> {
    let pair = bytes.get(at..at + 2)?;
    Some(u16::from_le_bytes([pair[0], pair[1]]))
}

#[cfg(test)]
mod tests {
    use super::*;

    fn smallest(async_option: u16) -> Vec<u8> {
        let mut bytes = vec![TOKEN, 25, 0];
        bytes.extend(GUID);
        bytes.extend([1, 0, 0, 0, 0, 0, 0]);
        bytes.extend(async_option.to_le_bytes());
        bytes
    }

    fn only(code: ErrorCode, offset: usize) -> Error {
        Error::new(code, offset, Input::Only)
    }

    #[test]
    fn the_examples_of_the_rules() {
        let options = Options {
            update_type: 1,
            strings: [22..22, 24..24, 26..26],
            async_option: 1,
            end: 28,
        };
        assert_eq!(read_options(&smallest(1)), Ok(options));
        let wrong = read_options(&smallest(4));
        assert_eq!(wrong, Err(only(ErrorCode::FieldValue, 26)));
    }

    #[test]
    fn presence_comes_before_the_smallest_size() {
        let wrong = read_options(&[2, 5, 0]);
        assert_eq!(wrong, Err(only(ErrorCode::Truncated, 3)));
        let wrong = read_options(&[2, 0, 0]);
        assert_eq!(wrong, Err(only(ErrorCode::OptionsSize, 1)));
    }

    #[test]
    fn a_string_that_leaves_the_piece_is_a_wrong_size() {
        let mut bytes = smallest(1);
        bytes[STRINGS_AT] = 7;
        bytes.extend([0; 40]);
        assert_eq!(read_options(&bytes), Err(only(ErrorCode::OptionsSize, 1)));
    }

    #[test]
    fn the_writer_takes_size_then_async_then_capacity() {
        let long = vec![b'x'; MAX_SIZE - MIN_SIZE + 1];
        let over = write_options([&[], &long, b"y"], 9, &mut []);
        let named = Error::new(ErrorCode::OptionsSize, 1, Input::SecondString);
        assert_eq!(over, Err(named));
        let full = &long[1..];
        let wrong = write_options([full, &[], &[]], 9, &mut []);
        let named = Error::new(ErrorCode::FieldValue, 65_536, Input::AsyncOption);
        assert_eq!(wrong, Err(named));
        let small = write_options([full, &[], &[]], 3, &mut [0; 65_537]);
        let named = Error::new(ErrorCode::Capacity, 65_538, Input::Output);
        assert_eq!(small, Err(named));
        let mut output = vec![0; 65_538];
        assert_eq!(write_options([full, &[], &[]], 3, &mut output), Ok(65_538));
    }

    #[test]
    fn what_is_written_reads_back() {
        let mut output = [0xAA; 40];
        assert_eq!(write_options([b"ab", b"", b"cde"], 2, &mut output), Ok(33));
        let options = Options {
            update_type: 1,
            strings: [22..24, 26..26, 28..31],
            async_option: 2,
            end: 33,
        };
        assert_eq!(read_options(&output), Ok(options));
        assert_eq!(output[33..], [0xAA; 7]);
    }
}
