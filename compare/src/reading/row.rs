//! Original row data: the presence map, the walk over the fields, and look-ups.

use std::ops::Range;

use super::column::{Column, Kind};
use super::schema::SchemaFile;
use super::{check_size, Error, ErrorCode, Input};

/// What a row says about one column.
#[derive(Clone, Debug, PartialEq, Eq)]
pub enum Answer {
    /// The field's place in the row, and the length prefixes read up to it, its own included.
    Field {
        place: Range<usize>,
        prefixes: usize,
    },
    Null,
    Chapter,
}

/// The field of one column in a row, found by the walk.
pub fn look_up(schema: &[u8], number: usize, row: &[u8], column: usize) -> Result<Answer, Error> {
    check_size(schema, Input::Schema)?;
    check_size(row, Input::Row)?;
    let file = SchemaFile::read(schema, Input::Schema)?;
    let columns = file.columns(number)?;
    check_column(columns, column)?;
    look_up_in(columns, row, column)
}

/// The number of fields that a row has by its presence map.
pub fn field_count(schema: &[u8], number: usize, row: &[u8]) -> Result<usize, Error> {
    check_size(schema, Input::Schema)?;
    check_size(row, Input::Row)?;
    let file = SchemaFile::read(schema, Input::Schema)?;
    let columns = file.columns(number)?;
    let presence = PresenceMap::of(columns).read(row, 0, Input::Row)?;
    let always = columns
        .iter()
        .filter(|column| !column.nullable && !column.is_chapter())
        .count();
    Ok(always + presence.count_ones() as usize)
}

/// Where the original row data that start at `at` of the row end, all their fields checked.
pub fn row_end(schema: &[u8], number: usize, row: &[u8], at: usize) -> Result<usize, Error> {
    check_size(schema, Input::Schema)?;
    check_size(row, Input::Row)?;
    let file = SchemaFile::read(schema, Input::Schema)?;
    let columns = file.columns(number)?;
    row_end_in(columns, &PresenceMap::of(columns), row, at, Input::Row)
}

/// Error 18 if there is no column of this number.
pub(super) fn check_column(columns: &[Column], column: usize) -> Result<(), Error> {
    if column >= columns.len() {
        return Err(Error::new(ErrorCode::NoSuch, 0, Input::Column));
    }
    Ok(())
}

/// The field of the column at `index`, which must be under the count, in a row within the size
/// limit.
pub fn look_up_in(columns: &[Column], row: &[u8], index: usize) -> Result<Answer, Error> {
    let map = PresenceMap::of(columns);
    let presence = map.read(row, 0, Input::Row)?;
    let (before, asked) = (&columns[..index], &columns[index]);
    if asked.is_chapter() {
        return Ok(Answer::Chapter);
    }
    if asked.nullable {
        let bit = before.iter().filter(|column| column.nullable).count();
        if presence << bit >> 63 == 0 {
            return Ok(Answer::Null);
        }
    }
    let mut walk = Walk::new(row, map.size(), Input::Row);
    walk.pass(before, presence)?;
    walk.find(asked)
}

/// Where the row that starts at `at` of an input ends, all its fields checked.
pub(super) fn row_end_in(
    columns: &[Column],
    map: &PresenceMap,
    bytes: &[u8],
    at: usize,
    input: Input,
) -> Result<usize, Error> {
    let presence = map.read(bytes, at, input)?;
    let mut walk = Walk::new(bytes, at + map.size(), input);
    walk.pass(columns, presence)?;
    Ok(walk.at())
}

/// The form of a schema's presence map: one bit for each nullable column, top bit first.
#[derive(Clone, Copy, Debug, PartialEq, Eq)]
pub(super) struct PresenceMap {
    bits: usize,
    /// The bits of nullable chapters, the map's first bit on top.
    chapters: u64,
}

impl PresenceMap {
    pub(super) fn of(columns: &[Column]) -> PresenceMap {
        let mut bits = 0;
        let mut chapters = 0;
        for column in columns.iter().filter(|column| column.nullable) {
            if column.is_chapter() {
                chapters |= top_bit(bits);
            }
            bits += 1;
        }
        PresenceMap { bits, chapters }
    }

    /// The bits of nullable chapters, the map's first bit on top.
    pub(super) fn chapters(&self) -> u64 {
        self.chapters
    }

    /// The map's size in bytes.
    pub(super) fn size(&self) -> usize {
        self.bits.div_ceil(8)
    }

    /// The map that starts at `at`, its first bit on top and reserved bits cleared.
    pub(super) fn read(&self, bytes: &[u8], at: usize, input: Input) -> Result<u64, Error> {
        let map = bits_at(bytes, at, self.size(), input)?;
        let wrong = map & self.chapters;
        if wrong != 0 {
            return Err(Error::new(
                ErrorCode::ChapterBit,
                at + first_byte(wrong),
                input,
            ));
        }
        Ok(map & top_bits(self.bits))
    }
}

/// A walk over the fields of a row: where it stands and the prefixes it has read.
pub(super) struct Walk<'a> {
    bytes: &'a [u8],
    at: usize,
    prefixes: usize,
    input: Input,
}

impl<'a> Walk<'a> {
    pub(super) fn new(bytes: &'a [u8], at: usize, input: Input) -> Walk<'a> {
        Walk {
            bytes,
            at,
            prefixes: 0,
            input,
        }
    }

    /// The position of the next field.
    pub(super) fn at(&self) -> usize {
        self.at
    }

    /// The length prefixes read so far.
    pub(super) fn prefixes(&self) -> usize {
        self.prefixes
    }

    /// Moves past the fields of these columns, the first of which has the top bit of the map
    /// if it is nullable.
    fn pass(&mut self, columns: &[Column], presence: u64) -> Result<(), Error> {
        let mut presence = presence;
        for column in columns {
            if column.nullable {
                let is_null = presence >> 63 == 0;
                presence <<= 1;
                if is_null {
                    continue;
                }
            }
            self.pass_field(column)?;
        }
        Ok(())
    }

    /// Moves past the field of a present column and answers its place.
    #[inline]
    pub(super) fn pass_field(&mut self, column: &Column) -> Result<Range<usize>, Error> {
        let place = column.field_at(self.bytes, self.at, self.input)?;
        self.at = place.end;
        self.prefixes += usize::from(column.kind == Kind::Variable);
        Ok(place)
    }

    /// Moves on by bytes that are not looked at.
    pub(super) fn skip(&mut self, bytes: usize) {
        self.at += bytes;
    }

    /// The answer for a present column whose field is next.
    pub(super) fn find(mut self, column: &Column) -> Result<Answer, Error> {
        let place = self.pass_field(column)?;
        Ok(Answer::Field {
            place,
            prefixes: self.prefixes,
        })
    }
}

/// The bytes of a map of at most eight bytes as bits, the first bit on top.
#[inline]
pub(super) fn bits_at(bytes: &[u8], at: usize, size: usize, input: Input) -> Result<u64, Error> {
    let map = bytes
        .get(at..)
        .and_then(|rest| rest.get(..size))
        .ok_or(Error::truncated(bytes, input))?;
    let mut bits = 0;
    for byte in map {
        bits = bits << 8 | u64::from(*byte);
    }
    // Up to the top; a map of no bytes has no bits.
    Ok(bits.checked_shl(64 - 8 * size as u32).unwrap_or(0))
}

/// A word with bit `index` set, counted from the top.
pub(super) fn top_bit(index: usize) -> u64 {
    1 << (63 - index)
}

/// A word with the top `count` bits set, at most 64.
pub(super) fn top_bits(count: usize) -> u64 {
    !u64::MAX.checked_shr(count as u32).unwrap_or(0)
}

/// The byte of a map that holds its first set bit.
pub(super) fn first_byte(bits: u64) -> usize {
    bits.leading_zeros() as usize / 8
}

#[cfg(test)]
mod tests {
    use super::*;

    const S: [u8; 9] = [0x03, 0x03, 0x00, 0x82, 0x01, 0x01, 0x0A, 0x11, 0x01];

    fn found(place: Range<usize>, prefixes: usize) -> Result<Answer, Error> {
        Ok(Answer::Field { place, prefixes })
    }

    fn wrong(code: ErrorCode, offset: usize) -> Result<Answer, Error> {
        Err(Error::new(code, offset, Input::Row))
    }

    #[test]
    fn the_examples_of_the_rules() {
        let row = [0xC0, 5, 0, 0, 0, 4, 0x68, 0, 0x69, 0, 0x2A];
        assert_eq!(look_up(&S, 0, &row, 0), found(1..5, 0));
        assert_eq!(look_up(&S, 0, &row, 1), found(6..10, 1));
        assert_eq!(look_up(&S, 0, &row, 2), found(10..11, 1));
        assert_eq!(field_count(&S, 0, &row), Ok(3));
        let row = [0x7F, 5, 0, 0, 0, 0x2A];
        assert_eq!(look_up(&S, 0, &row, 1), Ok(Answer::Null));
        assert_eq!(look_up(&S, 0, &row, 2), found(5..6, 0));
        assert_eq!(field_count(&S, 0, &row), Ok(2));
        let row = [0xC0, 5, 0, 0, 0];
        assert_eq!(look_up(&S, 0, &row, 0), found(1..5, 0));
        assert_eq!(look_up(&S, 0, &row, 2), wrong(ErrorCode::Truncated, 5));
        let row = [0xC0, 5, 0, 0, 0, 3];
        assert_eq!(look_up(&S, 0, &row, 1), wrong(ErrorCode::Length, 5));
    }

    #[test]
    fn lengths_reach_the_maximum_and_no_further() {
        let mut row = vec![0xC0, 5, 0, 0, 0, 20];
        row.extend([0; 22]);
        assert_eq!(look_up(&S, 0, &row, 1), found(6..26, 1));
        row[5] = 22;
        assert_eq!(look_up(&S, 0, &row, 1), wrong(ErrorCode::Length, 5));
    }

    #[test]
    fn a_chapter_bit_comes_before_every_answer() {
        let schema = [2, 0x11, 0, 0x88, 1, 1, 7, 1, 0x11, 0];
        for column in [0, 1] {
            let answer = look_up(&schema, 0, &[0x80, 0x2A], column);
            assert_eq!(answer, wrong(ErrorCode::ChapterBit, 0));
        }
        assert_eq!(look_up(&schema, 0, &[0], 0), wrong(ErrorCode::Truncated, 1));
        assert_eq!(look_up(&schema, 0, &[0], 1), Ok(Answer::Chapter));
    }

    #[test]
    fn a_row_ends_behind_its_last_field() {
        let row = [9, 0x7F, 5, 0, 0, 0, 0x2A, 9];
        assert_eq!(row_end(&S, 0, &row, 1), Ok(7));
        // All fields are looked at, and offsets are those of the whole input.
        let refused = |row: &[u8], at, code, offset| {
            let error = Error::new(code, offset, Input::Row);
            assert_eq!(row_end(&S, 0, row, at), Err(error));
        };
        refused(&row[..6], 1, ErrorCode::Truncated, 6);
        refused(&[9, 0x80, 5, 0, 0, 0, 3], 1, ErrorCode::Length, 6);
        for at in [8, 9, 1 << 32, usize::MAX] {
            refused(&row, at, ErrorCode::Truncated, 8);
        }
        let chapter = [2, 0x11, 0, 0x88, 1, 1, 7, 1, 0x11, 0];
        let bit = Error::new(ErrorCode::ChapterBit, 2, Input::Row);
        assert_eq!(row_end(&chapter, 0, &[0, 0, 0x80], 2), Err(bit));
    }

    #[test]
    fn a_row_of_no_bytes_needs_a_place_in_the_input() {
        let chapters = [1, 0x88, 1, 0, 7, 1, 0x11, 0];
        for at in [0, 1] {
            assert_eq!(row_end(&chapters, 0, &[9], at), Ok(at));
        }
        let behind = Error::new(ErrorCode::Truncated, 1, Input::Row);
        assert_eq!(row_end(&chapters, 0, &[9], 2), Err(behind));
    }

    #[test]
    fn all_sizes_come_first() {
        let row = vec![0; super::super::MAX_INPUT + 1];
        let answer = look_up(&[0], 0, &row, 0);
        assert_eq!(answer, wrong(ErrorCode::Oversize, 0));
    }

    #[test]
    fn words_of_bits() {
        assert_eq!(top_bits(0), 0);
        assert_eq!(top_bits(3), 7 << 61);
        assert_eq!(top_bits(64), u64::MAX);
        assert_eq!(bits_at(&[], 0, 0, Input::Row), Ok(0));
        assert_eq!(bits_at(&[1, 0x80, 0], 1, 2, Input::Row), Ok(1 << 63));
    }
}
