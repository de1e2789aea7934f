//! Writers of original and update row data.

use super::column::{Column, Kind};
use super::row::{top_bit, PresenceMap};
use super::schema::SchemaFile;
use super::update::UpdateMaps;
use super::{check_size, Error, ErrorCode, Input};

/// What a writer puts into one column.
#[derive(Clone, Copy, Debug, PartialEq, Eq)]
pub enum Entry {
    Null,
    /// Left as it is; in update data only.
    Unchanged,
    /// The part of the values from `start` to `end`.
    Value {
        start: usize,
        end: usize,
    },
    /// Numbers that say none of these; always refused.
    Unknown,
}

/// Numbers that say one entry: its kind, and start and end of a value.
pub const ENTRY_NUMBERS: usize = 3;

/// Kinds of entries as numbers.
pub const NULL: u32 = 0;
pub const VALUE: u32 = 1;
pub const UNCHANGED: u32 = 2;

/// The entries that a list of numbers says. Start and end matter for a value alone; too few
/// numbers at the end of the list are no entry.
pub fn entries_of(numbers: &[u32]) -> Vec<Entry> {
    let entry = |numbers: &[u32]| match *numbers {
        [NULL, _, _] => Entry::Null,
        [VALUE, start, end] => Entry::Value {
            start: start as usize,
            end: end as usize,
        },
        [UNCHANGED, _, _] => Entry::Unchanged,
        _ => Entry::Unknown,
    };
    numbers.chunks(ENTRY_NUMBERS).map(entry).collect()
}

/// The list of numbers that says these entries, if there is one.
pub fn entry_numbers(entries: &[Entry]) -> Option<Vec<u32>> {
    let mut numbers = Vec::with_capacity(ENTRY_NUMBERS * entries.len());
    for entry in entries {
        numbers.extend(match *entry {
            Entry::Null => [NULL, 0, 0],
            Entry::Unchanged => [UNCHANGED, 0, 0],
            Entry::Value { start, end } => {
                [VALUE, u32::try_from(start).ok()?, u32::try_from(end).ok()?]
            }
            Entry::Unknown => return None,
        });
    }
    Some(numbers)
}

/// Writes original row data into `output` from `place` on and answers its size.
pub fn write_original(
    schema: &[u8],
    number: usize,
    entries: &[Entry],
    values: &[u8],
    output: &mut [u8],
    place: usize,
) -> Result<usize, Error> {
    check_size(schema, Input::Schema)?;
    check_size(values, Input::Values)?;
    let file = SchemaFile::read(schema, Input::Schema)?;
    let columns = file.columns(number)?;
    check_arguments(columns, entries, values, output, place)?;
    let map = PresenceMap::of(columns);
    let mut size = map.size();
    for (index, (column, entry)) in columns.iter().zip(entries).enumerate() {
        size += original_size(column, entry).ok_or(wrong_entry(index))?;
    }
    let row = room_at(output, place, size)?;
    let mut presence = 0;
    let mut bit = 0;
    for (column, entry) in columns.iter().zip(entries) {
        if column.nullable {
            if *entry != Entry::Null {
                presence |= top_bit(bit);
            }
            bit += 1;
        }
    }
    let (map_bytes, fields) = row.split_at_mut(map.size());
    put_bits(presence, map_bytes);
    put_fields(columns, entries, values, fields);
    Ok(size)
}

/// Writes update row data into `output` from `place` on and answers its size.
pub fn write_update(
    schema: &[u8],
    number: usize,
    entries: &[Entry],
    values: &[u8],
    output: &mut [u8],
    place: usize,
) -> Result<usize, Error> {
    check_size(schema, Input::Schema)?;
    check_size(values, Input::Values)?;
    let file = SchemaFile::read(schema, Input::Schema)?;
    let columns = file.columns(number)?;
    check_arguments(columns, entries, values, output, place)?;
    let map_size = UpdateMaps::of(columns).size();
    let mut size = 2 * map_size;
    for (index, (column, entry)) in columns.iter().zip(entries).enumerate() {
        size += update_size(column, entry).ok_or(wrong_entry(index))?;
    }
    let row = room_at(output, place, size)?;
    let (mut update, mut force) = (0, 0);
    for (index, entry) in entries.iter().enumerate() {
        match entry {
            Entry::Unchanged | Entry::Unknown => {}
            Entry::Null => {
                update |= top_bit(index);
                force |= top_bit(index);
            }
            Entry::Value { .. } => update |= top_bit(index),
        }
    }
    let (map_bytes, rest) = row.split_at_mut(map_size);
    put_bits(update, map_bytes);
    let (map_bytes, fields) = rest.split_at_mut(map_size);
    put_bits(force, map_bytes);
    put_fields(columns, entries, values, fields);
    Ok(size)
}

/// Error 18 for a place past the output, for a wrong number of entries, and for an entry that
/// is none or lies outside the values.
fn check_arguments(
    columns: &[Column],
    entries: &[Entry],
    values: &[u8],
    output: &[u8],
    place: usize,
) -> Result<(), Error> {
    if place > output.len() {
        return Err(Error::new(ErrorCode::NoSuch, 0, Input::Place));
    }
    let within = |entry: &Entry| match *entry {
        Entry::Null | Entry::Unchanged => true,
        Entry::Value { start, end } => start <= end && end <= values.len(),
        Entry::Unknown => false,
    };
    if entries.len() != columns.len() || !entries.iter().all(within) {
        return Err(Error::new(ErrorCode::NoSuch, 0, Input::Entries));
    }
    Ok(())
}

/// The bytes that an entry takes in original data, if it can stand in the column.
fn original_size(column: &Column, entry: &Entry) -> Option<usize> {
    match entry {
        Entry::Null => (column.nullable || column.is_chapter()).then_some(0),
        Entry::Unchanged | Entry::Unknown => None,
        Entry::Value { start, end } => value_size(column, end - start),
    }
}

/// The bytes that an entry takes in update data, if it can stand in the column.
fn update_size(column: &Column, entry: &Entry) -> Option<usize> {
    match entry {
        Entry::Null => (column.nullable && !column.is_chapter()).then_some(0),
        Entry::Unchanged => Some(0),
        Entry::Value { start, end } => value_size(column, end - start),
        Entry::Unknown => None,
    }
}

/// The bytes that a value of this length takes, its prefix included, if the column allows it.
fn value_size(column: &Column, length: usize) -> Option<usize> {
    match column.kind {
        Kind::Fixed(width) => (length == usize::from(width)).then_some(length),
        Kind::Variable => {
            let prefix = column.prefix_size();
            let sayable = prefix > 1 || length <= usize::from(u8::MAX);
            (sayable && column.allows_length(length)).then_some(prefix + length)
        }
        Kind::Chapter => None,
    }
}

/// Error 20: the entry of this column cannot stand there.
fn wrong_entry(index: usize) -> Error {
    Error::new(ErrorCode::Entry, index, Input::Entries)
}

/// The part of the output that a row of this size takes, or error 16.
fn room_at(output: &mut [u8], place: usize, size: usize) -> Result<&mut [u8], Error> {
    output
        .get_mut(place..)
        .and_then(|rest| rest.get_mut(..size))
        .ok_or(Error::new(ErrorCode::Capacity, size, Input::Output))
}

/// Fills a map with the bits of a word, its top bit first.
fn put_bits(bits: u64, map: &mut [u8]) {
    let bytes = bits.to_be_bytes();
    map.copy_from_slice(&bytes[..map.len()]);
}

/// Writes the fields of all entries that are values, one after another.
fn put_fields(columns: &[Column], entries: &[Entry], values: &[u8], fields: &mut [u8]) {
    let mut at = 0;
    for (column, entry) in columns.iter().zip(entries) {
        let Entry::Value { start, end } = *entry else {
            continue;
        };
        let value = &values[start..end];
        // The column's rules hold, so the length fits its prefix.
        let length = (value.len() as u32).to_le_bytes();
        let prefix = column.prefix_size();
        fields[at..at + prefix].copy_from_slice(&length[..prefix]);
        at += prefix;
        fields[at..at + value.len()].copy_from_slice(value);
        at += value.len();
    }
}

#[cfg(test)]
mod tests {
    use super::*;

    /// Four bytes, and a nullable wide text of at most 200.
    const SCHEMA: [u8; 8] = [2, 0x03, 0, 0x82, 1, 1, 0xC8, 1];
    const FOUR: Entry = Entry::Value { start: 0, end: 4 };

    fn value(start: usize, end: usize) -> Entry {
        Entry::Value { start, end }
    }

    fn original(entries: &[Entry], output: &mut [u8], place: usize) -> Result<usize, Error> {
        write_original(&SCHEMA, 0, entries, &[7; 256], output, place)
    }

    fn update(entries: &[Entry], output: &mut [u8]) -> Result<usize, Error> {
        write_update(&SCHEMA, 0, entries, &[7; 256], output, 0)
    }

    fn wrong(code: ErrorCode, offset: usize, input: Input) -> Result<usize, Error> {
        Err(Error::new(code, offset, input))
    }

    #[test]
    fn a_row_is_written_at_its_place() {
        let mut output = [0xAA; 10];
        assert_eq!(original(&[FOUR, Entry::Null], &mut output, 3), Ok(5));
        assert_eq!(output[..3], [0xAA; 3]);
        assert_eq!(output[3..8], [0x00, 7, 7, 7, 7]);
        assert_eq!(output[8..], [0xAA; 2]);
    }

    #[test]
    fn capacity_counts_the_row_alone() {
        let mut output = [0xAA; 10];
        let small = original(&[FOUR, Entry::Null], &mut output, 8);
        assert_eq!(small, wrong(ErrorCode::Capacity, 5, Input::Output));
        assert_eq!(output, [0xAA; 10]);
    }

    #[test]
    fn arguments_come_before_entries_and_entries_before_capacity() {
        let place = original(&[Entry::Unchanged, FOUR], &mut [0; 10], 11);
        assert_eq!(place, wrong(ErrorCode::NoSuch, 0, Input::Place));
        for outside in [value(250, 257), value(3, 2), value(257, 257)] {
            let answer = original(&[Entry::Unchanged, outside], &mut [], 0);
            assert_eq!(answer, wrong(ErrorCode::NoSuch, 0, Input::Entries));
        }
        let missing = original(&[Entry::Unchanged], &mut [], 0);
        assert_eq!(missing, wrong(ErrorCode::NoSuch, 0, Input::Entries));
        let unchanged = original(&[Entry::Unchanged, FOUR], &mut [], 0);
        assert_eq!(unchanged, wrong(ErrorCode::Entry, 0, Input::Entries));
    }

    #[test]
    fn entries_are_three_numbers_each() {
        let entries = [Entry::Null, Entry::Unchanged, value(5, 7)];
        let numbers = entry_numbers(&entries).unwrap();
        assert_eq!(numbers, [0, 0, 0, 2, 0, 0, 1, 5, 7]);
        assert_eq!(entries_of(&numbers), entries);
        // The ends of what is no value do not matter.
        assert_eq!(entries_of(&[0, 9, 1, 2, 9, 1]), entries[..2]);
        let outside = u32::MAX as usize + 1;
        assert_eq!(entry_numbers(&[value(0, outside)]), None);
        assert_eq!(entry_numbers(&[Entry::Unknown]), None);
    }

    #[test]
    fn numbers_that_are_no_entry_are_refused_before_entries_that_cannot_stand() {
        let refused = wrong(ErrorCode::NoSuch, 0, Input::Entries);
        for numbers in [
            &[2, 0, 0, 3, 0, 0][..],
            &[2, 0, 0, u32::MAX, 0, 0],
            &[2, 0, 0, 0, 0],
            &[2, 0, 0, 0],
            &[2, 0, 0, 0, 0, 0, 0],
            &[2, 0, 0],
            &[],
        ] {
            assert_eq!(original(&entries_of(numbers), &mut [], 0), refused);
            assert_eq!(update(&entries_of(numbers), &mut []), refused);
        }
        let cannot_stand = original(&entries_of(&[2, 0, 0, 0, 0, 0]), &mut [], 0);
        assert_eq!(cannot_stand, wrong(ErrorCode::Entry, 0, Input::Entries));
    }

    #[test]
    fn a_length_must_be_allowed_and_sayable() {
        let refused = wrong(ErrorCode::Entry, 1, Input::Entries);
        assert_eq!(original(&[FOUR, value(0, 256)], &mut [], 0), refused);
        assert_eq!(original(&[FOUR, value(0, 3)], &mut [], 0), refused);
        assert_eq!(original(&[FOUR, value(0, 254)], &mut [0; 260], 0), Ok(260));
    }

    #[test]
    fn an_update_forces_nulls_only_where_they_may_be() {
        let mut output = [0xAA; 4];
        let entries = [Entry::Unchanged, Entry::Null];
        assert_eq!(update(&entries, &mut output), Ok(2));
        assert_eq!(output, [0x40, 0x40, 0xAA, 0xAA]);
        let refused = wrong(ErrorCode::Entry, 0, Input::Entries);
        assert_eq!(update(&[Entry::Null, Entry::Null], &mut []), refused);
    }
}
