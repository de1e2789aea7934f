//! The writers of original rows and of update data.

use crate::raw;
use crate::Error;

/// What a writer is to write for a column.
#[derive(Clone, Copy, Debug, PartialEq, Eq)]
pub enum Entry {
    /// Null; in an original row also for a chapter.
    Null,
    /// The bytes of the values from a start to an end.
    Value {
        /// The start.
        start: usize,
        /// The end.
        end: usize,
    },
    /// The column stays as it is: in update data only, there also for a chapter.
    Unchanged,
}

/// Writes an original row into `output` from offset `place` on, and answers how many bytes it has.
/// Each column has one entry.
pub fn write_original(
    file: &[u8],
    number: usize,
    entries: &[Entry],
    values: &[u8],
    place: usize,
    output: &mut [u8],
) -> Result<usize, Error> {
    let entries = Numbers::of(entries);
    raw::write_original(file, number, entries.list(), values, place, output).result()
}

/// Writes update data in the same way.
pub fn write_update(
    file: &[u8],
    number: usize,
    entries: &[Entry],
    values: &[u8],
    place: usize,
    output: &mut [u8],
) -> Result<usize, Error> {
    let entries = Numbers::of(entries);
    raw::write_update(file, number, entries.list(), values, place, output).result()
}

/// One more than a schema has columns. More entries than these are refused as these are.
const MOST_ENTRIES: usize = 65;

/// The numbers of an entry.
const OF_ENTRY: usize = 3;

/// Entries as the numbers of `adtg.h`.
struct Numbers {
    numbers: [u32; MOST_ENTRIES * OF_ENTRY],
    count: usize,
}

impl Numbers {
    fn of(entries: &[Entry]) -> Numbers {
        let entries = &entries[..entries.len().min(MOST_ENTRIES)];
        let mut numbers = [0; MOST_ENTRIES * OF_ENTRY];
        for (numbers, entry) in numbers.chunks_mut(OF_ENTRY).zip(entries) {
            numbers.copy_from_slice(&entry.numbers());
        }
        Numbers {
            numbers,
            count: entries.len() * OF_ENTRY,
        }
    }

    fn list(&self) -> &[u32] {
        &self.numbers[..self.count]
    }
}

impl Entry {
    /// Its kind, start and end. No values reach as far as the greatest number, so an end that is
    /// greater still is refused as that is.
    fn numbers(self) -> [u32; OF_ENTRY] {
        let number = |end: usize| u32::try_from(end).unwrap_or(u32::MAX);
        match self {
            Entry::Null => [0, 0, 0],
            Entry::Value { start, end } => [1, number(start), number(end)],
            Entry::Unchanged => [2, 0, 0],
        }
    }
}

#[cfg(test)]
mod tests {
    use super::*;
    use crate::tests::{ROW, S};
    use crate::{ErrorKind, Input};

    const ENTRIES: [Entry; 3] = [value(0, 4), value(4, 8), value(8, 9)];
    const VALUES: [u8; 9] = [5, 0, 0, 0, 0x68, 0, 0x69, 0, 0x2A];

    const fn value(start: usize, end: usize) -> Entry {
        Entry::Value { start, end }
    }

    fn error(kind: ErrorKind, offset: usize, input: Input) -> Result<usize, Error> {
        Err(Error {
            kind,
            offset,
            input,
        })
    }

    #[test]
    fn a_row_is_written_from_a_place_on() {
        let mut output = [9; 13];
        let written = write_original(&S, 0, &ENTRIES, &VALUES, 1, &mut output);
        assert_eq!(written, Ok(ROW.len()));
        assert_eq!(output[1..12], ROW);
        assert_eq!((output[0], output[12]), (9, 9));
    }

    #[test]
    fn update_data_are_written_too() {
        let mut output = [9; 4];
        let entries = [Entry::Unchanged, Entry::Null, value(8, 9)];
        let written = write_update(&S, 0, &entries, &VALUES, 0, &mut output);
        assert_eq!(written, Ok(3));
        assert_eq!(output, [0x60, 0x40, 0x2A, 9]);
    }

    #[test]
    fn refusals_are_those_of_the_archive() {
        let write = |entries: &[Entry], place| {
            let mut output = [9; 12];
            let written = write_original(&S, 0, entries, &VALUES, place, &mut output);
            assert!(written.is_ok() || output == [9; 12]);
            written
        };
        let missing = |input| error(ErrorKind::Missing, 0, input);
        assert_eq!(write(&ENTRIES, 13), missing(Input::Place));
        assert_eq!(write(&ENTRIES, usize::MAX), missing(Input::Place));
        assert_eq!(
            write(&ENTRIES, 2),
            error(ErrorKind::Capacity, 11, Input::Output)
        );
        let null = [Entry::Null; 3];
        assert_eq!(write(&null, 0), error(ErrorKind::Entry, 0, Input::Entries));
        for count in [0, 2, 4, 63, 64, 65, 66, 1000] {
            let entries = vec![Entry::Null; count];
            assert_eq!(write(&entries, 0), missing(Input::Entries), "{count}");
        }
    }

    #[test]
    fn ends_that_32_bits_do_not_hold_are_outside_the_values() {
        let large = 1 << 32;
        for wrong in [
            value(0, large + 4),
            value(large, large + 4),
            value(large, 4),
            value(usize::MAX, usize::MAX),
            value(9, 8),
        ] {
            let mut entries = ENTRIES;
            entries[0] = wrong;
            let mut output = [9; 12];
            let written = write_original(&S, 0, &entries, &VALUES, 0, &mut output);
            assert_eq!(written, error(ErrorKind::Missing, 0, Input::Entries));
        }
    }
}
