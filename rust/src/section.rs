//! Row sections: many rows, one after the other, and the table that lists them.

use crate::raw::{self, Malformed};
use crate::Error;

/// How many numbers of a table a row takes.
pub const ROW_NUMBERS: usize = 4;

/// A row of a section.
#[derive(Clone, Copy, Debug, PartialEq, Eq)]
pub struct Row {
    /// Its kind.
    pub kind: RowKind,
    /// The id of the schema of a child row; `None` for a parent.
    pub child_id: Option<u32>,
    /// Where its original data start in the section.
    pub original: usize,
    /// Where the update data of a changed row start in the section; `None` for any other.
    pub update: Option<usize>,
}

/// The kinds of rows. The codes are those of `adtg.h`.
#[derive(Clone, Copy, Debug, PartialEq, Eq, Hash)]
#[repr(u8)]
pub enum RowKind {
    /// A parent row.
    Parent = 1,
    /// A child row.
    Child = 2,
    /// A child row that is changed.
    ChildChanged = 3,
    /// A child row that is deleted.
    ChildDeleted = 4,
}

/// The rows of a section, in a table.
#[derive(Clone, Copy, Debug, PartialEq, Eq)]
pub struct Rows<'a> {
    numbers: &'a [u32],
}

/// Checks a whole row section, and answers how many rows it has. The call takes up to 31 KB of stack.
pub fn check_section(file: &[u8], section: &[u8]) -> Result<usize, Error> {
    raw::check_section(file, section).result()
}

/// Checks a whole row section and lists its rows in a table. Each row takes [`ROW_NUMBERS`] numbers.
/// Numbers behind the last row stay as they were. An error leaves the whole table.
///
/// What [`check_section`] refuses, this call refuses with the same error. Then it checks the room: if
/// the table is too small, the error is of the kind `Capacity`, and its offset says how many rows
/// there are. The call takes up to 96 KB of stack.
pub fn list_section<'a>(
    file: &[u8],
    section: &[u8],
    table: &'a mut [u32],
) -> Result<Rows<'a>, Error> {
    let count = raw::list_section(file, section, table).result()?;
    Ok(Rows {
        numbers: &table[..count * ROW_NUMBERS],
    })
}

impl<'a> Rows<'a> {
    /// The rows of numbers that you kept, four each. `None` if they are not the numbers of whole rows:
    /// if one has a kind without a meaning, is a parent with a child id, or has update data and is not
    /// changed. The places are not checked: they may lie behind a section.
    ///
    /// ```
    /// use adtg::{RowKind, Rows};
    ///
    /// let rows = Rows::from_numbers(&[1, 0, 1, 0, 3, 7, 10, 16]).unwrap();
    /// assert_eq!(rows.get(1).unwrap().kind, RowKind::ChildChanged);
    /// assert_eq!(Rows::from_numbers(&[5, 0, 1, 0]), None);
    /// assert_eq!(Rows::from_numbers(&[1, 0, 1]), None);
    /// ```
    pub fn from_numbers(numbers: &'a [u32]) -> Option<Rows<'a>> {
        let rows = numbers.chunks_exact(ROW_NUMBERS);
        let is_whole = rows.remainder().is_empty();
        let mut rows = rows.map(decode);
        (is_whole && rows.all(|row| row.is_some())).then_some(Rows { numbers })
    }

    /// How many rows there are.
    pub fn len(self) -> usize {
        self.numbers.len() / ROW_NUMBERS
    }

    /// True if there are none.
    pub fn is_empty(self) -> bool {
        self.numbers.is_empty()
    }

    /// The row of this number, counted from 0.
    pub fn get(self, number: usize) -> Option<Row> {
        self.numbers.chunks_exact(ROW_NUMBERS).nth(number).map(row)
    }

    /// All rows, in order.
    pub fn iter(self) -> impl ExactSizeIterator<Item = Row> + 'a {
        self.numbers.chunks_exact(ROW_NUMBERS).map(row)
    }

    /// The numbers of the rows, four each: kind, child id, places of original and update data.
    pub fn numbers(self) -> &'a [u32] {
        self.numbers
    }
}

/// The row that four numbers say.
fn row(numbers: &[u32]) -> Row {
    decode(numbers).unwrap_or_else(|| {
        let numbers: Vec<u64> = numbers.iter().copied().map(u64::from).collect();
        Malformed::new(0, &numbers).fail()
    })
}

/// The row, if its numbers have a meaning.
fn decode(numbers: &[u32]) -> Option<Row> {
    let (kind, child_id, original, update) = match *numbers {
        [1, 0, original, 0] => (RowKind::Parent, None, original, None),
        [2, id, original, 0] => (RowKind::Child, Some(id), original, None),
        [3, id, original, update] => (RowKind::ChildChanged, Some(id), original, Some(update)),
        [4, id, original, 0] => (RowKind::ChildDeleted, Some(id), original, None),
        _ => return None,
    };
    Some(Row {
        kind,
        child_id,
        original: original as usize,
        update: update.map(|place| place as usize),
    })
}

impl RowKind {
    /// The code, 1 to 4.
    pub const fn code(self) -> u32 {
        self as u32
    }
}

#[cfg(test)]
mod tests {
    use super::*;
    use crate::tests::{SECTION, T};
    use crate::{current, ErrorKind, Input, MAX_INPUT};

    /// A section of T: a child row that is deleted, one that is changed, one as it was, a parent.
    const FOUR_ROWS: [u8; 37] = [
        0x87, 7, 0, 0, 0, 0x2A, 0x8C, 7, 0, 0, 0, //
        0x87, 7, 0, 0, 0, 0x2A, 0x8A, 7, 0, 0, 0, 0x80, 0x00, 0x2B, //
        0x87, 7, 0, 0, 0, 0x2A, //
        0x07, 1, 2, 3, 4, 0x0F,
    ];

    fn error(kind: ErrorKind, offset: usize, input: Input) -> Error {
        Error {
            kind,
            offset,
            input,
        }
    }

    #[test]
    fn a_section_is_listed_in_rows() {
        let mut table = [9; 11];
        let rows = list_section(&T, &SECTION, &mut table).unwrap();
        let parent = Row {
            kind: RowKind::Parent,
            child_id: None,
            original: 1,
            update: None,
        };
        let changed = Row {
            kind: RowKind::ChildChanged,
            child_id: Some(7),
            original: 10,
            update: Some(16),
        };
        assert_eq!(rows.iter().collect::<Vec<Row>>(), [parent, changed]);
        assert_eq!((rows.len(), rows.is_empty()), (2, false));
        assert_eq!((rows.get(1), rows.get(2)), (Some(changed), None));
        assert_eq!(rows.get(usize::MAX), None);
        assert_eq!(rows.numbers(), [1, 0, 1, 0, 3, 7, 10, 16]);
        assert_eq!(table[8..], [9; 3]);
        let (row, update) = (&SECTION[10..], &SECTION[16..]);
        let value = current(&T, 1, row, update, 0).unwrap();
        assert_eq!(value.part(row, update), Some(&[0x2B][..]));
    }

    #[test]
    fn an_error_leaves_the_table() {
        let mut table = [9; 7];
        let room = error(ErrorKind::Capacity, 2, Input::Table);
        assert_eq!(list_section(&T, &SECTION, &mut table), Err(room));
        let short = error(ErrorKind::Short, 0, Input::Section);
        assert_eq!(list_section(&T, &[], &mut table), Err(short));
        assert_eq!(table, [9; 7]);
        assert!(list_section(&T, &[0x0F], &mut []).unwrap().is_empty());
    }

    #[test]
    fn as_many_rows_are_counted_as_are_listed() {
        for (section, count) in [(&SECTION[..], 2), (&[0x0F], 0), (&FOUR_ROWS, 4)] {
            assert_eq!(check_section(&T, section), Ok(count));
            let mut table = vec![9; count * ROW_NUMBERS];
            let rows = list_section(&T, section, &mut table).unwrap();
            assert_eq!(rows.len(), count);
            // Whatever room the table lacks, the count stays.
            let room = error(ErrorKind::Capacity, count, Input::Table);
            for short in 0..table.len() {
                let listed = list_section(&T, section, &mut table[..short]);
                assert_eq!(listed, Err(room), "{short}");
            }
        }
    }

    #[test]
    fn what_is_refused_is_refused_alike() {
        let changed = |at: usize, byte: u8| {
            let mut section = SECTION;
            section[at] = byte;
            section.to_vec()
        };
        let large = vec![0; MAX_INPUT + 1];
        let of_section = |kind, offset| error(kind, offset, Input::Section);
        let of_file = |kind, offset| error(kind, offset, Input::Schema);
        let cases = [
            (&T[..], vec![], of_section(ErrorKind::Short, 0)),
            (&T, SECTION[..14].to_vec(), of_section(ErrorKind::Short, 14)),
            (&T, changed(0, 0x0A), of_section(ErrorKind::UnknownToken, 0)),
            (&T, changed(6, 8), of_section(ErrorKind::UnknownId, 5)),
            (&T, changed(12, 8), of_section(ErrorKind::Unpaired, 11)),
            (&T, changed(17, 0x80), of_section(ErrorKind::ForceNull, 17)),
            (&T, vec![0x0F, 0x0F], of_section(ErrorKind::Trailing, 1)),
            (&T, large.clone(), of_section(ErrorKind::TooLarge, 0)),
            (&T[..9], vec![], of_file(ErrorKind::Short, 9)),
            (&[0], SECTION.to_vec(), of_file(ErrorKind::Range, 0)),
            (&large, large.clone(), of_file(ErrorKind::TooLarge, 0)),
        ];
        for (file, section, error) in cases {
            assert_eq!(check_section(file, &section), Err(error));
            for space in [0, 7, 8, 16] {
                let mut table = [9; 16];
                let listed = list_section(file, &section, &mut table[..space]);
                assert_eq!(listed, Err(error));
                assert_eq!(table, [9; 16]);
            }
        }
    }

    #[test]
    fn the_numbers_of_a_row_have_a_meaning() {
        for kind in [
            RowKind::Parent,
            RowKind::Child,
            RowKind::ChildChanged,
            RowKind::ChildDeleted,
        ] {
            let row = decode(&[kind.code(), 0, 5, 0]).unwrap();
            assert_eq!((row.kind, row.original), (kind, 5));
        }
        for wrong in [
            [0, 0, 5, 0],
            [5, 0, 5, 0],
            [1, 7, 5, 0],
            [1, 0, 5, 6],
            [2, 7, 5, 6],
            [4, 7, 5, 6],
        ] {
            assert_eq!(decode(&wrong), None, "{wrong:?}");
            let numbers = [1, 0, 5, 0, wrong[0], wrong[1], wrong[2], wrong[3]];
            assert_eq!(Rows::from_numbers(&numbers), None);
            assert!(Rows::from_numbers(&numbers[..4]).is_some());
        }
    }

    #[test]
    fn rows_are_kept_as_their_numbers() {
        let mut table = [9; 16];
        let rows = list_section(&T, &FOUR_ROWS, &mut table).unwrap();
        assert_eq!(Rows::from_numbers(rows.numbers()), Some(rows));
        for length in 0..=16 {
            let part = Rows::from_numbers(&rows.numbers()[..length]);
            assert_eq!(part.is_some(), length % ROW_NUMBERS == 0);
            if let Some(part) = part {
                assert_eq!(part.iter().count(), length / ROW_NUMBERS);
            }
        }
        let any = [4, u32::MAX, u32::MAX, 0];
        assert_eq!(Rows::from_numbers(&any).unwrap().get(0), decode(&any));
    }
}
