//! Original rows, read with the schema file that says their columns. A look-up walks over the columns
//! before the one that it asks for. A [`Plan`](crate::Plan) jumps over most of them.

use crate::raw::{self, size, Numbers, Value};
use crate::Error;

/// What a row says about a column.
#[derive(Clone, Copy, Debug, PartialEq, Eq)]
pub enum Answer {
    /// A field of the row.
    Field {
        /// Where it starts in the row.
        start: usize,
        /// Where it ends.
        end: usize,
        /// How many length prefixes were read on the way to it, its own included.
        prefixes: usize,
    },
    /// The column is null.
    Null,
    /// The column is a chapter and has no field.
    Chapter,
}

impl Answer {
    /// The kinds of `adtg.h`.
    pub(crate) const FIELD: u64 = 1;
    pub(crate) const NULL: u64 = 2;
    pub(crate) const CHAPTER: u64 = 3;

    /// The field's bytes in the row that it was found in; `None` where there is no field.
    #[inline]
    pub fn part(self, row: &[u8]) -> Option<&[u8]> {
        match self {
            Answer::Field { start, end, .. } => row.get(start..end),
            Answer::Null | Answer::Chapter => None,
        }
    }
}

/// Looks up a column in an original row, which starts at `row`. Bytes behind the field don't
/// matter.
pub fn look_up(file: &[u8], number: usize, row: &[u8], column: usize) -> Result<Answer, Error> {
    raw::look_up(file, number, row, column).result()
}

/// Counts the fields of an original row by its presence map.
pub fn field_count(file: &[u8], number: usize, row: &[u8]) -> Result<usize, Error> {
    raw::field_count(file, number, row).result()
}

/// Reads the original row at offset `at` of `row` in full, and answers where it ends in `row`.
pub fn row_end(file: &[u8], number: usize, row: &[u8], at: usize) -> Result<usize, Error> {
    raw::row_end(file, number, row, at).result()
}

impl Value for Answer {
    const COUNT: usize = 4;

    fn of(numbers: &Numbers) -> Option<Answer> {
        match *numbers {
            [Answer::FIELD, start, end, prefixes, ..] => Some(Answer::Field {
                start: size(start),
                end: size(end),
                prefixes: size(prefixes),
            }),
            [Answer::NULL, 0, 0, 0, ..] => Some(Answer::Null),
            [Answer::CHAPTER, 0, 0, 0, ..] => Some(Answer::Chapter),
            _ => None,
        }
    }
}

#[cfg(test)]
mod tests {
    use super::*;
    use crate::tests::{numbers, ROW, S, T};
    use crate::{ErrorKind, Input};

    #[test]
    fn a_row_says_each_column() {
        let field = |start, end, prefixes| {
            Ok(Answer::Field {
                start,
                end,
                prefixes,
            })
        };
        assert_eq!(look_up(&S, 0, &ROW, 0), field(1, 5, 0));
        assert_eq!(look_up(&S, 0, &ROW, 1), field(6, 10, 1));
        assert_eq!(look_up(&S, 0, &ROW, 2), field(10, 11, 1));
        let null = [0x7F, 5, 0, 0, 0, 0x2A];
        assert_eq!(look_up(&S, 0, &null, 1), Ok(Answer::Null));
        assert_eq!(look_up(&T, 0, &[5, 0, 0, 0], 1), Ok(Answer::Chapter));
        assert_eq!(field_count(&S, 0, &ROW), Ok(3));
        assert_eq!(row_end(&S, 0, &ROW, 0), Ok(11));
    }

    #[test]
    fn a_field_is_a_part_of_its_row() {
        let text = look_up(&S, 0, &ROW, 1).unwrap();
        assert_eq!(text.part(&ROW), Some(&ROW[6..10]));
        assert_eq!(text.part(&ROW[..9]), None);
        assert_eq!(Answer::Null.part(&ROW), None);
    }

    #[test]
    fn what_is_out_of_range_is_refused() {
        let error = |kind, offset, input| Error {
            kind,
            offset,
            input,
        };
        let column = error(ErrorKind::Missing, 0, Input::Column);
        assert_eq!(look_up(&S, 0, &ROW, 3), Err(column));
        assert_eq!(look_up(&S, 0, &ROW, usize::MAX), Err(column));
        let number = error(ErrorKind::Missing, 0, Input::SchemaNumber);
        assert_eq!(field_count(&S, 1, &ROW), Err(number));
        let short = error(ErrorKind::Short, 0, Input::Row);
        assert_eq!(look_up(&S, 0, &[], 0), Err(short));
        assert_eq!(row_end(&S, 0, &[], usize::MAX), Err(short));
        let file = error(ErrorKind::Short, 0, Input::Schema);
        assert_eq!(look_up(&[], 0, &[], 0), Err(file));
    }

    #[test]
    fn an_answer_has_a_field_or_zeros() {
        let (start, end, prefixes) = (6, 10, 1);
        let field = Answer::Field {
            start,
            end,
            prefixes,
        };
        assert_eq!(Answer::of(&numbers(&[1, 6, 10, 1])), Some(field));
        assert_eq!(Answer::of(&numbers(&[2])), Some(Answer::Null));
        assert_eq!(Answer::of(&numbers(&[3])), Some(Answer::Chapter));
        for wrong in [&[0, 0][..], &[4, 0], &[2, 1], &[2, 0, 1], &[3, 0, 0, 1]] {
            assert_eq!(Answer::of(&numbers(wrong)), None, "{wrong:?}");
        }
    }
}
