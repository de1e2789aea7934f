//! Update data, which say what changes in a row, and the current value of a changed row.

use crate::raw::{self, size, Numbers, Value};
use crate::row::Answer;
use crate::Error;

/// What update data say about a column.
#[derive(Clone, Copy, Debug, PartialEq, Eq)]
pub enum Change {
    /// A new field.
    Field {
        /// Where it starts in the update data.
        start: usize,
        /// Where it ends.
        end: usize,
        /// How many length prefixes were read on the way to it, its own included.
        prefixes: usize,
    },
    /// The column is now null.
    Null,
    /// The column is a chapter and has no field.
    Chapter,
    /// The column stays as it is.
    Unchanged,
}

/// The current value of a column of a changed row.
#[derive(Clone, Copy, Debug, PartialEq, Eq)]
pub enum Current {
    /// The update data leave the column as it is; the original row says this.
    Original(Answer),
    /// The update data have a new field.
    Updated {
        /// Where it starts in the update data.
        start: usize,
        /// Where it ends.
        end: usize,
        /// How many length prefixes were read on the way to it, its own included.
        prefixes: usize,
    },
    /// The update data make the column null.
    Forced,
}

impl Change {
    const UNCHANGED: u64 = 4;

    /// The new field's bytes in the update data that it was found in; `None` where there is none.
    pub fn part(self, update: &[u8]) -> Option<&[u8]> {
        match self {
            Change::Field { start, end, .. } => update.get(start..end),
            Change::Null | Change::Chapter | Change::Unchanged => None,
        }
    }
}

impl Current {
    /// The sides of `adtg.h`.
    const FROM_ROW: u64 = 1;
    const FROM_UPDATE: u64 = 2;

    /// The value's bytes, in the row or in the update data that it was found in; `None` where
    /// there is no field.
    pub fn part<'a>(self, row: &'a [u8], update: &'a [u8]) -> Option<&'a [u8]> {
        match self {
            Current::Original(answer) => answer.part(row),
            Current::Updated { start, end, .. } => update.get(start..end),
            Current::Forced => None,
        }
    }
}

/// Looks up a column in update data, which start at `update`. The call reads them in full.
pub fn look_update(
    file: &[u8],
    number: usize,
    update: &[u8],
    column: usize,
) -> Result<Change, Error> {
    raw::look_update(file, number, update, column).result()
}

/// Reads the update data at offset `at` of `update` in full, and answers where they end in `update`.
pub fn update_end(file: &[u8], number: usize, update: &[u8], at: usize) -> Result<usize, Error> {
    raw::update_end(file, number, update, at).result()
}

/// Looks up the current value of a column. The update data say it, or the original row if they leave
/// the column as it is. The call reads the update data in full.
pub fn current(
    file: &[u8],
    number: usize,
    row: &[u8],
    update: &[u8],
    column: usize,
) -> Result<Current, Error> {
    raw::current(file, number, row, update, column).result()
}

impl Value for Change {
    const COUNT: usize = 4;

    fn of(numbers: &Numbers) -> Option<Change> {
        match *numbers {
            [Answer::FIELD, start, end, prefixes, ..] => Some(Change::Field {
                start: size(start),
                end: size(end),
                prefixes: size(prefixes),
            }),
            [Answer::NULL, 0, 0, 0, ..] => Some(Change::Null),
            [Answer::CHAPTER, 0, 0, 0, ..] => Some(Change::Chapter),
            [Change::UNCHANGED, 0, 0, 0, ..] => Some(Change::Unchanged),
            _ => None,
        }
    }
}

impl Value for Current {
    const COUNT: usize = 5;

    fn of(numbers: &Numbers) -> Option<Current> {
        match *numbers {
            [Answer::FIELD, Current::FROM_UPDATE, start, end, prefixes, ..] => {
                Some(Current::Updated {
                    start: size(start),
                    end: size(end),
                    prefixes: size(prefixes),
                })
            }
            [Answer::NULL, Current::FROM_UPDATE, 0, 0, 0, ..] => Some(Current::Forced),
            [kind, Current::FROM_ROW, start, end, prefixes, ..] => {
                let mut answer = [0; 16];
                answer[..Answer::COUNT].copy_from_slice(&[kind, start, end, prefixes]);
                Answer::of(&answer).map(Current::Original)
            }
            _ => None,
        }
    }
}

#[cfg(test)]
mod tests {
    use super::*;
    use crate::tests::{numbers, ROW, S};
    use crate::{ErrorKind, Input};

    /// Column 1 becomes null, column 2 becomes 7, bytes behind.
    const UPDATE: [u8; 4] = [0x60, 0x40, 7, 9];

    #[test]
    fn update_data_say_each_column() {
        let says = |column| look_update(&S, 0, &UPDATE, column);
        assert_eq!(says(0), Ok(Change::Unchanged));
        assert_eq!(says(1), Ok(Change::Null));
        let field = Change::Field {
            start: 2,
            end: 3,
            prefixes: 0,
        };
        assert_eq!(says(2), Ok(field));
        assert_eq!(field.part(&UPDATE), Some(&[7][..]));
        assert_eq!(Change::Null.part(&UPDATE), None);
        assert_eq!(update_end(&S, 0, &UPDATE, 0), Ok(3));
        let error = Error {
            kind: ErrorKind::Short,
            offset: 4,
            input: Input::Update,
        };
        assert_eq!(update_end(&S, 0, &UPDATE, usize::MAX), Err(error));
    }

    #[test]
    fn a_current_value_lies_in_the_side_that_answers() {
        let value = |column| current(&S, 0, &ROW, &UPDATE, column).unwrap();
        assert!(matches!(value(0), Current::Original(Answer::Field { .. })));
        assert_eq!(value(0).part(&ROW, &UPDATE), Some(&ROW[1..5]));
        assert_eq!(value(1), Current::Forced);
        assert_eq!(value(1).part(&ROW, &UPDATE), None);
        assert_eq!(value(2).part(&ROW, &UPDATE), Some(&UPDATE[2..3]));
    }

    #[test]
    fn a_change_has_a_field_or_zeros() {
        assert_eq!(Change::of(&numbers(&[2])), Some(Change::Null));
        assert_eq!(Change::of(&numbers(&[3])), Some(Change::Chapter));
        assert_eq!(Change::of(&numbers(&[4])), Some(Change::Unchanged));
        for wrong in [&[0, 0][..], &[5, 0], &[4, 1], &[2, 0, 1]] {
            assert_eq!(Change::of(&numbers(wrong)), None, "{wrong:?}");
        }
    }

    #[test]
    fn a_current_value_names_its_side() {
        let value = |first: &[u64]| Current::of(&numbers(first));
        let (start, end, prefixes) = (6, 10, 1);
        let original = Answer::Field {
            start,
            end,
            prefixes,
        };
        let updated = Current::Updated {
            start,
            end,
            prefixes,
        };
        assert_eq!(value(&[1, 1, 6, 10, 1]), Some(Current::Original(original)));
        assert_eq!(value(&[1, 2, 6, 10, 1]), Some(updated));
        assert_eq!(value(&[2, 1]), Some(Current::Original(Answer::Null)));
        assert_eq!(value(&[2, 2]), Some(Current::Forced));
        assert_eq!(value(&[3, 1]), Some(Current::Original(Answer::Chapter)));
        for wrong in [&[2, 0][..], &[2, 3], &[3, 2], &[4, 1], &[2, 1, 0, 0, 1]] {
            assert_eq!(value(wrong), None, "{wrong:?}");
        }
    }
}
