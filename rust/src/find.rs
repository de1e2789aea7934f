//! Look-ups through a plan: in a row, and in a row that was opened.

use crate::plan::Plan;
use crate::raw::{self, error, size, Malformed};
use crate::row::Answer;
use crate::Error;

/// What a look-up through a plan found, as the archive replies it.
#[repr(C)]
#[derive(Clone, Copy, Debug, PartialEq, Eq)]
pub struct Found {
    code: u32,
    kind: u32,
    first: u64,
    second: u64,
    prefixes: u64,
}

/// A row that a plan opened. A look-up through it answers as the direct one does.
#[derive(Clone, Copy, Debug)]
pub struct RowHandle<'a> {
    plan: &'a Plan,
    row: &'a [u8],
    start: usize,
}

impl Plan {
    /// Looks up a column in an original row. With the plan of a schema it answers as
    /// [`look_up`](crate::look_up) does with that schema.
    #[inline]
    pub fn look_up(&self, row: &[u8], column: usize) -> Result<Answer, Error> {
        self.find(row, column).answer()
    }

    /// Opens an original row. It checks the row's size, that the presence map is whole, and that no
    /// chapter's bit is set.
    pub fn open<'a>(&'a self, row: &'a [u8]) -> Result<RowHandle<'a>, Error> {
        let start = raw::open_row(self, row).result()?;
        Ok(RowHandle {
            plan: self,
            row,
            start,
        })
    }

    /// Looks up a column and leaves the reply as it is: `adtg_find`.
    #[inline]
    pub fn find(&self, row: &[u8], column: usize) -> Found {
        raw::planned_look_up(self.numbers(), row, column)
    }
}

impl<'a> RowHandle<'a> {
    /// Looks up a column.
    #[inline]
    pub fn look_up(&self, column: usize) -> Result<Answer, Error> {
        self.find(column).answer()
    }

    /// Looks up a column and leaves the reply as it is.
    #[inline]
    pub fn find(&self, column: usize) -> Found {
        self.plan.find(self.row, column)
    }

    /// The row.
    pub fn row(&self) -> &'a [u8] {
        self.row
    }

    /// Where the data behind the presence map start.
    pub fn start(&self) -> usize {
        self.start
    }
}

impl Found {
    const FIELD: u32 = Answer::FIELD as u32;
    const NULL: u32 = Answer::NULL as u32;
    const CHAPTER: u32 = Answer::CHAPTER as u32;

    /// The answer or the error that the reply says.
    #[inline]
    pub fn answer(&self) -> Result<Answer, Error> {
        match (self.code, self.kind) {
            (0, Found::FIELD) => Ok(self.field()),
            _ => self.without_field(),
        }
    }

    #[inline(never)]
    fn without_field(&self) -> Result<Answer, Error> {
        self.decode().unwrap_or_else(|malformed| malformed.fail())
    }

    /// The same, if the reply has its form.
    pub fn decode(&self) -> Result<Result<Answer, Error>, Malformed> {
        let (code, kind) = (self.code, self.kind);
        let rest = [self.first, self.second, self.prefixes];
        match (code, kind, rest, error(code, self.first, self.second)) {
            (0, Found::FIELD, ..) => Ok(Ok(self.field())),
            (0, Found::NULL, [0, 0, 0], _) => Ok(Ok(Answer::Null)),
            (0, Found::CHAPTER, [0, 0, 0], _) => Ok(Ok(Answer::Chapter)),
            (1.., 0, [_, _, 0], Some(error)) => Ok(Err(error)),
            (_, _, [first, second, prefixes], _) => {
                let numbers = [u64::from(kind), first, second, prefixes];
                Err(Malformed::new(code, &numbers))
            }
        }
    }

    #[inline]
    fn field(&self) -> Answer {
        Answer::Field {
            start: size(self.first),
            end: size(self.second),
            prefixes: size(self.prefixes),
        }
    }
}

#[cfg(test)]
mod tests {
    use std::mem::{offset_of, size_of};

    use super::*;
    use crate::tests::{ROW, S, T};
    use crate::{look_up, ErrorKind, Input};

    #[test]
    fn a_plan_answers_as_the_walk() {
        let plan = Plan::make(&S, 0).unwrap();
        let null = [0x7F, 5, 0, 0, 0, 0x2A];
        let short = [0xC0, 5, 0, 0, 0];
        let odd = [0xC0, 5, 0, 0, 0, 3];
        for row in [&ROW[..], &null, &short, &odd, &[]] {
            let opened = plan.open(row);
            for column in [0, 1, 2, 3, usize::MAX] {
                let walk = look_up(&S, 0, row, column);
                assert_eq!(plan.look_up(row, column), walk, "{row:?} {column}");
                assert_eq!(plan.find(row, column).answer(), walk);
                if let Ok(handle) = opened {
                    assert_eq!(handle.look_up(column), walk);
                    assert_eq!(handle.find(column), plan.find(row, column));
                }
            }
        }
        let chapter = Plan::make(&T, 0).unwrap().look_up(&[5, 0, 0, 0], 1);
        assert_eq!(chapter, Ok(Answer::Chapter));
    }

    #[test]
    fn a_reply_is_laid_out_as_in_the_header() {
        assert_eq!(size_of::<Found>(), 32);
        let places = [
            offset_of!(Found, kind),
            offset_of!(Found, first),
            offset_of!(Found, second),
            offset_of!(Found, prefixes),
        ];
        assert_eq!(places, [4, 8, 16, 24]);
    }

    #[test]
    fn opening_checks_the_map() {
        let plan = Plan::make(&S, 0).unwrap();
        assert_eq!(plan.open(&ROW).map(|handle| handle.start()), Ok(1));
        let error = Error {
            kind: ErrorKind::Short,
            offset: 0,
            input: Input::Row,
        };
        assert_eq!(plan.open(&[]).map(|handle| handle.start()), Err(error));
    }

    #[test]
    fn a_set_bit_of_a_chapter_is_refused_directly_and_at_opening() {
        // A byte that every row has, and a nullable chapter.
        let file = [0x02, 0x11, 0x00, 0x88, 0x01, 0x01, 0x07, 0x01, 0x11, 0x00];
        let plan = Plan::make(&file, 0).unwrap();
        let error = Error {
            kind: ErrorKind::ChapterBit,
            offset: 0,
            input: Input::Row,
        };
        let row = [0x80, 0x2A];
        assert_eq!(plan.open(&row).map(|handle| handle.start()), Err(error));
        for column in [0, 1] {
            assert_eq!(plan.look_up(&row, column), Err(error));
            assert_eq!(look_up(&file, 0, &row, column), Err(error));
        }
        let missing = plan.look_up(&row, 2).unwrap_err();
        assert_eq!(
            (missing.kind, missing.input),
            (ErrorKind::Missing, Input::Column)
        );
        let unset = [0x00, 0x2A];
        let handle = plan.open(&unset).unwrap();
        assert_eq!(handle.start(), 1);
        for (column, field) in [(0, Some(1..2)), (1, None)] {
            let answer = handle.look_up(column).unwrap();
            assert_eq!(answer.part(&unset), field.map(|place| &unset[place]));
            assert_eq!(plan.look_up(&unset, column), Ok(answer));
        }
    }

    #[test]
    fn a_plan_of_any_numbers_finds_fields_in_the_row() {
        for number in [0, 1, u64::MAX, 0x0102_0304_0505_0180] {
            let plan = Plan::from_numbers([number; Plan::NUMBERS]);
            for column in 0..70 {
                if let Ok(answer @ Answer::Field { .. }) = plan.look_up(&ROW, column) {
                    assert!(answer.part(&ROW).is_some());
                }
            }
        }
    }

    #[test]
    fn a_reply_is_a_field_or_an_error_or_zeros() {
        let decode = |code, kind, first, second, prefixes| {
            let found = Found {
                code,
                kind,
                first,
                second,
                prefixes,
            };
            found.decode()
        };
        let (start, end, prefixes) = (6, 10, 1);
        let field = Answer::Field {
            start,
            end,
            prefixes,
        };
        assert_eq!(decode(0, 1, 6, 10, 1), Ok(Ok(field)));
        assert_eq!(decode(0, 2, 0, 0, 0), Ok(Ok(Answer::Null)));
        assert_eq!(decode(0, 3, 0, 0, 0), Ok(Ok(Answer::Chapter)));
        let error = Error {
            kind: ErrorKind::Length,
            offset: 5,
            input: Input::Row,
        };
        assert_eq!(decode(14, 0, 5, 3, 0), Ok(Err(error)));
        for wrong in [
            decode(0, 0, 6, 10, 1),
            decode(0, 4, 0, 0, 0),
            decode(0, 3, 0, 0, 1),
            decode(14, 1, 5, 3, 0),
            decode(14, 0, 5, 3, 1),
            decode(14, 0, 5, 22, 0),
            decode(21, 0, 5, 3, 0),
        ] {
            assert!(wrong.is_err(), "{wrong:?}");
        }
    }
}
