//! What the calls reply: a code and numbers, and the value or error that they say.

use std::fmt;
use std::marker::PhantomData;
use std::ops::Range;

use crate::arrival::Progress;
use crate::error::{Error, ErrorKind, Input};
use crate::plan::Plan;
use crate::version;

/// The numbers that a call fills, all of them.
pub type Numbers = [u64; 16];

/// What each number is before the call, so that one which the call leaves alone is noticed.
pub const UNTOUCHED: u64 = 0xA5A5_5A5A_DEAD_BEEF;

/// How many numbers an error has: its offset and its input.
const OF_ERROR: usize = 2;

/// The reply of a call that answers a `T` or an error.
#[derive(Clone, Debug, PartialEq, Eq)]
pub struct Reply<T> {
    /// 0, or the number of the error.
    pub code: u32,
    /// What the call left in `out`.
    pub numbers: Numbers,
    value: PhantomData<fn() -> T>,
}

/// A reply that `adtg.h` does not allow: a code, kind or input without a meaning, a value too
/// large for its field, or a number other than 0 behind the last. The archive gives none; a
/// library of another version may.
#[derive(Clone, Debug, PartialEq, Eq)]
pub struct Malformed {
    /// The code of the reply.
    pub code: u32,
    /// Its numbers.
    pub numbers: Box<Numbers>,
}

/// A value that a call can answer.
pub trait Value: Sized {
    /// How many numbers it takes.
    const COUNT: usize;

    /// The value that these numbers say, if they have a meaning.
    fn of(numbers: &Numbers) -> Option<Self>;
}

impl<T> Reply<T> {
    /// The reply of a call that is lent `out`, after the check of the archive's version.
    pub(crate) fn of(call: impl FnOnce(&mut Numbers) -> u32) -> Reply<T> {
        version::check();
        Reply::unchecked(call)
    }

    /// The same of any archive.
    pub(crate) fn unchecked(call: impl FnOnce(&mut Numbers) -> u32) -> Reply<T> {
        let mut numbers = [UNTOUCHED; 16];
        let code = call(&mut numbers);
        Reply::new(code, numbers)
    }

    pub(crate) fn new(code: u32, numbers: Numbers) -> Reply<T> {
        Reply {
            code,
            numbers,
            value: PhantomData,
        }
    }
}

impl<T: Value> Reply<T> {
    /// The value or the error that the reply says, if it has its form.
    pub fn decode(&self) -> Result<Result<T, Error>, Malformed> {
        let used = if self.code == 0 { T::COUNT } else { OF_ERROR };
        let rest_is_zero = self.numbers[used..].iter().all(|number| *number == 0);
        let decoded = match self.code {
            _ if !rest_is_zero => None,
            0 => T::of(&self.numbers).map(Ok),
            code => error(code, self.numbers[0], self.numbers[1]).map(Err),
        };
        decoded.ok_or_else(|| Malformed {
            code: self.code,
            numbers: Box::new(self.numbers),
        })
    }

    /// The value or the error.
    pub(crate) fn result(&self) -> Result<T, Error> {
        self.decode().unwrap_or_else(|malformed| malformed.fail())
    }
}

/// The reply of the call that makes a plan.
#[repr(C)]
#[derive(Clone, Debug, PartialEq, Eq)]
pub struct PlanReply {
    /// 0, or the number of the error.
    pub code: u32,
    /// The offset of an error.
    pub offset: u64,
    /// The input of an error.
    pub input: u64,
    /// The plan; the blank one beside an error.
    pub plan: Plan,
}

impl PlanReply {
    /// The plan or the error that the reply says, if it has its form.
    pub fn decode(self) -> Result<Result<Plan, Error>, Malformed> {
        let is_blank = self.plan == Plan::BLANK;
        let error = error(self.code, self.offset, self.input);
        match (self.code, self.offset, self.input, error) {
            (0, 0, 0, _) => Ok(Ok(self.plan)),
            (1.., _, _, Some(error)) if is_blank => Ok(Err(error)),
            (code, offset, input, _) => {
                Err(Malformed::new(code, &[offset, input, u64::from(!is_blank)]))
            }
        }
    }

    /// The plan or the error.
    pub(crate) fn result(self) -> Result<Plan, Error> {
        self.decode().unwrap_or_else(|malformed| malformed.fail())
    }
}

/// The reply of the calls that are lent a reader.
#[repr(C)]
#[derive(Clone, Copy, Debug, PartialEq, Eq)]
pub struct FedReply {
    /// 0, or the number of the error.
    pub code: u32,
    /// How far the section has come; 0 beside an error.
    pub progress: u32,
    /// Whole elements or rows; the offset of an error.
    pub first: u64,
    /// The input of an error.
    pub second: u64,
}

impl FedReply {
    const GOING: u32 = 1;
    const COMPLETE: u32 = 2;

    /// The progress or the error that the reply says, if it has its form.
    pub fn decode(self) -> Result<Result<Progress, Error>, Malformed> {
        let error = error(self.code, self.first, self.second);
        match (self.code, self.progress, self.second, error) {
            (0, FedReply::GOING, 0, _) => Ok(Ok(Progress::Going(size(self.first)))),
            (0, FedReply::COMPLETE, 0, _) => Ok(Ok(Progress::Complete(size(self.first)))),
            (1.., 0, _, Some(error)) => Ok(Err(error)),
            _ => Err(self.malformed()),
        }
    }

    /// The same of a close: the count of rows or the error.
    pub fn decode_closed(self) -> Result<Result<usize, Error>, Malformed> {
        match self.decode()? {
            Ok(Progress::Complete(rows)) => Ok(Ok(rows)),
            Ok(Progress::Going(_)) => Err(self.malformed()),
            Err(error) => Ok(Err(error)),
        }
    }

    /// The progress or the error.
    pub(crate) fn result(self) -> Result<Progress, Error> {
        self.decode().unwrap_or_else(|malformed| malformed.fail())
    }

    /// The count of rows or the error, of a close.
    pub(crate) fn closed(self) -> Result<usize, Error> {
        let decoded = self.decode_closed();
        decoded.unwrap_or_else(|malformed| malformed.fail())
    }

    fn malformed(self) -> Malformed {
        let numbers = [u64::from(self.progress), self.first, self.second];
        Malformed::new(self.code, &numbers)
    }
}

/// The reply of the call that finds a page of a column.
#[repr(C)]
#[derive(Clone, Copy, Debug, PartialEq, Eq)]
pub struct PageReply {
    /// 0, or the number of the error.
    pub code: u32,
    /// The row that comes next; the offset of an error.
    pub first: u64,
    /// The input of an error.
    pub second: u64,
    /// How many spans the page has; 0 beside an error.
    pub spans: u64,
}

/// How far a page goes.
#[derive(Clone, Copy, Debug, PartialEq, Eq)]
pub struct Paged {
    /// How many spans it has.
    pub spans: usize,
    /// The row that comes next.
    pub next: usize,
}

impl PageReply {
    /// What the reply says, if it has its form. `rows` are those that were asked for: from the first
    /// row up to the number of rows in the table. There was room for `room` spans.
    pub fn decode(
        self,
        rows: Range<usize>,
        room: usize,
    ) -> Result<Result<Paged, Error>, Malformed> {
        if let Some(paged) = self.page(rows, room) {
            return Ok(Ok(paged));
        }
        match (self.spans, error(self.code, self.first, self.second)) {
            (0, Some(error)) => Ok(Err(error)),
            _ => {
                let numbers = [self.first, self.second, self.spans];
                Err(Malformed::new(self.code, &numbers))
            }
        }
    }

    /// What the reply says.
    #[inline]
    pub(crate) fn result(self, rows: Range<usize>, room: usize) -> Result<Paged, Error> {
        match self.page(rows.clone(), room) {
            Some(paged) => Ok(paged),
            None => self.without_page(rows, room),
        }
    }

    #[cold]
    fn without_page(self, rows: Range<usize>, room: usize) -> Result<Paged, Error> {
        let decoded = self.decode(rows, room);
        decoded.unwrap_or_else(|malformed| malformed.fail())
    }

    /// The page, if there is one and it can be: its spans have room and a row each, and without a
    /// span there is no room or no row left.
    #[inline]
    fn page(self, rows: Range<usize>, room: usize) -> Option<Paged> {
        let (spans, next) = (size(self.spans), size(self.first));
        let is_page = self.code == 0 && self.second == 0;
        let is_between = rows.start <= next && next <= rows.end;
        let has_room = spans <= room && spans <= next.wrapping_sub(rows.start);
        let goes_on = spans > 0 || room == 0 || next == rows.end;
        (is_page && is_between && has_room && goes_on).then_some(Paged { spans, next })
    }
}

impl Malformed {
    /// The reply with these numbers, and zeros behind them.
    pub(crate) fn new(code: u32, first: &[u64]) -> Malformed {
        let mut numbers = Box::new([0; 16]);
        numbers[..first.len()].copy_from_slice(first);
        Malformed { code, numbers }
    }

    /// Ends the program's thread: there is no answer to go on with.
    #[cold]
    pub(crate) fn fail(self) -> ! {
        panic!("{self}")
    }
}

impl fmt::Display for Malformed {
    fn fmt(&self, f: &mut fmt::Formatter) -> fmt::Result {
        let Malformed { code, numbers } = self;
        write!(f, "a reply without a meaning: {code} {numbers:?}")
    }
}

impl std::error::Error for Malformed {}

/// The error with these numbers, if they have a meaning.
pub(crate) fn error(code: u32, offset: u64, input: u64) -> Option<Error> {
    Some(Error {
        kind: ErrorKind::from_code(code)?,
        offset: size(offset),
        input: Input::from_code(input)?,
    })
}

/// A place or a count.
#[inline]
pub(crate) const fn size(number: u64) -> usize {
    number as usize
}

// The archive is for machines on which a place has 64 bits.
const _: () = assert!(usize::BITS == u64::BITS);

/// A call that answers nothing.
impl Value for () {
    const COUNT: usize = 0;

    fn of(_: &Numbers) -> Option<()> {
        Some(())
    }
}

/// A count, or where something ends.
impl Value for usize {
    const COUNT: usize = 1;

    fn of(numbers: &Numbers) -> Option<usize> {
        Some(size(numbers[0]))
    }
}

#[cfg(test)]
mod tests {
    use std::mem::{offset_of, size_of};

    use super::*;

    fn reply(code: u32, first: &[u64]) -> Reply<usize> {
        Reply::new(code, *Malformed::new(code, first).numbers)
    }

    #[test]
    fn zeros_stand_behind_the_last_number() {
        assert_eq!(reply(0, &[9]).decode(), Ok(Ok(9)));
        let malformed = Malformed::new(0, &[9, 1]);
        assert_eq!(reply(0, &[9, 1]).decode(), Err(malformed));
        assert!(Reply::<()>::new(0, [UNTOUCHED; 16]).decode().is_err());
        for at in 1..16 {
            let mut wrong = reply(0, &[9]);
            wrong.numbers[at] = UNTOUCHED;
            assert!(wrong.decode().is_err(), "{at}");
        }
    }

    #[test]
    fn an_error_has_a_known_code_and_input() {
        let error = Error {
            kind: ErrorKind::Capacity,
            offset: 9,
            input: Input::Output,
        };
        assert_eq!(reply(16, &[9, 8]).decode(), Ok(Err(error)));
        for (code, first) in [(21, [9, 8, 0]), (16, [9, 22, 0]), (16, [9, 8, 1])] {
            let malformed = Malformed::new(code, &first);
            assert_eq!(reply(code, &first).decode(), Err(malformed));
        }
    }

    #[test]
    #[should_panic(expected = "a reply without a meaning: 21 [9, 0,")]
    fn a_reply_without_a_meaning_is_no_answer() {
        let _ = reply(21, &[9]).result();
    }

    #[test]
    fn the_reply_of_a_plan_is_laid_out_as_in_the_header() {
        assert_eq!(size_of::<Plan>(), 8 * Plan::NUMBERS);
        assert_eq!(size_of::<PlanReply>(), 24 + 8 * Plan::NUMBERS);
        let places = [
            offset_of!(PlanReply, offset),
            offset_of!(PlanReply, input),
            offset_of!(PlanReply, plan),
        ];
        assert_eq!(places, [8, 16, 24]);
    }

    #[test]
    fn a_plan_or_an_error_stands_alone() {
        let mut numbers = [0; Plan::NUMBERS];
        numbers[0] = 1;
        let made = Plan::from_numbers(numbers);
        let decode = |code, offset, input, plan: &Plan| {
            let plan = plan.clone();
            let reply = PlanReply {
                code,
                offset,
                input,
                plan,
            };
            reply.decode()
        };
        assert_eq!(decode(0, 0, 0, &made), Ok(Ok(made.clone())));
        let error = Error {
            kind: ErrorKind::Missing,
            offset: 0,
            input: Input::SchemaNumber,
        };
        assert_eq!(decode(18, 0, 2, &Plan::BLANK), Ok(Err(error)));
        for wrong in [
            decode(0, 1, 0, &made),
            decode(0, 0, 2, &made),
            decode(18, 0, 2, &made),
            decode(18, 0, 22, &Plan::BLANK),
            decode(21, 0, 2, &Plan::BLANK),
        ] {
            assert!(wrong.is_err(), "{wrong:?}");
        }
    }

    #[test]
    fn the_reply_of_a_reader_is_laid_out_as_in_the_header() {
        assert_eq!(size_of::<FedReply>(), 24);
        let places = [
            offset_of!(FedReply, progress),
            offset_of!(FedReply, first),
            offset_of!(FedReply, second),
        ];
        assert_eq!(places, [4, 8, 16]);
    }

    fn fed(code: u32, progress: u32, first: u64, second: u64) -> FedReply {
        FedReply {
            code,
            progress,
            first,
            second,
        }
    }

    #[test]
    fn a_reader_is_going_or_complete_or_refuses() {
        assert_eq!(fed(0, 1, 9, 0).decode(), Ok(Ok(Progress::Going(9))));
        assert_eq!(fed(0, 2, 9, 0).decode(), Ok(Ok(Progress::Complete(9))));
        let error = Error {
            kind: ErrorKind::Trailing,
            offset: 9,
            input: Input::Section,
        };
        assert_eq!(fed(15, 0, 9, 6).decode(), Ok(Err(error)));
        for wrong in [
            fed(0, 0, 9, 0),
            fed(0, 3, 9, 0),
            fed(0, 1, 9, 6),
            fed(0, 2, 9, 6),
            fed(15, 1, 9, 6),
            fed(15, 2, 9, 6),
            fed(15, 0, 9, 22),
            fed(21, 0, 9, 6),
        ] {
            let numbers = [u64::from(wrong.progress), wrong.first, wrong.second];
            let malformed = Malformed::new(wrong.code, &numbers);
            assert_eq!(wrong.decode(), Err(malformed.clone()));
            assert_eq!(wrong.decode_closed(), Err(malformed));
        }
        // What is closed goes no further.
        assert_eq!(fed(0, 2, 9, 0).decode_closed(), Ok(Ok(9)));
        assert_eq!(fed(15, 0, 9, 6).decode_closed(), Ok(Err(error)));
        let malformed = Malformed::new(0, &[1, 9]);
        assert_eq!(fed(0, 1, 9, 0).decode_closed(), Err(malformed));
    }

    #[test]
    fn the_reply_of_a_page_is_laid_out_as_in_the_header() {
        assert_eq!(size_of::<PageReply>(), 32);
        let places = [
            offset_of!(PageReply, first),
            offset_of!(PageReply, second),
            offset_of!(PageReply, spans),
        ];
        assert_eq!(places, [8, 16, 24]);
    }

    fn page(code: u32, first: u64, second: u64, spans: u64) -> PageReply {
        PageReply {
            code,
            first,
            second,
            spans,
        }
    }

    #[test]
    fn a_page_lies_in_its_rows_and_its_room() {
        // Rows 3 to 9, and room for four spans.
        let decode = |reply: PageReply| reply.decode(3..10, 4);
        for (spans, next) in [(0, 10), (1, 4), (1, 10), (4, 7), (4, 10)] {
            let paged = Paged { spans, next };
            let reply = page(0, next as u64, 0, spans as u64);
            assert_eq!(decode(reply), Ok(Ok(paged)), "{reply:?}");
        }
        let error = Error {
            kind: ErrorKind::Length,
            offset: 9,
            input: Input::Section,
        };
        assert_eq!(decode(page(14, 9, 6, 0)), Ok(Err(error)));
        for wrong in [
            page(0, 2, 0, 0),        // before the first row
            page(0, 11, 0, 1),       // behind the last
            page(0, 10, 0, 5),       // more spans than room
            page(0, 4, 0, 2),        // more spans than rows
            page(0, 9, 0, 0),        // no span, and rows are left
            page(0, 10, 6, 1),       // an input beside a page
            page(0, 10, 0, 1 << 32), // far too many
            page(0, u64::MAX, 0, 1), //
            page(14, 9, 6, 1),       // spans beside an error
            page(14, 9, 22, 0),      // an unknown input
            page(21, 9, 6, 0),       // an unknown code
        ] {
            let numbers = [wrong.first, wrong.second, wrong.spans];
            let malformed = Malformed::new(wrong.code, &numbers);
            assert_eq!(decode(wrong), Err(malformed), "{wrong:?}");
        }
        // Without room a page only says which row comes next.
        for next in 3..=10 {
            let paged = Paged { spans: 0, next };
            assert_eq!(page(0, next as u64, 0, 0).decode(3..10, 0), Ok(Ok(paged)));
        }
        // A first row behind the last has no page.
        let (from, rows) = (6, 5);
        assert!(page(0, 5, 0, 0).decode(from..rows, 0).is_err());
    }

    #[test]
    #[should_panic(expected = "a reply without a meaning: 0 [11, 0, 1,")]
    fn a_page_behind_its_rows_is_no_answer() {
        let _ = page(0, 11, 0, 1).result(3..10, 4);
    }

    #[test]
    #[should_panic(expected = "a reply without a meaning: 0 [1, 9, 0,")]
    fn a_close_that_goes_on_is_no_answer() {
        let _ = fed(0, 1, 9, 0).closed();
    }
}
