//! Batches: one column of all rows of one owner, through a plan in one call.

use crate::plan::Plan;
use crate::raw::{self, Malformed};
use crate::{Error, MAX_INPUT};

/// How many numbers a span takes.
pub const SPAN_NUMBERS: usize = 2;

/// Whose rows are asked for.
#[derive(Clone, Copy, Debug, PartialEq, Eq, Hash)]
pub enum Owner {
    /// The parent.
    Parents,
    /// The child with this id.
    Child(u32),
}

/// What a row says about the column.
#[derive(Clone, Copy, Debug, PartialEq, Eq)]
pub enum Span {
    /// A field.
    Field {
        /// Where it starts in the section.
        start: usize,
        /// Where it ends.
        end: usize,
    },
    /// The column is null.
    Null,
    /// The column is a chapter and has no field.
    Chapter,
}

/// The spans of a column, in the order of the rows.
#[derive(Clone, Copy, Debug, PartialEq, Eq)]
pub struct Spans<'a> {
    numbers: &'a [u32],
}

impl Plan {
    /// Looks up one column in the original data of every row of one owner. `rows` are the numbers
    /// of the section's own table, as [`Rows::numbers`](crate::Rows::numbers) has them; any others
    /// are allowed too. Each row is looked up as [`look_up`](Plan::look_up) does it in the section
    /// from the row's start on. Current values of changed rows are not part of it.
    ///
    /// `spans` has room for one row in [`SPAN_NUMBERS`] numbers. What lies behind the last span
    /// stays as it was; an error leaves all of them. The first row that is refused refuses the
    /// call, at its place in the section. Without enough room the error is of the kind `Capacity`,
    /// and its offset says how many spans there are.
    ///
    /// ```
    /// use adtg::{list_section, Owner, Plan, Span};
    ///
    /// # fn main() -> Result<(), adtg::Error> {
    /// // One byte, nullable; then three rows of it, the second null.
    /// let schema = [0x01, 0x11, 0x01];
    /// let section = [0x07, 0x80, 0x2A, 0x07, 0x00, 0x07, 0x80, 0x2B, 0x0F];
    /// let (mut table, mut spans) = ([0; 12], [0; 6]);
    /// let rows = list_section(&schema, &section, &mut table)?;
    /// let plan = Plan::make(&schema, 0)?;
    /// let spans = plan.find_column(&section, rows.numbers(), Owner::Parents, 0, &mut spans)?;
    /// let parts: Vec<Option<&[u8]>> = spans.iter().map(|span| span.part(&section)).collect();
    /// assert_eq!(parts, [Some(&[0x2A][..]), None, Some(&[0x2B])]);
    /// assert_eq!(spans.get(1), Some(Span::Null));
    /// # Ok(())
    /// # }
    /// ```
    pub fn find_column<'a>(
        &self,
        section: &[u8],
        rows: &[u32],
        owner: Owner,
        column: usize,
        spans: &'a mut [u32],
    ) -> Result<Spans<'a>, Error> {
        let owner = owner.number();
        let reply = raw::find_column(self.numbers(), section, rows, owner, column, spans);
        let count = reply.result()?;
        Ok(Spans {
            numbers: &spans[..count * SPAN_NUMBERS],
        })
    }
}

impl Owner {
    /// The number of `adtg.h`.
    #[inline]
    pub const fn number(self) -> usize {
        match self {
            Owner::Parents => usize::MAX,
            Owner::Child(id) => id as usize,
        }
    }
}

impl Span {
    /// The marks of `adtg.h`, which both numbers of a span are.
    pub(crate) const NULL: u32 = 4_294_967_295;
    pub(crate) const CHAPTER: u32 = 4_294_967_294;

    /// The field's bytes in the section that it was found in; `None` where there is no field.
    #[inline]
    pub fn part(self, section: &[u8]) -> Option<&[u8]> {
        match self {
            Span::Field { start, end } => section.get(start..end),
            Span::Null | Span::Chapter => None,
        }
    }
}

impl<'a> Spans<'a> {
    /// How many spans there are: one for each row of the owner.
    pub fn len(self) -> usize {
        self.numbers.len() / SPAN_NUMBERS
    }

    /// True if there are none.
    pub fn is_empty(self) -> bool {
        self.numbers.is_empty()
    }

    /// The span of this number, counted from 0.
    pub fn get(self, number: usize) -> Option<Span> {
        let mut pairs = self.numbers.chunks_exact(SPAN_NUMBERS);
        pairs.nth(number).map(span)
    }

    /// All spans, in order.
    pub fn iter(self) -> impl ExactSizeIterator<Item = Span> + 'a {
        self.numbers.chunks_exact(SPAN_NUMBERS).map(span)
    }

    /// The numbers of the spans, two each: start and end of a field, or twice a mark.
    pub fn numbers(self) -> &'a [u32] {
        self.numbers
    }
}

/// The span that two numbers say.
fn span(numbers: &[u32]) -> Span {
    decode(numbers).unwrap_or_else(|| {
        let numbers: Vec<u64> = numbers.iter().copied().map(u64::from).collect();
        Malformed::new(0, &numbers).fail()
    })
}

/// The span, if its numbers have a meaning.
fn decode(numbers: &[u32]) -> Option<Span> {
    match *numbers {
        [Span::NULL, Span::NULL] => Some(Span::Null),
        [Span::CHAPTER, Span::CHAPTER] => Some(Span::Chapter),
        [start, end] if start <= end && end as usize <= MAX_INPUT => Some(Span::Field {
            start: start as usize,
            end: end as usize,
        }),
        _ => None,
    }
}

#[cfg(test)]
mod tests {
    use super::*;
    use crate::tests::{ROW, S, SECTION, T};
    use crate::{list_section, ErrorKind, Input};

    fn field(start: usize, end: usize) -> Span {
        Span::Field { start, end }
    }

    fn error(kind: ErrorKind, offset: usize, input: Input) -> Error {
        Error {
            kind,
            offset,
            input,
        }
    }

    /// Two parent rows of S: the first as `ROW`, the second with null in column 1.
    fn rows_of_s() -> (Vec<u8>, Vec<u32>) {
        let mut section = vec![0x07];
        section.extend(ROW);
        section.extend([0x07, 0x7F, 6, 0, 0, 0, 0x2B, 0x0F]);
        let mut table = vec![0; 8];
        assert_eq!(list_section(&S, &section, &mut table).unwrap().len(), 2);
        (section, table)
    }

    #[test]
    fn a_column_is_found_in_every_row() {
        let (section, rows) = rows_of_s();
        let plan = Plan::make(&S, 0).unwrap();
        let find = |column| {
            let mut numbers = [9; 5];
            let spans = plan.find_column(&section, &rows, Owner::Parents, column, &mut numbers);
            let spans: Vec<Span> = spans.unwrap().iter().collect();
            assert_eq!(numbers[4], 9);
            spans
        };
        assert_eq!(find(0), [field(2, 6), field(14, 18)]);
        assert_eq!(find(1), [field(7, 11), Span::Null]);
        assert_eq!(find(2), [field(11, 12), field(18, 19)]);
        assert_eq!(find(1)[0].part(&section), Some(&ROW[6..10]));
        assert_eq!(find(1)[1].part(&section), None);
        assert_eq!(field(2, 99).part(&section), None);
    }

    #[test]
    fn each_owner_has_its_own_rows() {
        let rows = [1, 0, 1, 0, 3, 7, 10, 16];
        let (parent, child) = (Plan::make(&T, 0).unwrap(), Plan::make(&T, 1).unwrap());
        let find = |plan: &Plan, owner, column| {
            let mut numbers = [9; 2];
            let spans = plan.find_column(&SECTION, &rows, owner, column, &mut numbers);
            spans.unwrap().iter().collect::<Vec<Span>>()
        };
        assert_eq!(find(&parent, Owner::Parents, 0), [field(1, 5)]);
        assert_eq!(find(&parent, Owner::Parents, 1), [Span::Chapter]);
        // The original data, though the row is changed.
        assert_eq!(find(&child, Owner::Child(7), 0), [field(10, 11)]);
        assert_eq!(find(&child, Owner::Child(8), 0), []);
        assert_eq!(find(&child, Owner::Child(u32::MAX), 0), []);
    }

    #[test]
    fn an_error_leaves_the_spans() {
        let (section, rows) = rows_of_s();
        let plan = Plan::make(&S, 0).unwrap();
        let mut numbers = [9; 3];
        let mut find = |section: &[u8], rows: &[u32], column| {
            let spans = plan.find_column(section, rows, Owner::Parents, column, &mut numbers);
            let answer = spans.map(|spans| spans.len());
            assert_eq!(numbers, [9; 3]);
            answer
        };
        let room = error(ErrorKind::Capacity, 2, Input::Output);
        assert_eq!(find(&section, &rows, 0), Err(room));
        let short = error(ErrorKind::Short, 17, Input::Section);
        assert_eq!(find(&section[..17], &rows, 0), Err(short));
        let past = error(ErrorKind::Short, 20, Input::Section);
        assert_eq!(find(&section, &[1, 0, u32::MAX, 0], 0), Err(past));
        let missing = error(ErrorKind::Missing, 0, Input::Column);
        assert_eq!(find(&section, &rows, 3), Err(missing));
        let large = error(ErrorKind::TooLarge, 0, Input::Section);
        assert_eq!(find(&vec![0; MAX_INPUT + 1], &rows, 0), Err(large));
        // Without a row nothing is asked for. Numbers that make no row are ignored.
        assert_eq!(find(&section, &rows[..3], usize::MAX), Ok(0));
    }

    #[test]
    fn spans_are_counted_and_listed() {
        let numbers = [2, 6, 4_294_967_295, 4_294_967_295];
        let spans = Spans { numbers: &numbers };
        assert_eq!((spans.len(), spans.is_empty()), (2, false));
        assert_eq!(spans.get(0), Some(field(2, 6)));
        assert_eq!(spans.get(1), Some(Span::Null));
        assert_eq!((spans.get(2), spans.get(usize::MAX)), (None, None));
        assert_eq!(spans.numbers(), numbers);
        assert!(Spans { numbers: &[] }.is_empty());
    }

    #[test]
    fn a_span_lies_in_a_section_or_is_a_mark() {
        let (null, chapter, most) = (u32::MAX, u32::MAX - 1, MAX_INPUT as u32);
        assert_eq!(decode(&[6, 6]), Some(field(6, 6)));
        assert_eq!(decode(&[most, most]), Some(field(MAX_INPUT, MAX_INPUT)));
        assert_eq!(decode(&[null, null]), Some(Span::Null));
        assert_eq!(decode(&[chapter, chapter]), Some(Span::Chapter));
        for wrong in [
            [7, 6],
            [6, most + 1],
            [6, null],
            [6, chapter],
            [null, 6],
            [chapter, null],
            [null - 2, null - 2],
        ] {
            assert_eq!(decode(&wrong), None, "{wrong:?}");
        }
    }
}
