//! Pages of a batch: one column of the rows of one owner, through a plan.
//!
//! [`Plan::column_spans`] goes over all rows of the owner, as an iterator. It asks the archive for many
//! rows at once. [`Plan::find_page`] is that one question, for callers that keep the spans.

use std::iter::FusedIterator;

use crate::batch::{Owner, Span};
use crate::plan::Plan;
use crate::raw::{self, Malformed};
use crate::section::Rows;
use crate::{Error, MAX_INPUT};

/// How many numbers a span of a page takes: the row, where the field starts and where it ends.
pub const PAGE_SPAN_NUMBERS: usize = 3;

/// The spans of a page. Each has the number of its row in the table.
#[derive(Clone, Copy, Debug, PartialEq, Eq)]
pub struct PageSpans<'a> {
    numbers: &'a [u32],
}

/// A page of a column: the spans of some rows, and where to go on.
#[derive(Clone, Copy, Debug, PartialEq, Eq)]
pub struct Page<'a> {
    /// The spans, in the order of the rows.
    pub spans: PageSpans<'a>,
    /// The row that comes next: the next row of the owner, or the number of rows if none is left.
    pub next: usize,
    rows: usize,
}

/// One column of all rows of one owner: an iterator over row numbers and spans.
/// [`Plan::column_spans`] makes it.
///
/// An error is its last item. By then it has handed out the column of all rows before.
#[derive(Clone, Debug)]
pub struct ColumnSpans<'a> {
    plan: &'a Plan,
    section: &'a [u8],
    rows: Rows<'a>,
    owner: Owner,
    column: usize,
    /// Where the next page begins.
    from: usize,
    /// The spans of the last page, and which of them are still to be handed out.
    page: [[u32; PAGE_SPAN_NUMBERS]; PAGE_SPANS],
    at: usize,
    end: usize,
}

/// How many spans a page of the iterator has: few, so that it is quick in small sections too.
const PAGE_SPANS: usize = 32;

impl Plan {
    /// Looks up one column in every row of one owner, from the first row on. `rows` is the table of
    /// the same section. Each row is looked up in its original data, as [`look_up`](Plan::look_up)
    /// does it. Changes of a row are not part of it.
    ///
    /// The iterator hands out the number of each row in the table and what the row says. If a row is
    /// refused, its error is the last item. The error is then about the section, and its offset is
    /// the place there.
    ///
    /// ```
    /// use adtg::{list_section, Owner, Plan, Span};
    ///
    /// # fn main() -> Result<(), adtg::Error> {
    /// // One byte, nullable; then three rows of it, the second null.
    /// let schema = [0x01, 0x11, 0x01];
    /// let section = [0x07, 0x80, 0x2A, 0x07, 0x00, 0x07, 0x80, 0x2B, 0x0F];
    /// let mut table = [0; 12];
    /// let rows = list_section(&schema, &section, &mut table)?;
    /// let plan = Plan::make(&schema, 0)?;
    /// let mut parts = Vec::new();
    /// for found in plan.column_spans(&section, rows, Owner::Parents, 0) {
    ///     let (row, span) = found?;
    ///     parts.push((row, span.part(&section)));
    /// }
    /// assert_eq!(parts, [(0, Some(&[0x2A][..])), (1, None), (2, Some(&[0x2B]))]);
    ///
    /// // A section that is cut short: the rows before the cut are still found.
    /// let mut column = plan.column_spans(&section[..7], rows, Owner::Parents, 0);
    /// assert_eq!(column.next(), Some(Ok((0, Span::Field { start: 2, end: 3 }))));
    /// assert_eq!(column.next(), Some(Ok((1, Span::Null))));
    /// let error = column.next().unwrap().unwrap_err();
    /// let text = "error 1 at 7 of the row section: the input ends too soon";
    /// assert_eq!(error.describe().to_string(), text);
    /// assert_eq!(column.next(), None);
    /// # Ok(())
    /// # }
    /// ```
    #[inline]
    pub fn column_spans<'a>(
        &'a self,
        section: &'a [u8],
        rows: Rows<'a>,
        owner: Owner,
        column: usize,
    ) -> ColumnSpans<'a> {
        ColumnSpans {
            plan: self,
            section,
            rows,
            owner,
            column,
            from: 0,
            page: [[0; PAGE_SPAN_NUMBERS]; PAGE_SPANS],
            at: 0,
            end: 0,
        }
    }

    /// Looks up one column in the rows of one owner, from row `from` of the table on. It fills
    /// `spans` for as many rows as there is room for, [`PAGE_SPAN_NUMBERS`] numbers each, and says which
    /// row comes next. Numbers behind the last span stay as they were.
    ///
    /// A row that is refused ends the page before it. If it is the first row of the page, the call
    /// answers its error, and all of `spans` stays as it was. The error is about the section; its
    /// offset is the place there. An error about the column stays one about the column.
    ///
    /// A `from` that is greater than the number of rows is an error of the kind `Missing` about the
    /// place. Lend room for one span at least, or the page does not get on.
    ///
    /// ```
    /// use adtg::{list_section, Owner, Plan, Span, PAGE_SPAN_NUMBERS};
    ///
    /// # fn main() -> Result<(), adtg::Error> {
    /// // One byte; then five rows of it.
    /// let schema = [0x01, 0x11, 0x00];
    /// let section = [7, 10, 7, 11, 7, 12, 7, 13, 7, 14, 0x0F];
    /// let mut table = [0; 20];
    /// let rows = list_section(&schema, &section, &mut table)?;
    /// let plan = Plan::make(&schema, 0)?;
    ///
    /// // Pages of two spans.
    /// let mut buffer = [0; 2 * PAGE_SPAN_NUMBERS];
    /// let (mut from, mut found) = (0, Vec::new());
    /// while from < rows.len() {
    ///     let page = plan.find_page(&section, rows, from, Owner::Parents, 0, &mut buffer)?;
    ///     for (row, span) in page.spans.iter() {
    ///         found.push((row, span.part(&section).unwrap()[0]));
    ///     }
    ///     from = page.next;
    /// }
    /// assert_eq!(found, [(0, 10), (1, 11), (2, 12), (3, 13), (4, 14)]);
    /// # Ok(())
    /// # }
    /// ```
    // Always, so that a page takes one call and not two.
    #[inline(always)]
    pub fn find_page<'a>(
        &self,
        section: &[u8],
        rows: Rows,
        from: usize,
        owner: Owner,
        column: usize,
        spans: &'a mut [u32],
    ) -> Result<Page<'a>, Error> {
        let (table, count, room) = (rows.numbers(), rows.len(), spans.len() / PAGE_SPAN_NUMBERS);
        let owner = owner.number();
        let reply = raw::find_page(
            self.numbers(),
            section,
            table,
            count,
            from,
            owner,
            column,
            spans,
        );
        let paged = reply.result(from..count, room)?;
        Ok(Page {
            spans: PageSpans {
                numbers: &spans[..paged.spans * PAGE_SPAN_NUMBERS],
            },
            next: paged.next,
            rows: count,
        })
    }
}

impl Page<'_> {
    /// True if no row of the owner is left.
    pub fn is_last(self) -> bool {
        self.next == self.rows
    }
}

impl ColumnSpans<'_> {
    /// Asks for the next page: true if there is one, with a span at least.
    #[inline(never)]
    fn turn(&mut self) -> Result<bool, Error> {
        let rows = self.rows.len();
        if self.from >= rows {
            return Ok(false);
        }
        // After an error no row is left.
        let from = std::mem::replace(&mut self.from, rows);
        (self.at, self.end) = (0, 0);
        let room = self.page.as_flattened_mut();
        let page =
            self.plan
                .find_page(self.section, self.rows, from, self.owner, self.column, room)?;
        (self.from, self.end) = (page.next, page.spans.len());
        Ok(self.end > 0)
    }
}

impl Iterator for ColumnSpans<'_> {
    type Item = Result<(usize, Span), Error>;

    #[inline]
    fn next(&mut self) -> Option<Result<(usize, Span), Error>> {
        if self.at >= self.end {
            match self.turn() {
                Ok(true) => {}
                Ok(false) => return None,
                Err(error) => return Some(Err(error)),
            }
        }
        let found = located(&self.page[self.at]);
        self.at += 1;
        Some(Ok(found))
    }

    fn size_hint(&self) -> (usize, Option<usize>) {
        let ready = self.end - self.at;
        (ready, Some(ready + self.rows.len() - self.from))
    }
}

impl FusedIterator for ColumnSpans<'_> {}

impl<'a> PageSpans<'a> {
    /// The spans of numbers that you kept, three each. `None` if they are not the numbers of whole
    /// spans: if one has neither a field nor a mark, or a field that ends before it starts.
    ///
    /// ```
    /// use adtg::{Span, PageSpans};
    ///
    /// let spans = PageSpans::from_numbers(&[4, 20, 24]).unwrap();
    /// assert_eq!(spans.get(0), Some((4, Span::Field { start: 20, end: 24 })));
    /// assert_eq!(PageSpans::from_numbers(&[4, 24, 20]), None);
    /// ```
    pub fn from_numbers(numbers: &'a [u32]) -> Option<PageSpans<'a>> {
        let (spans, rest) = numbers.as_chunks();
        let is_sound = rest.is_empty() && spans.iter().all(|span| span_of(span).is_some());
        is_sound.then_some(PageSpans { numbers })
    }

    /// How many spans there are.
    pub fn len(self) -> usize {
        self.numbers.len() / PAGE_SPAN_NUMBERS
    }

    /// True if there are none.
    pub fn is_empty(self) -> bool {
        self.numbers.is_empty()
    }

    /// The row and the span of this number, counted from 0.
    pub fn get(self, number: usize) -> Option<(usize, Span)> {
        self.numbers.as_chunks().0.get(number).map(located)
    }

    /// All rows and their spans, in order.
    #[inline]
    pub fn iter(self) -> impl ExactSizeIterator<Item = (usize, Span)> + 'a {
        self.numbers.as_chunks().0.iter().map(located)
    }

    /// The numbers of the spans, three each: the row, then start and end of a field or twice a mark.
    pub fn numbers(self) -> &'a [u32] {
        self.numbers
    }
}

/// The span of three numbers, if they have a meaning. The first is the row's.
#[inline]
fn span_of(numbers: &[u32; PAGE_SPAN_NUMBERS]) -> Option<Span> {
    let [_, start, end] = *numbers;
    if start <= end && end as usize <= MAX_INPUT {
        return Some(Span::Field {
            start: start as usize,
            end: end as usize,
        });
    }
    match (start, end) {
        (Span::NULL, Span::NULL) => Some(Span::Null),
        (Span::CHAPTER, Span::CHAPTER) => Some(Span::Chapter),
        _ => None,
    }
}

/// The row and the span that three numbers say.
#[inline]
fn located(numbers: &[u32; PAGE_SPAN_NUMBERS]) -> (usize, Span) {
    match span_of(numbers) {
        Some(span) => (numbers[0] as usize, span),
        None => malformed(numbers),
    }
}

#[cold]
fn malformed(numbers: &[u32; PAGE_SPAN_NUMBERS]) -> ! {
    Malformed::new(0, &numbers.map(u64::from)).fail()
}

#[cfg(test)]
mod tests {
    use super::*;
    use crate::tests::{ROW, S, SECTION, T};
    use crate::{list_section, ErrorKind, Input};

    /// The marks, twice each as in a span.
    const NULL: [u32; 2] = [u32::MAX; 2];
    const CHAPTER: [u32; 2] = [u32::MAX - 1; 2];

    /// The rows of `SECTION`: a parent, and a changed child.
    const ROWS: [u32; 8] = [1, 0, 1, 0, 3, 7, 10, 16];

    fn field(start: usize, end: usize) -> Span {
        Span::Field { start, end }
    }

    fn error(kind: ErrorKind, offset: usize, input: Input) -> Error {
        Error {
            kind,
            offset,
            input,
        }
    }

    fn rows(numbers: &[u32]) -> Rows<'_> {
        Rows::from_numbers(numbers).expect("the numbers are those of rows")
    }

    /// Two parent rows of S: the first as `ROW`, the second with null in column 1.
    fn rows_of_s() -> (Vec<u8>, Vec<u32>) {
        let mut section = vec![0x07];
        section.extend(ROW);
        section.extend([0x07, 0x7F, 6, 0, 0, 0, 0x2B, 0x0F]);
        let mut table = vec![0; 8];
        assert_eq!(list_section(&S, &section, &mut table).unwrap().len(), 2);
        (section, table)
    }

    /// So many parent rows of one byte each, with a child's row after every third.
    fn many_rows(parents: usize) -> (Plan, Vec<u8>, Vec<u32>) {
        let file = [0x02, 0x11, 0x00, 0x88, 0x01, 0x00, 0x07, 0x01, 0x11, 0x00];
        let mut section = Vec::new();
        for parent in 0..parents {
            section.extend([0x07, parent as u8]);
            if parent % 3 == 2 {
                section.extend([0x87, 7, 0, 0, 0, 0x2A]);
            }
        }
        section.push(0x0F);
        let mut table = vec![0; 2 * parents * crate::ROW_NUMBERS];
        let count = list_section(&file, &section, &mut table).unwrap().len();
        table.truncate(count * crate::ROW_NUMBERS);
        (Plan::make(&file, 0).unwrap(), section, table)
    }

    #[test]
    fn a_column_is_found_in_every_row() {
        let (section, table) = rows_of_s();
        let plan = Plan::make(&S, 0).unwrap();
        let find = |column| -> Vec<(usize, Span)> {
            let found = plan.column_spans(&section, rows(&table), Owner::Parents, column);
            let found: Result<Vec<(usize, Span)>, Error> = found.collect();
            let mut numbers = [9; 8];
            let page = plan.find_page(
                &section,
                rows(&table),
                0,
                Owner::Parents,
                column,
                &mut numbers,
            );
            let page = page.unwrap();
            assert_eq!((page.next, page.is_last()), (2, true));
            assert_eq!(Ok(page.spans.iter().collect()), found);
            assert_eq!(numbers[6..], [9; 2]);
            found.unwrap()
        };
        assert_eq!(find(0), [(0, field(2, 6)), (1, field(14, 18))]);
        assert_eq!(find(1), [(0, field(7, 11)), (1, Span::Null)]);
        assert_eq!(find(2), [(0, field(11, 12)), (1, field(18, 19))]);
        assert_eq!(find(1)[0].1.part(&section), Some(&ROW[6..10]));
        assert_eq!(find(1)[1].1.part(&section), None);
        assert_eq!(field(2, 99).part(&section), None);
    }

    #[test]
    fn each_owner_has_its_own_rows() {
        let (parent, child) = (Plan::make(&T, 0).unwrap(), Plan::make(&T, 1).unwrap());
        let find = |plan: &Plan, owner, column| {
            let found = plan.column_spans(&SECTION, rows(&ROWS), owner, column);
            found
                .collect::<Result<Vec<(usize, Span)>, Error>>()
                .unwrap()
        };
        assert_eq!(find(&parent, Owner::Parents, 0), [(0, field(1, 5))]);
        assert_eq!(find(&parent, Owner::Parents, 1), [(0, Span::Chapter)]);
        // The original data, though the row is changed.
        assert_eq!(find(&child, Owner::Child(7), 0), [(1, field(10, 11))]);
        assert_eq!(find(&child, Owner::Child(8), 0), []);
        assert_eq!(find(&child, Owner::Child(u32::MAX), 0), []);
    }

    #[test]
    fn a_page_has_as_many_spans_as_there_is_room_for() {
        let (section, table) = rows_of_s();
        let plan = Plan::make(&S, 0).unwrap();
        for (room, from, next, spans) in [
            (0, 0, 0, &[][..]),
            (2, 0, 0, &[]),
            (2, 1, 1, &[]),
            (2, 2, 2, &[]),
            (3, 0, 1, &[0, 2, 6]),
            (5, 0, 1, &[0, 2, 6]),
            (3, 1, 2, &[1, 14, 18]),
            (6, 0, 2, &[0, 2, 6, 1, 14, 18]),
            (7, 0, 2, &[0, 2, 6, 1, 14, 18]),
            (7, 2, 2, &[]),
        ] {
            let mut numbers = [9; 7];
            let lent = &mut numbers[..room];
            let page = plan.find_page(&section, rows(&table), from, Owner::Parents, 0, lent);
            let page = page.unwrap();
            assert_eq!(
                (page.next, page.spans.numbers()),
                (next, spans),
                "{room} {from}"
            );
            assert_eq!(page.is_last(), next == 2);
            let filled = spans.len();
            assert_eq!(numbers[filled..], [9; 7][filled..]);
        }
    }

    #[test]
    fn an_error_leaves_the_spans() {
        let (section, table) = rows_of_s();
        let plan = Plan::make(&S, 0).unwrap();
        let mut numbers = [9; 7];
        let mut find = |section: &[u8], table: &[u32], from, column| {
            let page = plan.find_page(
                section,
                rows(table),
                from,
                Owner::Parents,
                column,
                &mut numbers,
            );
            let answer = page.map(|page| page.next);
            assert_eq!(numbers, [9; 7]);
            answer
        };
        let short = error(ErrorKind::Short, 17, Input::Section);
        assert_eq!(find(&section[..17], &table, 1, 0), Err(short));
        let past = error(ErrorKind::Short, 20, Input::Section);
        assert_eq!(find(&section, &[1, 0, u32::MAX, 0], 0, 0), Err(past));
        let missing = error(ErrorKind::Missing, 0, Input::Column);
        assert_eq!(find(&section, &table, 0, 3), Err(missing));
        let place = error(ErrorKind::Missing, 0, Input::Place);
        assert_eq!(find(&section, &table, 3, 0), Err(place));
        assert_eq!(find(&section, &table, usize::MAX, 3), Err(place));
        let large = error(ErrorKind::TooLarge, 0, Input::Section);
        assert_eq!(find(&vec![0; MAX_INPUT + 1], &table, 3, 3), Err(large));
        // Without a row nothing is asked for.
        assert_eq!(find(&section, &table, 2, usize::MAX), Ok(2));
    }

    #[test]
    fn more_rows_than_the_table_or_any_section_has_are_refused() {
        let plan = Plan::make(&S, 0).unwrap();
        let table = vec![0; (MAX_INPUT + 1) * crate::ROW_NUMBERS];
        let find = |table: &[u32], rows| {
            let owner = Owner::Parents.number();
            let reply = raw::find_page(plan.numbers(), &[], table, rows, 0, owner, 0, &mut []);
            reply.result(0..rows, 0).map(|paged| paged.next)
        };
        let missing = error(ErrorKind::Missing, 0, Input::Table);
        assert_eq!(find(&table, MAX_INPUT + 1), Err(missing));
        assert_eq!(find(&table, MAX_INPUT), Ok(MAX_INPUT));
        assert_eq!(find(&table, usize::MAX), Err(missing));
        for (length, rows) in [(0, 1), (3, 1), (7, 2), (8, 3)] {
            assert_eq!(find(&table[..length], rows), Err(missing));
            assert_eq!(find(&table[..length], rows - 1), Ok(rows - 1));
        }
    }

    #[test]
    fn the_iterator_turns_the_pages() {
        for parents in [0, 1, 2, 3, 63, 64, 65, 127, 128, 129, 500] {
            let (plan, section, table) = many_rows(parents);
            let found = plan.column_spans(&section, rows(&table), Owner::Parents, 0);
            let (low, high) = found.size_hint();
            let found: Vec<(usize, Span)> = found.map(Result::unwrap).collect();
            assert!(low <= parents && high >= Some(parents), "{low} {high:?}");
            let own = rows(&table).iter().enumerate();
            let own = own.filter(|(_, row)| row.child_id.is_none());
            let wanted = own.map(|(number, row)| (number, field(row.original, row.original + 1)));
            assert_eq!(found, wanted.collect::<Vec<_>>(), "{parents}");
            assert_eq!(found.len(), parents);
        }
    }

    #[test]
    fn the_iterator_ends_with_an_error() {
        for good in [0, 1, 63, 64, 65, 130] {
            let (plan, mut section, table) = many_rows(200);
            let own: Vec<_> = rows(&table)
                .iter()
                .filter(|row| row.child_id.is_none())
                .collect();
            // The section ends before the row's byte.
            section.truncate(own[good].original);
            let mut found = plan.column_spans(&section, rows(&table), Owner::Parents, 0);
            assert_eq!(
                found.by_ref().take(good).filter(Result::is_ok).count(),
                good
            );
            let short = error(ErrorKind::Short, section.len(), Input::Section);
            assert_eq!(found.next(), Some(Err(short)), "{good}");
            assert_eq!(found.size_hint(), (0, Some(0)));
            assert_eq!((found.next(), found.next()), (None, None));
        }
        // An error that every row has is the only item.
        let (plan, section, table) = many_rows(3);
        let mut found = plan.column_spans(&section, rows(&table), Owner::Parents, 2);
        let missing = error(ErrorKind::Missing, 0, Input::Column);
        assert_eq!((found.next(), found.next()), (Some(Err(missing)), None));
    }

    #[test]
    fn spans_are_counted_and_listed() {
        let numbers = [3, 2, 6, 5, NULL[0], NULL[1]];
        let spans = PageSpans::from_numbers(&numbers).unwrap();
        assert_eq!((spans.len(), spans.is_empty()), (2, false));
        assert_eq!(spans.get(0), Some((3, field(2, 6))));
        assert_eq!(spans.get(1), Some((5, Span::Null)));
        assert_eq!((spans.get(2), spans.get(usize::MAX)), (None, None));
        assert_eq!(spans.numbers(), numbers);
        assert!(PageSpans::from_numbers(&[]).unwrap().is_empty());
    }

    #[test]
    fn a_span_lies_in_a_section_or_is_a_mark() {
        let (null, chapter, most) = (NULL[0], CHAPTER[0], MAX_INPUT as u32);
        let span = |[start, end]: [u32; 2]| span_of(&[7, start, end]);
        assert_eq!(span([6, 6]), Some(field(6, 6)));
        assert_eq!(span([most, most]), Some(field(MAX_INPUT, MAX_INPUT)));
        assert_eq!(span(NULL), Some(Span::Null));
        assert_eq!(span(CHAPTER), Some(Span::Chapter));
        for wrong in [
            [7, 6],
            [6, most + 1],
            [6, null],
            [6, chapter],
            [null, 6],
            [chapter, null],
            [null - 2, null - 2],
        ] {
            assert_eq!(span(wrong), None, "{wrong:?}");
            let numbers = [1, 2, 3, 7, wrong[0], wrong[1]];
            assert_eq!(PageSpans::from_numbers(&numbers), None);
            assert!(PageSpans::from_numbers(&numbers[..3]).is_some());
        }
        // A part of a span is none.
        let numbers = [1, 2, 3, 4, 5, 6];
        for length in 0..=6 {
            let spans = PageSpans::from_numbers(&numbers[..length]);
            assert_eq!(spans.is_some(), length % PAGE_SPAN_NUMBERS == 0);
        }
    }
}
