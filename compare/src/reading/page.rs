//! Pages of a batch: where the field of one column stands in a section, for the rows of one owner. Rows
//! are taken from a table as the section reader fills it. A page has the spans of some rows, as many as
//! the caller has room for; the whole list has those of all rows, found one by one.

use super::batch::{in_section, owner_of, CHAPTER_MARK, NULL_MARK};
use super::column::Column;
use super::plan::Plan;
use super::row::{check_column, look_up_in, Answer};
use super::section::ROW_NUMBERS;
use super::{check_size, Error, ErrorCode, Input, MAX_INPUT};

/// Numbers of a span: the row's number in the table, start and end of the field in the section.
pub const PAGE_SPAN_NUMBERS: usize = 3;

/// The numbers of a span.
pub type Span = [u32; PAGE_SPAN_NUMBERS];

/// What a page is asked for, all but what its rows are like.
#[derive(Clone, Copy, Debug)]
pub struct Asked<'a> {
    pub section: &'a [u8],
    /// The numbers of the table, of which the first so many rows count.
    pub table: &'a [u32],
    pub rows: usize,
    /// The first row that is looked at.
    pub from: usize,
    pub owner: usize,
    pub column: usize,
}

/// How many spans a page has, and which row comes next: one of the owner, or the number of rows.
#[derive(Clone, Copy, Debug, PartialEq, Eq)]
pub struct Page {
    pub spans: usize,
    pub next: usize,
}

/// A page of rows that have these columns, by the walk. After an error the spans are as they were.
pub fn find_page(columns: &[Column], asked: &Asked, spans: &mut [u32]) -> Result<Page, Error> {
    page_by(walk(columns, asked.column), asked, spans)
}

/// A look-up of a column by the walk.
pub fn walk(
    columns: &[Column],
    column: usize,
) -> impl Fn(&[u8]) -> Result<Answer, Error> + use<'_> {
    move |part| {
        check_column(columns, column)?;
        look_up_in(columns, part, column)
    }
}

impl Plan {
    /// The same page through a plan.
    pub fn find_page(&self, asked: &Asked, spans: &mut [u32]) -> Result<Page, Error> {
        page_by(|part| self.look_up(part, asked.column), asked, spans)
    }
}

/// A page by any look-up in a row, which is handed the section from the row's start on.
pub fn page_by(
    look_up: impl Fn(&[u8]) -> Result<Answer, Error>,
    asked: &Asked,
    spans: &mut [u32],
) -> Result<Page, Error> {
    asked.check()?;
    let mut own = asked.own_rows().peekable();
    let mut count = 0;
    for free in spans.chunks_exact_mut(PAGE_SPAN_NUMBERS) {
        let Some((number, start)) = own.peek() else {
            break;
        };
        match span(&look_up, asked.section, *number, *start) {
            Ok(found) => free.copy_from_slice(&found),
            // Only the first row of a page refuses the call.
            Err(error) if count == 0 => return Err(error),
            Err(_) => break,
        }
        count += 1;
        own.next();
    }
    let next = own.peek().map_or(asked.rows, |(number, _)| *number);
    Ok(Page { spans: count, next })
}

/// All rows one by one, from the first that is asked for up to the first that is refused: their
/// spans, and the error.
pub fn list_by(
    look_up: impl Fn(&[u8]) -> Result<Answer, Error>,
    asked: &Asked,
) -> (Vec<Span>, Option<Error>) {
    let mut list = Vec::new();
    for (number, start) in asked.own_rows() {
        match span(&look_up, asked.section, number, start) {
            Ok(found) => list.push(found),
            Err(error) => return (list, Some(error)),
        }
    }
    (list, None)
}

impl<'a> Asked<'a> {
    /// Error 19 for the section, then 18 for the table if it has fewer rows, then 18 for a first row
    /// behind the last.
    fn check(&self) -> Result<(), Error> {
        check_size(self.section, Input::Section)?;
        let most = MAX_INPUT.min(self.table.len() / ROW_NUMBERS);
        if self.rows > most {
            return Err(Error::new(ErrorCode::NoSuch, 0, Input::Table));
        }
        if self.from > self.rows {
            return Err(Error::new(ErrorCode::NoSuch, 0, Input::Place));
        }
        Ok(())
    }

    /// The rows of the owner from the first that is asked for on: number and start of each.
    fn own_rows(&self) -> impl Iterator<Item = (usize, usize)> + 'a {
        let Asked { rows, owner, .. } = *self;
        let numbers = self.table.chunks_exact(ROW_NUMBERS).enumerate();
        let numbers = numbers.take(rows).skip(self.from);
        numbers
            .filter(move |(_, row)| owner_of(row) == owner)
            .map(|(number, row)| (number, row[2] as usize))
    }
}

/// The span of a row whose data start there; behind the section that is its end.
fn span(
    look_up: &impl Fn(&[u8]) -> Result<Answer, Error>,
    section: &[u8],
    number: usize,
    start: usize,
) -> Result<Span, Error> {
    let start = section.len().min(start);
    let answer = look_up(&section[start..]).map_err(|error| in_section(start, error))?;
    // Sections keep the size limit, and so do tables: numbers and places have 32 bits.
    let number = number as u32;
    Ok(match answer {
        Answer::Field { place, .. } => [
            number,
            (start + place.start) as u32,
            (start + place.end) as u32,
        ],
        Answer::Null => [number, NULL_MARK, NULL_MARK],
        Answer::Chapter => [number, CHAPTER_MARK, CHAPTER_MARK],
    })
}

#[cfg(test)]
mod tests {
    use super::super::batch::PARENTS;
    use super::super::plan::make_plan;
    use super::super::schema::SchemaFile;
    use super::super::section::list_section;
    use super::*;

    const S: [u8; 9] = [0x03, 0x03, 0x00, 0x82, 0x01, 0x01, 0x0A, 0x11, 0x01];
    const T: [u8; 10] = [0x02, 0x03, 0x00, 0x88, 0x01, 0x00, 0x07, 0x01, 0x11, 0x00];
    const T_ROWS: [u8; 20] = [
        0x07, 5, 0, 0, 0, 0x87, 7, 0, 0, 0, 0x2A, 0x8A, 7, 0, 0, 0, 0x80, 0x00, 0x2B, 0x0F,
    ];
    /// Two rows of S: one with all fields, one with null in column 1.
    const S_ROWS: [u8; 20] = [
        0x07, 0xC0, 5, 0, 0, 0, 4, 0x68, 0, 0x69, 0, 0x2A, 0x07, 0x7F, 6, 0, 0, 0, 0x2B, 0x0F,
    ];
    const S_TABLE: [u32; 8] = [1, 0, 1, 0, 1, 0, 13, 0];

    /// A column of the parent's rows, of all that the table has.
    fn asked<'a>(section: &'a [u8], table: &'a [u32], column: usize) -> Asked<'a> {
        Asked {
            section,
            table,
            rows: table.len() / ROW_NUMBERS,
            from: 0,
            owner: PARENTS,
            column,
        }
    }

    /// What a page answers under a schema, spans and next row, and what the spans then are: seven
    /// numbers, of which some are lent. The walk and the plan say the same.
    fn find(
        schema: (&[u8], usize),
        asked: Asked,
        room: usize,
    ) -> (Result<(usize, usize), Error>, [u32; 7]) {
        let (file, number) = schema;
        let schemas = SchemaFile::read(file, Input::Schema).unwrap();
        let plan = make_plan(file, number).unwrap();
        let (mut walked, mut planned) = ([9; 7], [9; 7]);
        let columns = schemas.columns_at(number);
        let answer = find_page(columns, &asked, &mut walked[..room]);
        let by_plan = plan.find_page(&asked, &mut planned[..room]);
        assert_eq!((by_plan, planned), (answer, walked));
        (answer.map(|page| (page.spans, page.next)), walked)
    }

    #[test]
    fn spans_stand_in_the_rows_order() {
        let mut table = [0; 8];
        assert_eq!(list_section(&S, &S_ROWS, &mut table), Ok(2));
        assert_eq!(table, S_TABLE);
        let find = |table: &[u32], column| find((&S, 0), asked(&S_ROWS, table, column), 7);
        assert_eq!(find(&S_TABLE, 0), (Ok((2, 2)), [0, 2, 6, 1, 14, 18, 9]));
        let null = NULL_MARK;
        assert_eq!(
            find(&S_TABLE, 1),
            (Ok((2, 2)), [0, 7, 11, 1, null, null, 9])
        );
        assert_eq!(find(&S_TABLE, 2), (Ok((2, 2)), [0, 11, 12, 1, 18, 19, 9]));
        let turned = [S_TABLE[4..].to_vec(), S_TABLE[..4].to_vec()].concat();
        assert_eq!(find(&turned, 0), (Ok((2, 2)), [0, 14, 18, 1, 2, 6, 9]));
        // Numbers that make no row.
        assert_eq!(find(&S_TABLE[..7], 0), (Ok((1, 1)), [0, 2, 6, 9, 9, 9, 9]));
        assert_eq!(find(&S_TABLE[..3], 7), (Ok((0, 0)), [9; 7]));
    }

    #[test]
    fn an_owner_has_its_own_rows() {
        let table = [1, 0, 1, 0, 3, 7, 10, 16];
        let chapter = CHAPTER_MARK;
        let parents = |column| find((&T, 0), asked(&T_ROWS, &table, column), 7);
        assert_eq!(parents(0), (Ok((1, 2)), [0, 1, 5, 9, 9, 9, 9]));
        assert_eq!(parents(1), (Ok((1, 2)), [0, chapter, chapter, 9, 9, 9, 9]));
        let child = |table: &[u32], owner| {
            let asked = Asked {
                owner,
                ..asked(&T_ROWS, table, 0)
            };
            find((&T, 1), asked, 7)
        };
        // The original data of the changed row.
        assert_eq!(child(&table, 7), (Ok((1, 2)), [1, 10, 11, 9, 9, 9, 9]));
        for other in [0, 6, 8, 7 + (1 << 32), PARENTS - 1] {
            assert_eq!(child(&table, other), (Ok((0, 2)), [9; 7]));
        }
        // A parent's row is the parent's, whatever id stands beside it.
        let table = [1, 7, 1, 0, 0, 7, 10, 0];
        assert_eq!(child(&table, 7), (Ok((1, 2)), [1, 10, 11, 9, 9, 9, 9]));
    }

    #[test]
    fn a_page_ends_where_the_room_does() {
        let all = asked(&S_ROWS, &S_TABLE, 0);
        let find = |from, room| find((&S, 0), Asked { from, ..all }, room);
        for room in 0..3 {
            assert_eq!(find(0, room), (Ok((0, 0)), [9; 7]));
            assert_eq!(find(1, room), (Ok((0, 1)), [9; 7]));
            assert_eq!(find(2, room), (Ok((0, 2)), [9; 7]));
        }
        for room in 3..6 {
            assert_eq!(find(0, room), (Ok((1, 1)), [0, 2, 6, 9, 9, 9, 9]));
            assert_eq!(find(1, room), (Ok((1, 2)), [1, 14, 18, 9, 9, 9, 9]));
        }
        assert_eq!(find(0, 6), (Ok((2, 2)), [0, 2, 6, 1, 14, 18, 9]));
        assert_eq!(find(2, 6), (Ok((0, 2)), [9; 7]));
    }

    #[test]
    fn errors_stand_in_the_section_and_leave_the_spans() {
        let refused = |asked: Asked, room, code, offset, input| {
            let answer = find((&S, 0), asked, room);
            assert_eq!(answer, (Err(Error::new(code, offset, input)), [9; 7]));
        };
        let (short, section) = (ErrorCode::Truncated, Input::Section);
        let second = Asked {
            from: 1,
            ..asked(&S_ROWS[..17], &S_TABLE, 0)
        };
        refused(second, 7, short, 17, section);
        refused(asked(&[], &S_TABLE, 0), 7, short, 0, section);
        let far = [1, 0, u32::MAX, 0];
        refused(asked(&S_ROWS, &far, 0), 7, short, 20, section);
        let mut odd = S_ROWS;
        odd[6] = 3;
        refused(asked(&odd, &S_TABLE, 1), 7, ErrorCode::Length, 6, section);
        let missing = ErrorCode::NoSuch;
        refused(asked(&S_ROWS, &S_TABLE, 3), 7, missing, 0, Input::Column);
        // Without room no row is looked at.
        let answer = find((&S, 0), asked(&odd, &S_TABLE, 1), 2);
        assert_eq!(answer, (Ok((0, 0)), [9; 7]));
        // The size comes first, then the table, then the place, then the row.
        let large = vec![0; MAX_INPUT + 1];
        let (rows, from) = (3, 4);
        let all = Asked {
            rows,
            from,
            ..asked(&large, &S_TABLE, 9)
        };
        refused(all, 0, ErrorCode::Oversize, 0, section);
        let section = &S_ROWS[..];
        refused(Asked { section, ..all }, 7, missing, 0, Input::Table);
        let all = Asked {
            section,
            rows: 2,
            ..all
        };
        refused(all, 7, missing, 0, Input::Place);
        refused(Asked { from: 0, ..all }, 7, missing, 0, Input::Column);
    }

    #[test]
    fn a_row_that_is_refused_ends_the_page_before_it() {
        let mut odd = S_ROWS;
        odd[6] = 3;
        let turned = [S_TABLE[4..].to_vec(), S_TABLE[..4].to_vec()].concat();
        let all = asked(&odd, &turned, 1);
        let null = NULL_MARK;
        let wanted = [0, null, null, 9, 9, 9, 9];
        for room in 3..7 {
            assert_eq!(find((&S, 0), all, room), (Ok((1, 1)), wanted));
        }
        let columns = SchemaFile::read(&S, Input::Schema).unwrap();
        let (list, error) = list_by(walk(columns.columns_at(0), 1), &all);
        assert_eq!(list, [[0, null, null]]);
        let length = Error::new(ErrorCode::Length, 6, Input::Section);
        assert_eq!(error, Some(length));
    }

    #[test]
    fn the_pages_together_are_the_whole_list() {
        let file = [0x01, 0x11, 0x01];
        let section = [7, 0x80, 1, 7, 0, 7, 0x80, 3, 7, 0x80, 4, 7, 0, 0x0F];
        let mut table = [0; 20];
        assert_eq!(list_section(&file, &section, &mut table), Ok(5));
        // The second row is not the parent's.
        table[4] = 2;
        let plan = make_plan(&file, 0).unwrap();
        let all = asked(&section, &table, 0);
        let (list, error) = list_by(|part| plan.look_up(part, 0), &all);
        assert_eq!((list.len(), error), (4, None));
        for room in 1..6 {
            let (mut pages, mut from) = (Vec::new(), 0);
            while from < 5 {
                let mut spans = vec![9; room * PAGE_SPAN_NUMBERS];
                let page = plan.find_page(&Asked { from, ..all }, &mut spans).unwrap();
                pages.extend(spans.as_chunks().0[..page.spans].iter().copied());
                assert!(page.next > from);
                from = page.next;
            }
            assert_eq!(pages, list);
        }
        assert_eq!(
            list.iter().map(|span| span[0]).collect::<Vec<_>>(),
            [0, 2, 3, 4]
        );
    }
}
