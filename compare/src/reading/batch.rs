//! Batches: where the field of one column stands in a section, for each row of one owner. Rows
//! are taken from a table as the section reader fills it, and found one by one.

use super::column::Column;
use super::plan::Plan;
use super::row::{check_column, look_up_in, Answer};
use super::section::{PARENT_UNCHANGED, ROW_NUMBERS};
use super::{check_size, Error, ErrorCode, Input};

/// The owner of the parent's rows. A child's rows have its id.
pub const PARENTS: usize = usize::MAX;

/// Numbers that the caller's spans have for each row: start and end of the field in the section.
pub const SPAN_NUMBERS: usize = 2;

/// What both numbers are where the row has null, and where the column is a chapter.
pub const NULL_MARK: u32 = 0xFFFF_FFFF;
pub const CHAPTER_MARK: u32 = 0xFFFF_FFFE;

/// The spans of a column in all rows of an owner, which have these columns, by the walk. Answers
/// how many there are. After an error the spans are as they were.
pub fn find_column(
    columns: &[Column],
    section: &[u8],
    rows: &[u32],
    owner: usize,
    column: usize,
    spans: &mut [u32],
) -> Result<usize, Error> {
    let look_up = |part: &[u8]| {
        check_column(columns, column)?;
        look_up_in(columns, part, column)
    };
    find_by(look_up, section, rows, owner, spans)
}

impl Plan {
    /// The same through a plan.
    pub fn find_column(
        &self,
        section: &[u8],
        rows: &[u32],
        owner: usize,
        column: usize,
        spans: &mut [u32],
    ) -> Result<usize, Error> {
        let look_up = |part: &[u8]| self.look_up(part, column);
        find_by(look_up, section, rows, owner, spans)
    }
}

/// The same by any look-up in a row, which is handed the section from the row's start on.
pub fn find_by(
    mut look_up: impl FnMut(&[u8]) -> Result<Answer, Error>,
    section: &[u8],
    rows: &[u32],
    owner: usize,
    spans: &mut [u32],
) -> Result<usize, Error> {
    check_size(section, Input::Section)?;
    let room = spans.len() / SPAN_NUMBERS;
    let mut found = Vec::with_capacity(room.min(rows.len() / ROW_NUMBERS));
    for row in rows.chunks_exact(ROW_NUMBERS) {
        if owner_of(row) != owner {
            continue;
        }
        // A start behind the section is its end.
        let start = section.len().min(row[2] as usize);
        let answer = look_up(&section[start..]).map_err(|error| in_section(start, error))?;
        found.push(span(start, answer));
    }
    if found.len() > room {
        return Err(Error::new(ErrorCode::Capacity, found.len(), Input::Output));
    }
    let filled = found.as_flattened();
    spans[..filled.len()].copy_from_slice(filled);
    Ok(found.len())
}

/// Whose the row of these numbers is.
pub fn owner_of(row: &[u32]) -> usize {
    if row[0] == PARENT_UNCHANGED {
        PARENTS
    } else {
        row[1] as usize
    }
}

/// The span of an answer about the part of a section that starts at `start`.
fn span(start: usize, answer: Answer) -> [u32; SPAN_NUMBERS] {
    match answer {
        // Sections keep the size limit, so places have 32 bits.
        Answer::Field { place, .. } => [place.start, place.end].map(|at| (start + at) as u32),
        Answer::Null => [NULL_MARK; SPAN_NUMBERS],
        Answer::Chapter => [CHAPTER_MARK; SPAN_NUMBERS],
    }
}

/// An error about the row at `start` is one about the section; any other stays.
pub fn in_section(start: usize, error: Error) -> Error {
    match error.input {
        Input::Row => Error::new(error.code, start + error.offset, Input::Section),
        _ => error,
    }
}

#[cfg(test)]
mod tests {
    use super::super::plan::make_plan;
    use super::super::schema::SchemaFile;
    use super::super::section::list_section;
    use super::super::MAX_INPUT;
    use super::*;

    const S: [u8; 9] = [0x03, 0x03, 0x00, 0x82, 0x01, 0x01, 0x0A, 0x11, 0x01];
    const T: [u8; 10] = [0x02, 0x03, 0x00, 0x88, 0x01, 0x00, 0x07, 0x01, 0x11, 0x00];
    const T_ROWS: [u8; 20] = [
        0x07, 5, 0, 0, 0, 0x87, 7, 0, 0, 0, 0x2A, 0x8A, 7, 0, 0, 0, 0x80, 0x00, 0x2B, 0x0F,
    ];
    /// Two rows of S: one with all fields, one with null in column 1.
    const S_ROWS: [u8; 20] = [
        0x07, 0xC0, 5, 0, 0, 0, 4, 0x68, 0, 0x69, 0, 0x2A, 0x07, 0x7F, 6, 0, 0, 0, 0x2B, 0x0F,
    ];
    const S_TABLE: [u32; 8] = [1, 0, 1, 0, 1, 0, 13, 0];

    /// What a batch answers under a schema, and what the spans then are: five numbers, of which
    /// some are lent. The walk and the plan say the same.
    fn find(
        schema: (&[u8], usize),
        section: &[u8],
        rows: &[u32],
        owner: usize,
        column: usize,
        room: usize,
    ) -> (Result<usize, Error>, [u32; 5]) {
        let (file, number) = schema;
        let schemas = SchemaFile::read(file, Input::Schema).unwrap();
        let plan = make_plan(file, number).unwrap();
        let (mut walked, mut planned) = ([9; 5], [9; 5]);
        let columns = schemas.columns_at(number);
        let spans = &mut walked[..room];
        let answer = find_column(columns, section, rows, owner, column, spans);
        let spans = &mut planned[..room];
        let by_plan = plan.find_column(section, rows, owner, column, spans);
        assert_eq!((by_plan, planned), (answer, walked));
        (answer, walked)
    }

    #[test]
    fn spans_stand_in_the_rows_order() {
        let mut table = [0; 8];
        assert_eq!(list_section(&S, &S_ROWS, &mut table), Ok(2));
        assert_eq!(table, S_TABLE);
        let find = |rows: &[u32], column| find((&S, 0), &S_ROWS, rows, PARENTS, column, 5);
        assert_eq!(find(&S_TABLE, 0), (Ok(2), [2, 6, 14, 18, 9]));
        let null = NULL_MARK;
        assert_eq!(find(&S_TABLE, 1), (Ok(2), [7, 11, null, null, 9]));
        assert_eq!(find(&S_TABLE, 2), (Ok(2), [11, 12, 18, 19, 9]));
        let turned = [S_TABLE[4..].to_vec(), S_TABLE[..4].to_vec()].concat();
        assert_eq!(find(&turned, 0), (Ok(2), [14, 18, 2, 6, 9]));
        // Numbers that make no row.
        assert_eq!(find(&S_TABLE[..7], 0), (Ok(1), [2, 6, 9, 9, 9]));
        assert_eq!(find(&S_TABLE[..3], 7), (Ok(0), [9; 5]));
    }

    #[test]
    fn an_owner_has_its_own_rows() {
        let rows = [1, 0, 1, 0, 3, 7, 10, 16];
        let chapter = CHAPTER_MARK;
        let parents = |column| find((&T, 0), &T_ROWS, &rows, PARENTS, column, 5);
        assert_eq!(parents(0), (Ok(1), [1, 5, 9, 9, 9]));
        assert_eq!(parents(1), (Ok(1), [chapter, chapter, 9, 9, 9]));
        let child = |owner| find((&T, 1), &T_ROWS, &rows, owner, 0, 5);
        // The original data of the changed row.
        assert_eq!(child(7), (Ok(1), [10, 11, 9, 9, 9]));
        for other in [0, 6, 8, 7 + (1 << 32), PARENTS - 1] {
            assert_eq!(child(other), (Ok(0), [9; 5]));
        }
        // A parent's row is the parent's, whatever id stands beside it.
        let rows = [1, 7, 1, 0, 0, 7, 10, 0];
        let child = find((&T, 1), &T_ROWS, &rows, 7, 0, 5);
        assert_eq!(child, (Ok(1), [10, 11, 9, 9, 9]));
    }

    #[test]
    fn errors_stand_in_the_section_and_leave_the_spans() {
        let refused = |section: &[u8], rows: &[u32], column, room, code, offset, input| {
            let answer = find((&S, 0), section, rows, PARENTS, column, room);
            assert_eq!(answer, (Err(Error::new(code, offset, input)), [9; 5]));
        };
        let (short, section) = (ErrorCode::Truncated, Input::Section);
        refused(&S_ROWS[..17], &S_TABLE, 0, 5, short, 17, section);
        refused(&[], &S_TABLE, 0, 5, short, 0, section);
        refused(&S_ROWS, &[1, 0, u32::MAX, 0], 0, 5, short, 20, section);
        let mut odd = S_ROWS;
        odd[6] = 3;
        refused(&odd, &S_TABLE, 1, 5, ErrorCode::Length, 6, section);
        let missing = ErrorCode::NoSuch;
        refused(&S_ROWS, &S_TABLE, 3, 5, missing, 0, Input::Column);
        // The room comes last, and both rows are needed.
        refused(&odd, &S_TABLE, 1, 0, ErrorCode::Length, 6, section);
        let room = ErrorCode::Capacity;
        refused(&S_ROWS, &S_TABLE, 0, 3, room, 2, Input::Output);
        let large = vec![0; MAX_INPUT + 1];
        let size = ErrorCode::Oversize;
        refused(&large, &S_TABLE, 9, 0, size, 0, section);
    }
}
