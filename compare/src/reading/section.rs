//! The row section: elements one after another up to the end token, and the table of rows
//! that they make.

use super::column::Column;
use super::row::{row_end_in, PresenceMap};
use super::schema::SchemaFile;
use super::update::{update_end_in, UpdateMaps};
use super::{check_size, Error, ErrorCode, Input};

/// Tokens of the elements.
pub const PARENT: u8 = 0x07;
pub const CHILD: u8 = 0x87;
pub const CHILD_CHANGE: u8 = 0x8A;
pub const CHILD_DELETE: u8 = 0x8C;
pub const END: u8 = 0x0F;

const ID_SIZE: usize = 4;

/// Numbers that the table has for each row: kind, child id, start of the original data, start
/// of the update data.
pub const ROW_NUMBERS: usize = 4;

/// Kinds of rows in the table.
pub const PARENT_UNCHANGED: u32 = 1;
const CHILD_UNCHANGED: u32 = 2;
const CHILD_CHANGED: u32 = 3;
const CHILD_DELETED: u32 = 4;

/// Checks a whole section and answers how many rows it has.
pub fn check_section(schema: &[u8], section: &[u8]) -> Result<usize, Error> {
    let rows = rows_of(schema, section, 0)?;
    Ok(rows.count)
}

/// Checks a whole section, lists its rows in the caller's table and answers how many it has. After
/// an error the table is as it was.
pub fn list_section(schema: &[u8], section: &[u8], table: &mut [u32]) -> Result<usize, Error> {
    let rows = rows_of(schema, section, table.len() / ROW_NUMBERS)?;
    if rows.count > rows.kept.len() {
        return Err(Error::new(ErrorCode::Capacity, rows.count, Input::Table));
    }
    let filled = rows.kept.as_flattened();
    table[..filled.len()].copy_from_slice(filled);
    Ok(rows.count)
}

/// How many whole 07 and 87 elements the bytes of a section begin with, up to its end or to what is
/// wrong with it. An 87 element is whole with its own data, whatever follows.
pub(super) fn whole_elements(schema: &[u8], section: &[u8]) -> Result<usize, Error> {
    let file = SchemaFile::read(schema, Input::Schema)?;
    let mut rows = Rows::new(0);
    // A row is added where its element ends, so the count stands also where an error ends the reading.
    let _ = Elements::new(&file, section).read(&mut rows);
    Ok(rows.count)
}

/// The rows of a whole section, of which a table has room for so many.
fn rows_of(schema: &[u8], section: &[u8], capacity: usize) -> Result<Rows, Error> {
    check_size(schema, Input::Schema)?;
    check_size(section, Input::Section)?;
    let file = SchemaFile::read(schema, Input::Schema)?;
    let mut rows = Rows::new(capacity);
    Elements::new(&file, section).read(&mut rows)?;
    Ok(rows)
}

/// The rows found so far. Those that the table has no room for are only counted.
struct Rows {
    kept: Vec<[u32; ROW_NUMBERS]>,
    count: usize,
    capacity: usize,
}

impl Rows {
    fn new(capacity: usize) -> Rows {
        Rows {
            kept: Vec::new(),
            count: 0,
            capacity,
        }
    }

    fn add(&mut self, row: [u32; ROW_NUMBERS]) {
        if self.count < self.capacity {
            self.kept.push(row);
        }
        self.count += 1;
    }

    /// Gives the last row another kind and the start of its update data.
    fn change_last(&mut self, kind: u32, update: u32) {
        if self.count > self.capacity {
            return;
        }
        if let Some(row) = self.kept.last_mut() {
            row[0] = kind;
            row[3] = update;
        }
    }
}

/// The child element that a change or a deletion may follow.
#[derive(Clone, Copy)]
struct Child {
    id: u32,
    schema: usize,
}

/// What rows under one schema look like.
struct Form<'a> {
    columns: &'a [Column],
    presence: PresenceMap,
    update: UpdateMaps,
}

/// A section and the schemas that its rows are under.
struct Elements<'a> {
    file: &'a SchemaFile,
    forms: Vec<Form<'a>>,
    section: &'a [u8],
}

impl<'a> Elements<'a> {
    fn new(file: &'a SchemaFile, section: &'a [u8]) -> Elements<'a> {
        let form = |index| {
            let columns = file.columns_at(index);
            Form {
                columns,
                presence: PresenceMap::of(columns),
                update: UpdateMaps::of(columns),
            }
        };
        Elements {
            file,
            forms: (0..file.schema_count()).map(form).collect(),
            section,
        }
    }

    /// Takes elements up to the end token, which must be the last byte.
    fn read(&self, rows: &mut Rows) -> Result<(), Error> {
        let mut at = 0;
        let mut before: Option<Child> = None;
        loop {
            let token_at = at;
            let token = self.section.get(at).ok_or(self.truncated())?;
            match *token {
                PARENT => {
                    let start = at + 1;
                    at = self.original_end(0, start)?;
                    rows.add([PARENT_UNCHANGED, 0, start as u32, 0]);
                    before = None;
                }
                CHILD => {
                    let id = self.id_at(at + 1)?;
                    let schema = self
                        .schema_of(id, before)
                        .ok_or(self.error(ErrorCode::UnknownChild, token_at))?;
                    let start = at + 1 + ID_SIZE;
                    at = self.original_end(schema, start)?;
                    rows.add([CHILD_UNCHANGED, id, start as u32, 0]);
                    before = Some(Child { id, schema });
                }
                CHILD_CHANGE => {
                    let child = self.paired(at, before)?;
                    let start = at + 1 + ID_SIZE;
                    at = self.changes_end(child.schema, start)?;
                    rows.change_last(CHILD_CHANGED, start as u32);
                    before = None;
                }
                CHILD_DELETE => {
                    self.paired(at, before)?;
                    at += 1 + ID_SIZE;
                    rows.change_last(CHILD_DELETED, 0);
                    before = None;
                }
                END => {
                    if at + 1 != self.section.len() {
                        return Err(self.error(ErrorCode::Trailing, at + 1));
                    }
                    return Ok(());
                }
                _ => return Err(self.error(ErrorCode::UnknownToken, token_at)),
            }
        }
    }

    /// Where the original data that starts at `at` under this schema ends.
    fn original_end(&self, schema: usize, at: usize) -> Result<usize, Error> {
        let form = &self.forms[schema];
        row_end_in(
            form.columns,
            &form.presence,
            self.section,
            at,
            Input::Section,
        )
    }

    /// Where the update data that starts at `at` under this schema ends.
    fn changes_end(&self, schema: usize, at: usize) -> Result<usize, Error> {
        let form = &self.forms[schema];
        update_end_in(form.columns, &form.update, self.section, at, Input::Section)
    }

    /// The schema with this id; children of one table often follow each other.
    fn schema_of(&self, id: u32, before: Option<Child>) -> Option<usize> {
        match before {
            Some(child) if child.id == id => Some(child.schema),
            _ => self.file.index_of_id(id),
        }
    }

    /// The child row directly before the element at `at`, which must have the same id.
    fn paired(&self, at: usize, before: Option<Child>) -> Result<Child, Error> {
        let id = self.id_at(at + 1)?;
        before
            .filter(|child| child.id == id)
            .ok_or(self.error(ErrorCode::Unpaired, at))
    }

    /// The child id at `at`.
    fn id_at(&self, at: usize) -> Result<u32, Error> {
        let id = self
            .section
            .get(at..)
            .and_then(|rest| rest.first_chunk())
            .ok_or(self.truncated())?;
        Ok(u32::from_le_bytes(*id))
    }

    fn truncated(&self) -> Error {
        Error::truncated(self.section, Input::Section)
    }

    fn error(&self, code: ErrorCode, offset: usize) -> Error {
        Error::new(code, offset, Input::Section)
    }
}

#[cfg(test)]
mod tests {
    use super::*;

    const S: [u8; 9] = [0x03, 0x03, 0x00, 0x82, 0x01, 0x01, 0x0A, 0x11, 0x01];
    const T: [u8; 10] = [0x02, 0x03, 0x00, 0x88, 0x01, 0x00, 0x07, 0x01, 0x11, 0x00];
    const ROWS: [u8; 20] = [
        0x07, 5, 0, 0, 0, 0x87, 7, 0, 0, 0, 0x2A, 0x8A, 7, 0, 0, 0, 0x80, 0x00, 0x2B, 0x0F,
    ];

    fn wrong(code: ErrorCode, offset: usize) -> Result<usize, Error> {
        Err(Error::new(code, offset, Input::Section))
    }

    /// What both calls say, where there is room for two rows.
    fn both(schema: &[u8], section: &[u8]) -> Result<usize, Error> {
        let listed = list_section(schema, section, &mut [0; 2 * ROW_NUMBERS]);
        assert_eq!(check_section(schema, section), listed);
        listed
    }

    #[test]
    fn sections_without_rows() {
        assert_eq!(both(&S, &[0x0F]), Ok(0));
        assert_eq!(list_section(&S, &[0x0F], &mut []), Ok(0));
        assert_eq!(both(&S, &[]), wrong(ErrorCode::Truncated, 0));
        assert_eq!(both(&S, &[0x0F, 0x0F]), wrong(ErrorCode::Trailing, 1));
    }

    #[test]
    fn a_parent_and_a_changed_child() {
        let mut table = [9; 10];
        assert_eq!(list_section(&T, &ROWS, &mut table), Ok(2));
        assert_eq!(table, [1, 0, 1, 0, 3, 7, 10, 16, 9, 9]);
        let mut table = [9; 7];
        let small = list_section(&T, &ROWS, &mut table);
        let error = Error::new(ErrorCode::Capacity, 2, Input::Table);
        assert_eq!(small, Err(error));
        assert_eq!(table, [9; 7]);
        assert_eq!(check_section(&T, &ROWS), Ok(2));
    }

    #[test]
    fn a_change_needs_its_own_child() {
        let mut rows = ROWS;
        rows[12] = 8;
        assert_eq!(both(&T, &rows), wrong(ErrorCode::Unpaired, 11));
        assert_eq!(both(&T, &ROWS[..14]), wrong(ErrorCode::Truncated, 14));
    }

    #[test]
    fn a_forced_null_needs_its_update_bit() {
        let mut rows = ROWS;
        rows[16..18].copy_from_slice(&[0x00, 0x80]);
        assert_eq!(both(&T, &rows), wrong(ErrorCode::ForceRule, 17));
    }
}
