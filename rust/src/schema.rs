//! Schema files, which say what columns a recordset has.

use crate::raw::{self, size, Numbers, Value};
use crate::Error;

/// What a schema file has.
#[derive(Clone, Copy, Debug, PartialEq, Eq)]
pub struct Counts {
    /// How many schemas.
    pub schemas: usize,
    /// How many columns, of all schemas together.
    pub columns: usize,
}

/// A column of a schema.
#[derive(Clone, Copy, Debug, PartialEq, Eq)]
pub struct Column {
    /// The code of its type.
    pub code: u8,
    /// Whether it is nullable.
    pub nullable: bool,
    /// The maximum length, where the type has one.
    pub maximum: Option<u16>,
    /// What a chapter holds; `None` for any other column.
    pub chapter: Option<Chapter>,
}

/// The schema that a chapter holds.
#[derive(Clone, Copy, Debug, PartialEq, Eq)]
pub struct Chapter {
    /// Its child id.
    pub child_id: u32,
    /// Its number.
    pub schema: usize,
}

/// Reads a whole schema file. Schemas are numbered from 0 by where they start.
pub fn read_schema(file: &[u8]) -> Result<Counts, Error> {
    raw::read_schema(file).result()
}

/// How many columns a schema of a file has.
pub fn schema_columns(file: &[u8], number: usize) -> Result<usize, Error> {
    raw::schema_columns(file, number).result()
}

/// A column of a schema.
pub fn schema_column(file: &[u8], number: usize, column: usize) -> Result<Column, Error> {
    raw::schema_column(file, number, column).result()
}

/// The number of the schema with a child id.
pub fn schema_of_child(file: &[u8], id: u32) -> Result<usize, Error> {
    raw::schema_of_child(file, id).result()
}

/// Writes a schema file at the start of `output`, and answers how many bytes it has. `numbers` are
/// those that the file is made of: the count of columns, then type, flags and what else the type needs
/// of each.
///
/// ```
/// // Two columns: an integer of four bytes, and nullable wide text of up to 40 characters.
/// let mut output = [0; 16];
/// let length = adtg::write_schema(&[2, 3, 0, 130, 1, 40], &mut output)?;
/// assert_eq!(adtg::schema_columns(&output[..length], 0), Ok(2));
/// # Ok::<(), adtg::Error>(())
/// ```
pub fn write_schema(numbers: &[u32], output: &mut [u8]) -> Result<usize, Error> {
    raw::write_schema(numbers, output).result()
}

/// Lists the numbers that a schema file is made of at the start of `table`, and answers how many there
/// are.
pub fn schema_numbers(file: &[u8], table: &mut [u32]) -> Result<usize, Error> {
    raw::schema_numbers(file, table).result()
}

impl Value for Counts {
    const COUNT: usize = 2;

    fn of(numbers: &Numbers) -> Option<Counts> {
        Some(Counts {
            schemas: size(numbers[0]),
            columns: size(numbers[1]),
        })
    }
}

impl Value for Column {
    const COUNT: usize = 5;

    fn of(numbers: &Numbers) -> Option<Column> {
        let maximum = u16::try_from(numbers[2]).ok()?;
        Some(Column {
            code: u8::try_from(numbers[0]).ok()?,
            nullable: flag(numbers[1])?,
            maximum: (maximum != 0).then_some(maximum),
            chapter: chapter(numbers[3], numbers[4])?,
        })
    }
}

/// Flags, of which a column has one at most.
fn flag(flags: u64) -> Option<bool> {
    match flags {
        0 => Some(false),
        1 => Some(true),
        _ => None,
    }
}

/// What a chapter holds. Its number is not 0, which is the top schema's.
fn chapter(child_id: u64, schema: u64) -> Option<Option<Chapter>> {
    if (child_id, schema) == (0, 0) {
        return Some(None);
    }
    let child_id = u32::try_from(child_id).ok()?;
    let schema = size(schema);
    (schema != 0).then_some(Some(Chapter { child_id, schema }))
}

#[cfg(test)]
mod tests {
    use super::*;
    use crate::tests::{S, T};
    use crate::{ErrorKind, Input};

    fn missing(input: Input) -> Error {
        Error {
            kind: ErrorKind::Missing,
            offset: 0,
            input,
        }
    }

    #[test]
    fn a_file_says_its_schemas_and_columns() {
        let (schemas, columns) = (2, 3);
        assert_eq!(read_schema(&T), Ok(Counts { schemas, columns }));
        assert_eq!(schema_columns(&T, 0), Ok(2));
        assert_eq!(schema_columns(&T, 1), Ok(1));
        let number = missing(Input::SchemaNumber);
        assert_eq!(schema_columns(&T, 2), Err(number));
        assert_eq!(schema_columns(&T, usize::MAX), Err(number));
        assert_eq!(schema_of_child(&T, 7), Ok(1));
        assert_eq!(schema_of_child(&T, 8), Err(missing(Input::ChildId)));
    }

    #[test]
    fn a_column_says_its_kind() {
        let text = Column {
            code: 0x82,
            nullable: true,
            maximum: Some(10),
            chapter: None,
        };
        assert_eq!(schema_column(&S, 0, 1), Ok(text));
        let chapter = Column {
            code: 0x88,
            nullable: false,
            maximum: None,
            chapter: Some(Chapter {
                child_id: 7,
                schema: 1,
            }),
        };
        assert_eq!(schema_column(&T, 0, 1), Ok(chapter));
        assert_eq!(schema_column(&T, 0, 2), Err(missing(Input::Column)));
    }

    #[test]
    fn the_numbers_of_a_file_write_it_again() {
        let mut table = [99; 10];
        assert_eq!(schema_numbers(&T, &mut table), Ok(9));
        assert_eq!(table, [2, 3, 0, 0x88, 0, 7, 1, 0x11, 0, 99]);
        let mut output = [0; 10];
        assert_eq!(write_schema(&table[..9], &mut output), Ok(10));
        assert_eq!(output, T);
    }

    #[test]
    fn a_chapter_has_a_schema_or_zeros() {
        assert_eq!(chapter(0, 0), Some(None));
        assert_eq!(chapter(7, 0), None);
        assert_eq!(chapter(1 << 32, 1), None);
        assert_eq!(flag(2), None);
    }
}
