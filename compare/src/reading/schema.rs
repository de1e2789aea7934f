//! The schema file (the column sheet of the rules): seven-bit numbers that describe the
//! columns of a top schema and of those nested in it.

use super::column::{kind_of, Column, Kind};
use super::{check_size, Error, ErrorCode, Input, MAX_INPUT};

/// Columns of one schema, columns of a whole file, and how deep schemas nest.
pub const MAX_COLUMNS: usize = 64;
pub const MAX_FILE_COLUMNS: usize = 256;
const MAX_DEPTH: usize = 4;

const MAX_FLAGS: u32 = 1;
const MAX_MAXIMUM: u32 = 32_767;
/// The largest number that three groups of seven bits can say.
const MAX_NUMBER: u32 = (1 << 21) - 1;
/// Numbers in a list that is just within the size limit, at four bytes each.
const MAX_NUMBERS: usize = MAX_INPUT / 4;

/// A schema file taken apart. The columns of each schema lie together; schemas stand in the
/// order of their starts.
#[derive(Clone, Debug)]
pub struct SchemaFile {
    columns: Vec<Column>,
    schemas: Vec<Schema>,
}

/// Where the columns of one schema lie, its child id, and the slot of the chapter column that
/// it is nested in. The top schema has neither id nor chapter, and its numbers there mean
/// nothing.
#[derive(Clone, Copy, Debug)]
struct Schema {
    first: usize,
    count: usize,
    id: u32,
    chapter: usize,
}

/// How much a schema file holds.
#[derive(Clone, Copy, Debug, PartialEq, Eq)]
pub struct Counts {
    pub schemas: usize,
    pub columns: usize,
}

/// What a file says about one of its columns.
#[derive(Clone, Copy, Debug, PartialEq, Eq)]
pub struct Description {
    pub code: u8,
    pub flags: u8,
    /// 0 where the type has none.
    pub maximum: u16,
    /// The child id of a chapter and the number of the schema nested in it; 0 for any other
    /// column.
    pub child_id: u32,
    pub nested: usize,
}

/// The counts of a schema file that is the whole of `bytes`.
pub fn read_schema(bytes: &[u8]) -> Result<Counts, Error> {
    check_size(bytes, Input::Only)?;
    let file = SchemaFile::read(bytes, Input::Only)?;
    Ok(Counts {
        schemas: file.schemas.len(),
        columns: file.columns.len(),
    })
}

/// How many columns the schema with this number has.
pub fn schema_columns(bytes: &[u8], number: usize) -> Result<usize, Error> {
    check_size(bytes, Input::Schema)?;
    let file = SchemaFile::read(bytes, Input::Schema)?;
    let index = file.index_of_number(number)?;
    Ok(file.schemas[index].count)
}

/// What the file says about a column of the schema with this number.
pub fn schema_column(bytes: &[u8], number: usize, column: usize) -> Result<Description, Error> {
    check_size(bytes, Input::Schema)?;
    let file = SchemaFile::read(bytes, Input::Schema)?;
    let index = file.index_of_number(number)?;
    let Schema { first, count, .. } = file.schemas[index];
    if column >= count {
        return Err(Error::new(ErrorCode::NoSuch, 0, Input::Column));
    }
    Ok(file.describe(first + column))
}

/// The number of the schema with this child id.
pub fn schema_of_child(bytes: &[u8], id: u32) -> Result<usize, Error> {
    check_size(bytes, Input::Schema)?;
    let file = SchemaFile::read(bytes, Input::Schema)?;
    file.index_of_id(id)
        .ok_or(Error::new(ErrorCode::NoSuch, 0, Input::ChildId))
}

/// Puts the numbers of a schema file at the start of `table` and answers how many they are.
pub fn schema_numbers(bytes: &[u8], table: &mut [u32]) -> Result<usize, Error> {
    check_size(bytes, Input::Schema)?;
    SchemaFile::read(bytes, Input::Schema)?;
    let mut source = ByteNumbers {
        bytes,
        at: 0,
        input: Input::Schema,
    };
    let mut numbers = Vec::new();
    while !source.is_at_end() {
        numbers.push(source.number()?);
    }
    let count = numbers.len();
    let start =
        table
            .get_mut(..count)
            .ok_or(Error::new(ErrorCode::Capacity, count, Input::Table))?;
    start.copy_from_slice(&numbers);
    Ok(count)
}

/// Writes the schema file that is made of these numbers at the start of `output` and answers
/// its size.
pub fn write_schema(numbers: &[u32], output: &mut [u8]) -> Result<usize, Error> {
    if numbers.len() > MAX_NUMBERS {
        return Err(Error::new(ErrorCode::Oversize, 0, Input::Numbers));
    }
    let mut source = NumberList {
        numbers,
        taken: 0,
        at: 0,
    };
    SchemaFile::take(&mut source)?;
    let piece = output.get_mut(..source.at).ok_or(Error::new(
        ErrorCode::Capacity,
        source.at,
        Input::Output,
    ))?;
    let mut at = 0;
    for number in numbers {
        at += put_number(*number, &mut piece[at..]);
    }
    Ok(at)
}

impl SchemaFile {
    /// Reads the file that is the whole of `bytes`, whose size is checked already.
    pub fn read(bytes: &[u8], input: Input) -> Result<SchemaFile, Error> {
        SchemaFile::take(&mut ByteNumbers {
            bytes,
            at: 0,
            input,
        })
    }

    /// How many schemas the file holds.
    pub fn schema_count(&self) -> usize {
        self.schemas.len()
    }

    /// The columns of the schema with this number, or error 18.
    pub fn columns(&self, number: usize) -> Result<&[Column], Error> {
        let index = self.index_of_number(number)?;
        Ok(self.columns_at(index))
    }

    /// The index of the schema with this number, which is the number itself, or error 18.
    fn index_of_number(&self, number: usize) -> Result<usize, Error> {
        if number >= self.schemas.len() {
            return Err(Error::new(ErrorCode::NoSuch, 0, Input::SchemaNumber));
        }
        Ok(number)
    }

    /// The columns of the schema at this index, which must be under the count.
    pub fn columns_at(&self, index: usize) -> &[Column] {
        let Schema { first, count, .. } = self.schemas[index];
        &self.columns[first..first + count]
    }

    /// The child id of the schema at this index; the top schema has none.
    pub fn id_at(&self, index: usize) -> Option<u32> {
        (index > 0).then(|| self.schemas[index].id)
    }

    /// The index of the nested schema with this child id.
    pub fn index_of_id(&self, id: u32) -> Option<usize> {
        let nested = self.schemas.get(1..)?;
        Some(1 + nested.iter().position(|schema| schema.id == id)?)
    }

    /// What the file says about the column in this slot.
    fn describe(&self, slot: usize) -> Description {
        let column = &self.columns[slot];
        let nested = (1..self.schemas.len()).find(|index| self.schemas[*index].chapter == slot);
        Description {
            code: column.code,
            flags: u8::from(column.nullable),
            maximum: column.maximum,
            child_id: nested.map_or(0, |index| self.schemas[index].id),
            nested: nested.unwrap_or(0),
        }
    }

    /// Takes a whole file from the source and checks that nothing follows it.
    fn take(source: &mut impl Source) -> Result<SchemaFile, Error> {
        let mut file = SchemaFile {
            columns: Vec::with_capacity(MAX_COLUMNS),
            schemas: Vec::new(),
        };
        file.take_schema(source, 1, 0, 0)?;
        if !source.is_at_end() {
            return Err(source.error(ErrorCode::Trailing, source.at()));
        }
        Ok(file)
    }

    /// Takes one schema, of this child id and nested in this slot: its count, then its columns.
    fn take_schema(
        &mut self,
        source: &mut impl Source,
        depth: usize,
        id: u32,
        chapter: usize,
    ) -> Result<(), Error> {
        let at = source.at();
        if depth > MAX_DEPTH {
            return Err(source.error(ErrorCode::SchemaLimit, at));
        }
        let count = source.number()? as usize;
        if !(1..=MAX_COLUMNS).contains(&count) {
            return Err(source.error(ErrorCode::NumberRange, at));
        }
        let first = self.columns.len();
        if first + count > MAX_FILE_COLUMNS {
            return Err(source.error(ErrorCode::SchemaLimit, at));
        }
        self.columns.resize(first + count, Column::NONE);
        self.schemas.push(Schema {
            first,
            count,
            id,
            chapter,
        });
        for slot in first..first + count {
            self.take_column(source, depth, slot)?;
        }
        Ok(())
    }

    /// Takes one column into its slot, and the schema nested in it if it is a chapter.
    fn take_column(
        &mut self,
        source: &mut impl Source,
        depth: usize,
        slot: usize,
    ) -> Result<(), Error> {
        let at = source.at();
        let code = source.number()?;
        let Some(kind) = kind_of(code) else {
            return Err(source.error(ErrorCode::NumberRange, at));
        };
        let flags = number_within(source, 0, MAX_FLAGS)?;
        let maximum = match kind {
            Kind::Variable => number_within(source, 1, MAX_MAXIMUM)?,
            Kind::Fixed(_) | Kind::Chapter => 0,
        };
        // A known code fits a byte, a maximum two.
        self.columns[slot] = Column {
            code: code as u8,
            kind,
            nullable: flags == 1,
            maximum: maximum as u16,
        };
        if kind == Kind::Chapter {
            let at = source.at();
            let id = source.number()?;
            if self.index_of_id(id).is_some() {
                return Err(source.error(ErrorCode::RepeatedId, at));
            }
            self.take_schema(source, depth + 1, id, slot)?;
        }
        Ok(())
    }
}

/// The next number, or error 6 if it is out of range.
fn number_within(source: &mut impl Source, low: u32, high: u32) -> Result<u32, Error> {
    let at = source.at();
    let number = source.number()?;
    if !(low..=high).contains(&number) {
        return Err(source.error(ErrorCode::NumberRange, at));
    }
    Ok(number)
}

/// Where a schema's numbers come from: a file's bytes, or a list still to be written.
trait Source {
    /// The byte at which the next number stands, or would stand.
    fn at(&self) -> usize;

    /// The next number.
    fn number(&mut self) -> Result<u32, Error>;

    /// True if no number is left.
    fn is_at_end(&self) -> bool;

    /// An error about this source.
    fn error(&self, code: ErrorCode, offset: usize) -> Error;
}

/// Numbers in the bytes of a file.
struct ByteNumbers<'a> {
    bytes: &'a [u8],
    at: usize,
    input: Input,
}

impl ByteNumbers<'_> {
    /// The next group: its seven bits, and whether another one follows.
    fn group(&mut self) -> Result<(u32, bool), Error> {
        let byte = *self
            .bytes
            .get(self.at)
            .ok_or(Error::truncated(self.bytes, self.input))?;
        self.at += 1;
        Ok((u32::from(byte & 0x7F), byte & 0x80 != 0))
    }
}

impl Source for ByteNumbers<'_> {
    fn at(&self) -> usize {
        self.at
    }

    fn number(&mut self) -> Result<u32, Error> {
        let start = self.at;
        let (mut number, mut more) = self.group()?;
        let mut shift = 7;
        while more {
            let (bits, follows) = self.group()?;
            let is_third = shift == 14;
            // A last group of 0 could be left out; a fourth group is one too many.
            if (!follows && bits == 0) || (follows && is_third) {
                return Err(self.error(ErrorCode::NumberForm, start));
            }
            number |= bits << shift;
            more = follows;
            shift += 7;
        }
        Ok(number)
    }

    fn is_at_end(&self) -> bool {
        self.at == self.bytes.len()
    }

    fn error(&self, code: ErrorCode, offset: usize) -> Error {
        Error::new(code, offset, self.input)
    }
}

/// Numbers in a list, with the place that each would have in the file.
struct NumberList<'a> {
    numbers: &'a [u32],
    taken: usize,
    at: usize,
}

impl Source for NumberList<'_> {
    fn at(&self) -> usize {
        self.at
    }

    fn number(&mut self) -> Result<u32, Error> {
        let number = *self
            .numbers
            .get(self.taken)
            .ok_or(self.error(ErrorCode::Truncated, self.at))?;
        if number > MAX_NUMBER {
            return Err(self.error(ErrorCode::NumberRange, self.at));
        }
        self.taken += 1;
        self.at += number_size(number);
        Ok(number)
    }

    fn is_at_end(&self) -> bool {
        self.taken == self.numbers.len()
    }

    fn error(&self, code: ErrorCode, offset: usize) -> Error {
        Error::new(code, offset, Input::Numbers)
    }
}

/// The groups that a number of at most three takes.
fn number_size(number: u32) -> usize {
    match number {
        0..=0x7F => 1,
        0x80..=0x3FFF => 2,
        _ => 3,
    }
}

/// Writes a number at the start of `output`, low group first, and answers its groups.
fn put_number(number: u32, output: &mut [u8]) -> usize {
    let size = number_size(number);
    let mut rest = number;
    for (index, byte) in output[..size].iter_mut().enumerate() {
        let more = if index + 1 < size { 0x80 } else { 0 };
        *byte = (rest & 0x7F) as u8 | more;
        rest >>= 7;
    }
    size
}

#[cfg(test)]
mod tests {
    use super::*;

    fn error(code: ErrorCode, offset: usize) -> Result<Counts, Error> {
        Err(Error::new(code, offset, Input::Only))
    }

    #[test]
    fn the_examples_of_the_rules() {
        let s = [0x03, 0x03, 0x00, 0x82, 0x01, 0x01, 0x0A, 0x11, 0x01];
        let counts = Counts {
            schemas: 1,
            columns: 3,
        };
        assert_eq!(read_schema(&s), Ok(counts));
        assert_eq!(read_schema(&[0x83, 0x00]), error(ErrorCode::NumberForm, 0));
        assert_eq!(read_schema(&[0x00]), error(ErrorCode::NumberRange, 0));
    }

    #[test]
    fn forms_of_a_number() {
        for cut in [&[][..], &[0x80], &[0x80, 0x80], &[0xFF, 0xFF]] {
            assert_eq!(read_schema(cut), error(ErrorCode::Truncated, cut.len()));
        }
        for long in [
            &[0x80, 0x00][..],
            &[0x80, 0x80, 0x00],
            &[0x80, 0x80, 0x80],
            &[0x81, 0x80, 0x80, 0x01],
        ] {
            assert_eq!(read_schema(long), error(ErrorCode::NumberForm, 0));
        }
    }

    #[test]
    fn depth_is_looked_at_before_the_count() {
        let mut bytes = Vec::new();
        for id in 1..=4 {
            bytes.extend([0x01, 0x88, 0x01, 0x00, id]);
        }
        assert_eq!(read_schema(&bytes), error(ErrorCode::SchemaLimit, 20));
        bytes.extend([0x83, 0x00]);
        assert_eq!(read_schema(&bytes), error(ErrorCode::SchemaLimit, 20));
        bytes[19] = 1;
        assert_eq!(read_schema(&bytes), error(ErrorCode::RepeatedId, 19));
    }

    #[test]
    fn columns_are_described() {
        // The schema T of the rules, then a wide text after its chapter.
        let bytes = [
            0x03, 0x03, 0x00, 0x88, 0x01, 0x01, 0x07, 0x01, 0x11, 0x00, 0x82, 0x01, 0x00, 0x0A,
        ];
        let described = |number, column| {
            let of_column = schema_column(&bytes, number, column).unwrap();
            let Description {
                code,
                flags,
                maximum,
                child_id,
                nested,
            } = of_column;
            (code, flags, maximum, child_id, nested)
        };
        assert_eq!(described(0, 0), (0x03, 0, 0, 0, 0));
        assert_eq!(described(0, 1), (0x88, 1, 0, 7, 1));
        assert_eq!(described(0, 2), (0x82, 0, 10, 0, 0));
        assert_eq!(described(1, 0), (0x11, 0, 0, 0, 0));
        assert_eq!(schema_columns(&bytes, 0), Ok(3));
        assert_eq!(schema_columns(&bytes, 1), Ok(1));
        assert_eq!(schema_of_child(&bytes, 7), Ok(1));
    }

    #[test]
    fn the_file_is_looked_at_before_numbers_and_ids() {
        let sound = [0x01, 0x11, 0x00];
        let none = |input| Error::new(ErrorCode::NoSuch, 0, input);
        let number = none(Input::SchemaNumber);
        assert_eq!(schema_columns(&sound, 1 << 32), Err(number));
        assert_eq!(schema_column(&sound, 1, 9), Err(number));
        assert_eq!(schema_column(&sound, 0, 1), Err(none(Input::Column)));
        // The top schema has no id, not even 0.
        assert_eq!(schema_of_child(&sound, 0), Err(none(Input::ChildId)));
        let bad = Error::new(ErrorCode::NumberForm, 0, Input::Schema);
        assert_eq!(schema_columns(&[0x83, 0x00], 9), Err(bad));
        assert_eq!(schema_column(&[0x83, 0x00], 9, 9), Err(bad));
        assert_eq!(schema_of_child(&[0x83, 0x00], 9), Err(bad));
    }

    #[test]
    fn numbers_are_handed_out_if_all_fit() {
        let bytes = [0x01, 0x82, 0x01, 0x01, 0x0A];
        let mut table = [7; 5];
        assert_eq!(schema_numbers(&bytes, &mut table), Ok(4));
        assert_eq!(table, [1, 0x82, 1, 10, 7]);
        let mut table = [7; 3];
        let capacity = Error::new(ErrorCode::Capacity, 4, Input::Table);
        assert_eq!(schema_numbers(&bytes, &mut table), Err(capacity));
        assert_eq!(table, [7; 3]);
        let bad = Error::new(ErrorCode::NumberRange, 0, Input::Schema);
        assert_eq!(schema_numbers(&[0x00], &mut []), Err(bad));
    }

    #[test]
    fn a_list_is_refused_where_its_bytes_would_be() {
        let refused = |numbers: &[u32]| match write_schema(numbers, &mut []) {
            Err(error) => (error.code, error.offset, error.input),
            Ok(size) => panic!("{size} bytes written"),
        };
        let after_end = refused(&[1, 3, 0, 2_097_152]);
        assert_eq!(after_end, (ErrorCode::Trailing, 3, Input::Numbers));
        let large_id = refused(&[1, 0x88, 0, 2_097_152]);
        assert_eq!(large_id, (ErrorCode::NumberRange, 4, Input::Numbers));
        let ends_early = refused(&[1, 0x88, 0]);
        assert_eq!(ends_early, (ErrorCode::Truncated, 4, Input::Numbers));
        let no_output = refused(&[1, 3, 0]);
        assert_eq!(no_output, (ErrorCode::Capacity, 3, Input::Output));
        let too_many = refused(&vec![1; MAX_NUMBERS + 1]);
        assert_eq!(too_many, (ErrorCode::Oversize, 0, Input::Numbers));
    }
}
