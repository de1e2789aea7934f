//! Update row data: the update map, the force-null map and the fields that change; look-ups
//! in them, and the current value of a changed row.

use std::ops::Range;

use super::column::Column;
use super::row::{bits_at, check_column, first_byte, look_up_in, top_bit, top_bits, Answer, Walk};
use super::schema::SchemaFile;
use super::{check_size, Error, ErrorCode, Input};

/// What update data say about one column.
#[derive(Clone, Debug, PartialEq, Eq)]
pub enum Change {
    /// A new field: its place in the update data, and the prefixes read up to it.
    Field {
        place: Range<usize>,
        prefixes: usize,
    },
    /// Null by force.
    Null,
    Chapter,
    Unchanged,
}

/// The value that a column of a changed row has now.
#[derive(Clone, Debug, PartialEq, Eq)]
pub enum Current {
    /// The update carries a field: its place there, and the prefixes read up to it.
    Updated {
        place: Range<usize>,
        prefixes: usize,
    },
    /// The update forces null.
    Forced,
    /// The update leaves the column alone; the original row says this.
    Original(Answer),
}

/// What update data say about one column, all of them checked.
pub fn look_update(
    schema: &[u8],
    number: usize,
    update: &[u8],
    column: usize,
) -> Result<Change, Error> {
    check_size(schema, Input::Schema)?;
    check_size(update, Input::Update)?;
    let file = SchemaFile::read(schema, Input::Schema)?;
    let columns = file.columns(number)?;
    check_column(columns, column)?;
    look_update_in(columns, update, column)
}

/// Where the update data that start at `at` of `update` end, all of them checked.
pub fn update_end(schema: &[u8], number: usize, update: &[u8], at: usize) -> Result<usize, Error> {
    check_size(schema, Input::Schema)?;
    check_size(update, Input::Update)?;
    let file = SchemaFile::read(schema, Input::Schema)?;
    let columns = file.columns(number)?;
    update_end_in(columns, &UpdateMaps::of(columns), update, at, Input::Update)
}

/// The current value of one column of a changed row.
pub fn current(
    schema: &[u8],
    number: usize,
    row: &[u8],
    update: &[u8],
    column: usize,
) -> Result<Current, Error> {
    check_size(schema, Input::Schema)?;
    check_size(update, Input::Update)?;
    check_size(row, Input::Row)?;
    let file = SchemaFile::read(schema, Input::Schema)?;
    let columns = file.columns(number)?;
    check_column(columns, column)?;
    match look_update_in(columns, update, column)? {
        Change::Field { place, prefixes } => Ok(Current::Updated { place, prefixes }),
        Change::Null => Ok(Current::Forced),
        Change::Chapter | Change::Unchanged => {
            look_up_in(columns, row, column).map(Current::Original)
        }
    }
}

/// What the update says about the column at `index`, which must be under the count.
fn look_update_in(columns: &[Column], update: &[u8], index: usize) -> Result<Change, Error> {
    let maps = UpdateMaps::of(columns).read(update, 0, Input::Update)?;
    let mut asked = None;
    walk_update(
        columns,
        &maps,
        update,
        Input::Update,
        |at, place, prefixes| {
            if at == index {
                asked = Some(Change::Field { place, prefixes });
            }
        },
    )?;
    let without_field = if columns[index].is_chapter() {
        Change::Chapter
    } else if maps.force & top_bit(index) != 0 {
        Change::Null
    } else {
        Change::Unchanged
    };
    Ok(asked.unwrap_or(without_field))
}

/// Where the update data that start at `at` of an input end, all of them checked.
pub(super) fn update_end_in(
    columns: &[Column],
    form: &UpdateMaps,
    bytes: &[u8],
    at: usize,
    input: Input,
) -> Result<usize, Error> {
    let maps = form.read(bytes, at, input)?;
    walk_update(columns, &maps, bytes, input, |_, _, _| {})
}

/// Walks the fields that an update carries, shows each one with its column and the prefixes
/// read so far, and answers where the last one ends.
fn walk_update(
    columns: &[Column],
    maps: &Maps,
    bytes: &[u8],
    input: Input,
    mut found: impl FnMut(usize, Range<usize>, usize),
) -> Result<usize, Error> {
    let mut walk = Walk::new(bytes, maps.end, input);
    let mut left = maps.update & !maps.force;
    while left != 0 {
        let index = left.leading_zeros() as usize;
        left &= !top_bit(index);
        let place = walk.pass_field(&columns[index])?;
        found(index, place, walk.prefixes());
    }
    Ok(walk.at())
}

/// The form of a schema's two maps: one bit for each column, top bit first.
#[derive(Clone, Copy, Debug)]
pub(super) struct UpdateMaps {
    columns: usize,
    chapters: u64,
    nullable: u64,
}

/// Two maps that keep the rules, reserved bits cleared, and where the fields begin.
struct Maps {
    update: u64,
    force: u64,
    end: usize,
}

impl UpdateMaps {
    pub(super) fn of(columns: &[Column]) -> UpdateMaps {
        let mut form = UpdateMaps {
            columns: columns.len(),
            chapters: 0,
            nullable: 0,
        };
        for (index, column) in columns.iter().enumerate() {
            if column.is_chapter() {
                form.chapters |= top_bit(index);
            }
            if column.nullable {
                form.nullable |= top_bit(index);
            }
        }
        form
    }

    /// The size of each map in bytes.
    pub(super) fn size(&self) -> usize {
        self.columns.div_ceil(8)
    }

    /// The maps that start at `at`: both whole, then chapter bits, then the force rules.
    fn read(&self, bytes: &[u8], at: usize, input: Input) -> Result<Maps, Error> {
        let size = self.size();
        let update = bits_at(bytes, at, size, input)? & top_bits(self.columns);
        let force = bits_at(bytes, at + size, size, input)? & top_bits(self.columns);
        check_clear(update & self.chapters, ErrorCode::ChapterBit, at, input)?;
        check_clear(
            force & self.chapters,
            ErrorCode::ChapterBit,
            at + size,
            input,
        )?;
        let unruly = force & !(update & self.nullable);
        check_clear(unruly, ErrorCode::ForceRule, at + size, input)?;
        Ok(Maps {
            update,
            force,
            end: at + 2 * size,
        })
    }
}

/// An error at the byte of the first bit set, if there is one, in a map that starts at `at`.
fn check_clear(bits: u64, code: ErrorCode, at: usize, input: Input) -> Result<(), Error> {
    if bits != 0 {
        return Err(Error::new(code, at + first_byte(bits), input));
    }
    Ok(())
}

#[cfg(test)]
mod tests {
    use super::*;

    /// Two nullable bytes, a byte that is not nullable, and a nullable chapter.
    const SCHEMA: [u8; 14] = [4, 0x11, 1, 0x11, 1, 0x11, 0, 0x88, 1, 1, 7, 1, 0x11, 0];

    fn ask(row: &[u8], update: &[u8], column: usize) -> Result<Current, Error> {
        current(&SCHEMA, 0, row, update, column)
    }

    fn wrong(code: ErrorCode, offset: usize, input: Input) -> Result<Current, Error> {
        Err(Error::new(code, offset, input))
    }

    #[test]
    fn maps_are_checked_in_order() {
        let update = Input::Update;
        let short = ask(&[], &[0x10], 0);
        assert_eq!(short, wrong(ErrorCode::Truncated, 1, update));
        let first_map = ask(&[], &[0x10, 0x80], 0);
        assert_eq!(first_map, wrong(ErrorCode::ChapterBit, 0, update));
        let second_map = ask(&[], &[0x00, 0x90], 0);
        assert_eq!(second_map, wrong(ErrorCode::ChapterBit, 1, update));
        for maps in [[0x00, 0x80], [0x20, 0x20]] {
            assert_eq!(ask(&[], &maps, 0), wrong(ErrorCode::ForceRule, 1, update));
        }
        // Reserved bits do not matter.
        let forced = ask(&[], &[0x8F, 0x8F], 0);
        assert_eq!(forced, Ok(Current::Forced));
    }

    #[test]
    fn the_update_is_examined_whole_before_the_row() {
        let later = ask(&[], &[0xA0, 0x00, 0x2A], 0);
        assert_eq!(later, wrong(ErrorCode::Truncated, 3, Input::Update));
        let updated = Current::Updated {
            place: 2..3,
            prefixes: 0,
        };
        assert_eq!(ask(&[], &[0xA0, 0x00, 0x2A, 0x2B], 0), Ok(updated));
        let unchanged = ask(&[], &[0x20, 0x00, 0x2B], 0);
        assert_eq!(unchanged, wrong(ErrorCode::Truncated, 0, Input::Row));
    }

    #[test]
    fn a_chapter_is_what_the_row_says() {
        let update = [0x00, 0x00];
        let bit = ask(&[0x20, 0x2A], &update, 3);
        assert_eq!(bit, wrong(ErrorCode::ChapterBit, 0, Input::Row));
        let chapter = ask(&[0x00], &update, 3);
        assert_eq!(chapter, Ok(Current::Original(Answer::Chapter)));
    }

    #[test]
    fn an_update_says_what_it_does_to_each_column() {
        let update = [0xA0, 0x80, 0x2B, 9];
        let says = |column| look_update(&SCHEMA, 0, &update, column);
        assert_eq!(says(0), Ok(Change::Null));
        assert_eq!(says(1), Ok(Change::Unchanged));
        let field = Change::Field {
            place: 2..3,
            prefixes: 0,
        };
        assert_eq!(says(2), Ok(field));
        assert_eq!(says(3), Ok(Change::Chapter));
        let no_column = Error::new(ErrorCode::NoSuch, 0, Input::Column);
        assert_eq!(says(4), Err(no_column));
        // Fields behind the column asked for are looked at too.
        let cut = Error::new(ErrorCode::Truncated, 2, Input::Update);
        assert_eq!(look_update(&SCHEMA, 0, &update[..2], 0), Err(cut));
    }

    #[test]
    fn prefixes_of_an_update_are_counted_in_it() {
        // Three nullable texts of at most 5.
        let schema = [3, 0x81, 1, 1, 5, 0x81, 1, 1, 5, 0x81, 1, 1, 5];
        let update = [0xA0, 0x00, 1, 0x61, 0];
        let field = |place, prefixes| Ok(Change::Field { place, prefixes });
        assert_eq!(look_update(&schema, 0, &update, 0), field(3..4, 1));
        assert_eq!(look_update(&schema, 0, &update, 2), field(5..5, 2));
        assert_eq!(update_end(&schema, 0, &update, 0), Ok(5));
    }

    #[test]
    fn update_data_end_behind_their_last_field() {
        let update = [9, 0xA0, 0x80, 0x2B, 9];
        assert_eq!(update_end(&SCHEMA, 0, &update, 1), Ok(4));
        // Offsets are those of the whole input.
        let refused = |update: &[u8], at, code, offset| {
            let error = Error::new(code, offset, Input::Update);
            assert_eq!(update_end(&SCHEMA, 0, update, at), Err(error));
        };
        refused(&update[..3], 1, ErrorCode::Truncated, 3);
        refused(&[9, 0x00, 0x10], 1, ErrorCode::ChapterBit, 2);
        refused(&[9, 0x00, 0x80], 1, ErrorCode::ForceRule, 2);
        for at in [4, 5, 6, 1 << 32, usize::MAX] {
            refused(&update, at, ErrorCode::Truncated, 5);
        }
    }
}
