//! What the trials of rows are about: a schema, and row data under it, sound or damaged.

use std::ops::Range;

use super::{damage, number_past, schema};
use crate::archive::{self, Reply};
use crate::generate;
use crate::random::Random;
use crate::reading::column::{Column, Kind};
use crate::reading::encode::{write_original, write_update, Entry};
use crate::reading::row::{look_up, row_end, Answer};
use crate::reading::schema::SchemaFile;
use crate::reading::update::{look_update, update_end, Change};
use crate::reading::Error;

/// The two kinds of row data.
#[derive(Clone, Copy, Debug, PartialEq, Eq)]
pub(super) enum Form {
    Original,
    Update,
}

/// The reading's call for the end of row data, and its writer.
type End = fn(&[u8], usize, &[u8], usize) -> Result<usize, Error>;
type Writer = fn(&[u8], usize, &[Entry], &[u8], &mut [u8], usize) -> Result<usize, Error>;

/// The same of the archive.
type ArchiveEnd = fn(&[u8], usize, &[u8], usize) -> Reply<usize>;
type ArchiveWriter = fn(&[u8], usize, &[u32], &[u8], usize, &mut [u8]) -> Reply<usize>;

impl Form {
    pub(super) fn end(self) -> End {
        match self {
            Form::Original => row_end,
            Form::Update => update_end,
        }
    }

    pub(super) fn archive_end(self) -> ArchiveEnd {
        match self {
            Form::Original => archive::row_end,
            Form::Update => archive::update_end,
        }
    }

    pub(super) fn writer(self) -> Writer {
        match self {
            Form::Original => write_original,
            Form::Update => write_update,
        }
    }

    pub(super) fn archive_writer(self) -> ArchiveWriter {
        match self {
            Form::Original => archive::write_original,
            Form::Update => archive::write_update,
        }
    }

    /// Sound entries for these columns, with their values.
    pub(super) fn entries(self, random: &mut Random, columns: &[Column]) -> (Vec<Entry>, Vec<u8>) {
        match self {
            Form::Original => generate::original_entries(random, columns),
            Form::Update => generate::update_entries(random, columns),
        }
    }

    /// What the archive finds in the first columns of data, as entries that lie in the data;
    /// `None` if it refuses one of them.
    pub(super) fn archive_entries(
        self,
        file: &[u8],
        number: usize,
        data: &[u8],
        columns: usize,
    ) -> Option<Vec<Entry>> {
        let entry = |column| match self {
            Form::Original => match archive::look_up(file, number, data, column).ok()? {
                Answer::Field { place, .. } => Some(value(place)),
                Answer::Null | Answer::Chapter => Some(Entry::Null),
            },
            Form::Update => match archive::look_update(file, number, data, column).ok()? {
                Change::Field { place, .. } => Some(value(place)),
                Change::Null => Some(Entry::Null),
                Change::Chapter | Change::Unchanged => Some(Entry::Unchanged),
            },
        };
        (0..columns).map(entry).collect()
    }

    /// How many maps data of this form have, and how many bits each.
    fn maps(self, columns: &[Column]) -> (usize, usize) {
        match self {
            Form::Original => (1, columns.iter().filter(|column| column.nullable).count()),
            Form::Update => (2, columns.len()),
        }
    }

    /// The bytes of data of this form that hold reserved bits, and which bits these are.
    pub(super) fn reserved_bits(self, columns: &[Column]) -> Vec<(usize, u8)> {
        let (maps, bits) = self.maps(columns);
        if bits.is_multiple_of(8) {
            return Vec::new();
        }
        let last_byte = |map: usize| map * bits.div_ceil(8) - 1;
        (1..=maps)
            .map(|map| (last_byte(map), 0xFF >> (bits % 8)))
            .collect()
    }

    /// The bits that chapters have in a map.
    fn chapter_bits(self, columns: &[Column]) -> Vec<usize> {
        let has_bit = |column: &&Column| self == Form::Update || column.nullable;
        columns
            .iter()
            .filter(has_bit)
            .enumerate()
            .filter(|(_, column)| column.is_chapter())
            .map(|(bit, _)| bit)
            .collect()
    }
}

/// The entry of a value that lies here.
fn value(place: Range<usize>) -> Entry {
    Entry::Value {
        start: place.start,
        end: place.end,
    }
}

/// A schema of a sound file, and what the calls are asked with: that file and that schema's
/// number, or at times a file that may be refused, or a number that the file lacks.
pub(super) struct Subject {
    sound: Vec<u8>,
    index: usize,
    pub(super) columns: Vec<Column>,
    pub(super) file: Vec<u8>,
    pub(super) number: usize,
}

impl Subject {
    pub(super) fn any(random: &mut Random) -> Subject {
        let (sound, schemas) = generate::schema_file(random);
        let index = random.below(schemas.schema_count());
        let mut subject = Subject::of(sound, &schemas, index);
        match random.below(32) {
            0 | 1 => subject.file = schema::input(random),
            2 => damage(random, &mut subject.file),
            3 => subject.number = number_past(random, index, schemas.schema_count()),
            _ => {}
        }
        if random.one_in(32) {
            subject.number = random.below(schemas.schema_count() + 2);
        }
        subject
    }

    /// The schema of this number in a sound file.
    pub(super) fn of(sound: Vec<u8>, schemas: &SchemaFile, index: usize) -> Subject {
        Subject {
            columns: schemas.columns_at(index).to_vec(),
            file: sound.clone(),
            sound,
            index,
            number: index,
        }
    }

    /// Data of this form that keep the rules.
    pub(super) fn sound_data(&self, random: &mut Random, form: Form) -> Vec<u8> {
        let (entries, values) = form.entries(random, &self.columns);
        match form {
            Form::Original => generate::original_row(&self.sound, self.index, &entries, &values),
            Form::Update => generate::update_row(&self.sound, self.index, &entries, &values),
        }
    }

    /// Data of this form, sound or damaged, or any bytes.
    pub(super) fn data(&self, random: &mut Random, form: Form) -> Vec<u8> {
        match random.below(32) {
            0 | 1 => {
                let length = random.below(60);
                return random.bytes(length);
            }
            2 | 3 => return self.likely_data(random, form),
            _ => {}
        }
        let mut bytes = self.sound_data(random, form);
        if random.one_in(4) {
            for (at, bits) in form.reserved_bits(&self.columns) {
                bytes[at] |= random.byte() & bits;
            }
        }
        if random.one_in(12) {
            self.turn_map_bit(random, form, &mut bytes);
        }
        if random.one_in(24) {
            self.set_chapter_bits(random, form, &mut bytes);
        }
        if random.one_in(8) {
            self.change_length(random, form, &mut bytes);
        }
        if random.one_in(3) {
            damage(random, &mut bytes);
        }
        if random.one_in(4) {
            self.end_where_refused(random, form, &mut bytes);
        }
        bytes
    }

    /// Maps of any bits, then bytes that are often lengths.
    fn likely_data(&self, random: &mut Random, form: Form) -> Vec<u8> {
        let (maps, bits) = form.maps(&self.columns);
        let mut bytes = random.bytes(maps * bits.div_ceil(8));
        let length = random.below(80);
        bytes.extend((0..length).map(|_| random.pick(&[0, 0, 0, 1, 2, 3, 4])));
        bytes
    }

    /// Turns one bit of the maps, so that fields lie elsewhere or a rule is broken.
    fn turn_map_bit(&self, random: &mut Random, form: Form, bytes: &mut [u8]) {
        let (maps, bits) = form.maps(&self.columns);
        if bits > 0 {
            let map = random.below(maps);
            let bit = random.below(bits);
            bytes[map * bits.div_ceil(8) + bit / 8] ^= 0x80 >> (bit % 8);
        }
    }

    /// Sets bits of some chapters in any of the maps.
    fn set_chapter_bits(&self, random: &mut Random, form: Form, bytes: &mut [u8]) {
        let (maps, bits) = form.maps(&self.columns);
        let chapters = form.chapter_bits(&self.columns);
        if chapters.is_empty() {
            return;
        }
        for _ in 0..random.between(1, 3) {
            let map = random.below(maps);
            let bit = random.pick(&chapters);
            bytes[map * bits.div_ceil(8) + bit / 8] |= 0x80 >> (bit % 8);
        }
    }

    /// Gives one field another length, mostly one at a limit.
    fn change_length(&self, random: &mut Random, form: Form, bytes: &mut Vec<u8>) {
        let is_variable = |index: &usize| self.columns[*index].kind == Kind::Variable;
        let variable: Vec<usize> = (0..self.columns.len()).filter(is_variable).collect();
        if variable.is_empty() {
            return;
        }
        let index = random.pick(&variable);
        let Some(place) = self.field(form, bytes, index) else {
            return;
        };
        let length = place.len() as u32;
        let maximum = u32::from(self.columns[index].maximum);
        let changed = random.pick(&[
            length + 1,
            length + 2,
            length.wrapping_sub(1),
            maximum,
            maximum + 1,
            2 * maximum,
            2 * maximum + 1,
            2 * maximum + 2,
            0xFF,
            0x100,
            // Lengths that are the old one if high bits are lost.
            length + (1 << 8),
            length + (1 << 16),
            length + (1 << 31),
        ]);
        let size = self.columns[index].prefix_size();
        bytes[place.start - size..place.start].copy_from_slice(&changed.to_le_bytes()[..size]);
        if random.one_in(2) {
            // Bytes behind, so that a longer field is not always a missing byte.
            let more = random.below(70_000).min(changed as usize);
            bytes.extend(random.bytes(more));
        }
    }

    /// Where the field of a column lies in data, if there is one.
    fn field(&self, form: Form, bytes: &[u8], column: usize) -> Option<Range<usize>> {
        match form {
            Form::Original => match look_up(&self.sound, self.index, bytes, column) {
                Ok(Answer::Field { place, .. }) => Some(place),
                _ => None,
            },
            Form::Update => match look_update(&self.sound, self.index, bytes, column) {
                Ok(Change::Field { place, .. }) => Some(place),
                _ => None,
            },
        }
    }

    /// Ends data where they are refused, or a little further, so that two errors meet.
    fn end_where_refused(&self, random: &mut Random, form: Form, bytes: &mut Vec<u8>) {
        let end = form.end();
        if let Err(error) = end(&self.sound, self.index, bytes, 0) {
            bytes.truncate(error.offset + random.below(6));
        }
    }
}

#[cfg(test)]
mod tests {
    use super::*;
    use crate::reading::Input;

    /// Eight nullable bytes, and a nullable chapter with a byte that is not nullable.
    fn columns(index: usize) -> Vec<Column> {
        let mut bytes = vec![9];
        bytes.extend([0x11, 1].repeat(8));
        bytes.extend([0x88, 1, 1, 7, 1, 0x11, 0]);
        let file = SchemaFile::read(&bytes, Input::Only).unwrap();
        file.columns_at(index).to_vec()
    }

    #[test]
    fn reserved_bits_follow_the_last_bit_of_each_map() {
        let nine = columns(0);
        assert_eq!(Form::Original.reserved_bits(&nine), [(1, 0x7F)]);
        let of_update = Form::Update.reserved_bits(&nine);
        assert_eq!(of_update, [(1, 0x7F), (3, 0x7F)]);
        assert_eq!(Form::Original.reserved_bits(&nine[..8]), []);
        assert_eq!(Form::Update.reserved_bits(&nine[..8]), []);
        let one = columns(1);
        assert_eq!(Form::Original.reserved_bits(&one), []);
        assert_eq!(Form::Update.reserved_bits(&one), [(0, 0x7F), (1, 0x7F)]);
    }

    #[test]
    fn chapters_have_the_bits_of_their_columns() {
        let mut nine = columns(0);
        assert_eq!(Form::Original.chapter_bits(&nine), [8]);
        assert_eq!(Form::Update.chapter_bits(&nine), [8]);
        nine[2].nullable = false;
        assert_eq!(Form::Original.chapter_bits(&nine), [7]);
        nine[8].nullable = false;
        assert_eq!(Form::Original.chapter_bits(&nine), []);
        assert_eq!(Form::Update.chapter_bits(&nine), [8]);
    }
}
