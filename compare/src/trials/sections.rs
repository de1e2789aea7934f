//! Trials of the section reader: a section is checked, and its rows are listed.

use super::row_data::{Form, Subject};
use super::rows::REFUSED;
use super::{complaints, damage, filled_complaints, schema, Call, Run};
use crate::archive::{self, Fault, Reply};
use crate::generate::{self, Section, Shape};
use crate::random::Random;
use crate::reading::column::{BYTES, CHAPTER, TEXT, WIDE_TEXT};
use crate::reading::schema::{SchemaFile, MAX_FILE_COLUMNS};
use crate::reading::section::{
    check_section, list_section, CHILD, CHILD_CHANGE, CHILD_DELETE, END, PARENT, ROW_NUMBERS,
};
use crate::reading::{Error, ErrorCode, Input, MAX_INPUT};
use crate::text::{shown, shown_numbers, Text};

static CHECK: Call = Call {
    name: "check_section",
    codes: &[
        ErrorCode::Truncated,
        ErrorCode::NumberForm,
        ErrorCode::NumberRange,
        ErrorCode::SchemaLimit,
        ErrorCode::RepeatedId,
        ErrorCode::UnknownToken,
        ErrorCode::UnknownChild,
        ErrorCode::Unpaired,
        ErrorCode::ChapterBit,
        ErrorCode::ForceRule,
        ErrorCode::Length,
        ErrorCode::Trailing,
        ErrorCode::Oversize,
    ],
};

static LIST: Call = Call {
    name: "list_section",
    codes: &[
        ErrorCode::Truncated,
        ErrorCode::NumberForm,
        ErrorCode::NumberRange,
        ErrorCode::SchemaLimit,
        ErrorCode::RepeatedId,
        ErrorCode::UnknownToken,
        ErrorCode::UnknownChild,
        ErrorCode::Unpaired,
        ErrorCode::ChapterBit,
        ErrorCode::ForceRule,
        ErrorCode::Length,
        ErrorCode::Trailing,
        ErrorCode::Capacity,
        ErrorCode::Oversize,
    ],
};

/// Bytes that are no token, some of them tokens of elements that sections do not have.
const NO_TOKENS: [u8; 8] = [0x00, 0x0A, 0x0C, 0x0D, 0x80, 0x8D, 0x8F, 0xFF];

/// The longest value that a column can have.
pub(super) const LONGEST: usize = 32_767;

/// How many sections are made under one file.
const SECTIONS: usize = 4;

/// How many spans the archive holds on its way over a batch; long sections have about as many
/// rows, or more.
pub(super) const HELD: usize = 256;

/// Sections over this many bytes have room for the sizes of more elements.
const NOTED: usize = 16_384;

/// About how many sizes can be noted, of a short section and of a long one.
const NOTES: [usize; 2] = [1_024, 65_536];

/// How many parents runs have that take no bytes but their tokens.
const RUNS: [usize; 4] = [1, 2, 1_025, 262_144];

/// Sections under one file, each with a table, and at times with another file.
pub(super) fn read_case(random: &mut Random, run: &mut Run) {
    for (file, section) in sections(random) {
        let space = space(random, &file, &section);
        let before: Vec<u32> = (0..space).map(|_| random.bits() as u32).collect();
        read(&file, &section, &before, run);
    }
}

/// Some sections under one file, each with that file and at times with another.
pub(super) fn sections(random: &mut Random) -> Vec<(Vec<u8>, Vec<u8>)> {
    let sound = sound_file(random);
    let schemas = SchemaFile::read(&sound, Input::Schema).expect("the file is sound");
    let one = |_| {
        let section = match random.below(1_024) {
            0..=3 => long_section(random, &sound, &schemas),
            4 => noted_section(random, &sound, &schemas),
            _ => Maker::new(&sound, &schemas).section(random),
        };
        let mut file = sound.clone();
        match random.below(32) {
            0 => file = schema::input(random),
            1 => file = generate::schema_file(random).0,
            2 => damage(random, &mut file),
            _ => {}
        }
        (file, section)
    };
    (0..SECTIONS).map(one).collect()
}

/// A section of about as many rows as a batch holds spans, at times damaged.
fn long_section(random: &mut Random, sound: &[u8], schemas: &SchemaFile) -> Vec<u8> {
    let mut section = Section::default();
    for _ in 0..random.between(HELD - 2, HELD + 3) {
        let number = random.below(schemas.schema_count());
        section.add_row(random, sound, schemas, number);
    }
    let (mut section, _) = section.end();
    if random.one_in(3) {
        damage(random, &mut section);
    }
    section
}

/// A section of over `NOTED` bytes, with more rows than a batch holds spans, at times damaged.
fn noted_section(random: &mut Random, sound: &[u8], schemas: &SchemaFile) -> Vec<u8> {
    let mut section = Section::default();
    let least = random.between(HELD + 1, 2 * HELD);
    let mut rows = 0;
    while rows < least || section.size() <= NOTED {
        let number = random.below(schemas.schema_count());
        section.add_row(random, sound, schemas, number);
        rows += 1;
    }
    let (mut section, _) = section.end();
    if random.one_in(3) {
        damage(random, &mut section);
    }
    section
}

/// A section under `sizes_file` with elements of the sizes at which notes change their form: one
/// byte under 255, three under 65,536, and none from there on if `longest` allows it.
fn sizes_section(random: &mut Random, longest: usize) -> Vec<u8> {
    let mut bytes = Vec::new();
    let mut field = |bytes: &mut Vec<u8>, head: usize| {
        let size = match random.below(40) {
            0 if longest >= 65_534 => random.between(65_530, 65_539),
            1..=12 => random.between(250, 260),
            _ => random.between(head, 90),
        };
        let length = (size - head).min(65_534) / 2 * 2;
        bytes.extend((length as u32).to_le_bytes());
        bytes.resize(bytes.len() + length, 0x2A);
    };
    let mut rows = 0;
    while rows <= HELD || bytes.len() <= NOTED {
        match rows % 4 {
            0 => {
                bytes.push(PARENT);
                field(&mut bytes, 5);
            }
            kind => {
                bytes.push(CHILD);
                bytes.extend(SIZES_CHILD.to_le_bytes());
                field(&mut bytes, 9);
                if kind > 1 {
                    bytes.push(if kind == 2 {
                        CHILD_CHANGE
                    } else {
                        CHILD_DELETE
                    });
                    bytes.extend(SIZES_CHILD.to_le_bytes());
                }
                if kind == 2 {
                    bytes.extend([0x80, 0x00]);
                    field(&mut bytes, 11);
                }
            }
        }
        rows += 1;
    }
    bytes.push(END);
    bytes
}

/// The id of the child rows in `sizes_section`.
const SIZES_CHILD: u32 = 0x0107;

/// A parent with one wide text and a chapter of rows with one wide text.
fn sizes_file() -> Vec<u8> {
    let [wide, chapter] = [WIDE_TEXT, CHAPTER].map(u32::from);
    let longest = LONGEST as u32;
    generate::groups(&[
        2,
        wide,
        0,
        longest,
        chapter,
        0,
        SIZES_CHILD,
        1,
        wide,
        0,
        longest,
    ])
}

/// Sections with elements of the sizes at the borders of notes, with as many as can be noted, and
/// runs of parents without bytes.
pub(super) fn noted(random: &mut Random, run: &mut Run) {
    let file = sizes_file();
    for round in 0..40 {
        let longest = if round % 4 == 0 { 65_534 } else { 300 };
        let mut section = sizes_section(random, longest);
        if round % 3 == 2 {
            damage(random, &mut section);
        }
        let space = space(random, &file, &section);
        let before: Vec<u32> = (0..space).map(|_| random.bits() as u32).collect();
        read(&file, &section, &before, run);
    }
    let nullable = generate::groups(&[1, TEXT.into(), 1, 1]);
    for rows in NOTES.iter().flat_map(|notes| notes - 6..notes + 4) {
        read_alike(&nullable, &[PARENT, 0], rows, run);
    }
    let chapter = generate::groups(&[1, CHAPTER.into(), 0, 7, 1, TEXT.into(), 0, 1]);
    for rows in RUNS {
        read_alike(&chapter, &[PARENT], rows, run);
    }
}

/// A section of so many rows that are all alike.
fn read_alike(file: &[u8], row: &[u8], rows: usize, run: &mut Run) {
    let mut section = row.repeat(rows);
    section.push(END);
    let before: Vec<u32> = (0..(ROW_NUMBERS * rows + 2) as u32).map(|at| !at).collect();
    read(file, &section, &before, run);
}

/// A file that keeps the rules, at times one with many schemas.
fn sound_file(random: &mut Random) -> Vec<u8> {
    if !random.one_in(8) {
        return generate::schema_file(random).0;
    }
    let schemas = random.between(13, 60);
    let shape = Shape {
        schemas,
        columns: random.between(2 * schemas, MAX_FILE_COLUMNS),
        depth: random.between(2, 4),
        repeats_ids: false,
    };
    generate::groups(&generate::shaped_numbers(random, shape))
}

/// Inputs at the size limit and over it, in both places, and sections that fill the limit.
pub(super) fn oversized(zeros: &[u8], run: &mut Run) {
    let file = generate::groups(&[1, BYTES.into(), 0, LONGEST as u32]);
    let mut full = full_section();
    full.push(END);
    let files = [&file[..], &REFUSED, &zeros[..MAX_INPUT], zeros];
    let inputs = [
        &full[..0],
        &full[MAX_INPUT - 1..MAX_INPUT],
        &full[..MAX_INPUT],
        &full,
        &zeros[..MAX_INPUT],
        zeros,
    ];
    let rows = MAX_INPUT.div_ceil(FULL_ROW);
    for file in files {
        for section in inputs {
            for space in [0, ROW_NUMBERS * rows - 1, ROW_NUMBERS * rows + 1] {
                let before: Vec<u32> = (0..space as u32).map(|at| !at).collect();
                read(file, section, &before, run);
            }
        }
    }
    // Rows of no bytes, as many as there can be, and the same without their end.
    let chapter = generate::groups(&[1, CHAPTER.into(), 0, 7, 1, TEXT.into(), 0, 1]);
    let mut tokens = vec![PARENT; MAX_INPUT];
    read(&chapter, &tokens, &[7; 5], run);
    tokens[MAX_INPUT - 1] = END;
    read(&chapter, &tokens, &[7; 5], run);
}

/// The bytes of a row in a full section: token, prefix and the longest value.
const FULL_ROW: usize = 1 + 4 + LONGEST;

/// A section as long as it may be: the longest rows of one column, then a shorter one.
fn full_section() -> Vec<u8> {
    let mut bytes = long_rows(MAX_INPUT - 1);
    bytes.push(END);
    bytes
}

/// The longest rows of one column, then a shorter one, of so many bytes together.
pub(super) fn long_rows(size: usize) -> Vec<u8> {
    // With room for the end and one byte more.
    let mut bytes = Vec::with_capacity(size + 2);
    while bytes.len() < size {
        let left = size - bytes.len();
        let length = LONGEST.min(left - 5);
        bytes.push(PARENT);
        bytes.extend((length as u32).to_le_bytes());
        bytes.resize(bytes.len() + length, 0x2A);
    }
    bytes
}

/// Checks a section on both sides, and lists its rows in tables that begin as `before`.
fn read(file: &[u8], section: &[u8], before: &[u32], run: &mut Run) {
    let reading = check_section(file, section);
    let checked = archive::check_section(file, section);
    let of_check = complaints(&reading, &checked);
    run.judge(&CHECK, &reading, &of_check, || {
        format!("{} {}", shown(file), shown(section))
    });

    let (mut ours, mut theirs) = (before.to_vec(), before.to_vec());
    let reading = list_section(file, section, &mut ours);
    let listed = archive::list_section(file, section, &mut theirs);
    let mut of_list = complaints(&reading, &listed);
    let filled = reading.as_ref().map(|rows| ROW_NUMBERS * rows);
    let of_tables = filled_complaints(before, &ours, &theirs, 0, &filled, shown_numbers);
    of_list.extend(of_tables);
    if !go_together(&checked, &listed, before.len()) {
        of_list.push(format!("archive, checked: {}", checked.text()));
        of_list.push(format!("archive, listed: {}", listed.text()));
    }
    run.judge(&LIST, &reading, &of_list, || {
        let space = before.len();
        format!("{} {} {space}", shown(file), shown(section))
    });
}

/// True if the archive lists as it checks: the same count or the same error, but for the error of
/// a table of so many numbers that has no room for what is counted.
fn go_together(checked: &Reply<usize>, listed: &Reply<usize>, space: usize) -> bool {
    match checked {
        Ok(rows) if *rows > space / ROW_NUMBERS => {
            let room = Error::new(ErrorCode::Capacity, *rows, Input::Table);
            *listed == Err(Fault::Error(room))
        }
        Err(Fault::Error(error)) if error.code == ErrorCode::Capacity => false,
        _ => listed == checked,
    }
}

/// How many numbers a table has: often around what the section needs, at times anything.
fn space(random: &mut Random, file: &[u8], section: &[u8]) -> usize {
    let rows = match check_section(file, section) {
        Ok(rows) if rows > 0 => rows,
        _ => random.below(3),
    };
    let need = ROW_NUMBERS * rows;
    match random.below(12) {
        0 => 0,
        1 => random.below(need + 1),
        2 => need.saturating_sub(1),
        3 => need.saturating_sub(ROW_NUMBERS),
        4..=6 => need,
        _ => need + random.below(3 * ROW_NUMBERS),
    }
}

/// A section in the making, under the schemas of a sound file.
struct Maker<'a> {
    sound: &'a [u8],
    schemas: &'a SchemaFile,
    bytes: Vec<u8>,
    /// The schema of the last row that is a child.
    last_child: Option<usize>,
}

impl<'a> Maker<'a> {
    fn new(sound: &'a [u8], schemas: &'a SchemaFile) -> Maker<'a> {
        Maker {
            sound,
            schemas,
            bytes: Vec::new(),
            last_child: None,
        }
    }

    /// A section: sound, with elements that break the rules, damaged, or any bytes.
    fn section(mut self, random: &mut Random) -> Vec<u8> {
        match random.below(32) {
            0 => {
                let length = random.below(60);
                return random.bytes(length);
            }
            1 => return self.likely_bytes(random),
            _ => {}
        }
        let rows = match random.below(128) {
            0 => random.below(300),
            1..=3 => random.below(30),
            _ => random.below(6),
        };
        let may_be_wrong = random.one_in(2);
        for _ in 0..rows {
            match random.below(12) {
                0 | 1 if may_be_wrong => self.add_wrong(random),
                2..=4 if may_be_wrong => self.add_row(random, true),
                _ => self.add_row(random, false),
            }
        }
        self.add_end(random);
        if random.one_in(4) {
            damage(random, &mut self.bytes);
        }
        if random.one_in(6) {
            self.end_where_refused(random);
        }
        self.bytes
    }

    /// Tokens and bytes that often follow them, in any order.
    fn likely_bytes(&self, random: &mut Random) -> Vec<u8> {
        let mut bytes = Vec::new();
        for _ in 0..random.below(12) {
            bytes.push(random.pick(&[PARENT, CHILD, CHILD_CHANGE, CHILD_DELETE, END]));
            if random.one_in(2) {
                bytes.extend(self.any_id(random).to_le_bytes());
            }
            let length = random.below(6);
            bytes.extend((0..length).map(|_| random.pick(&[0x00, 0x00, 0x01, 0x80])));
        }
        bytes
    }

    /// Adds a row, with what may follow a child. Its data may be wrong.
    fn add_row(&mut self, random: &mut Random, may_be_wrong: bool) {
        let any = random.below(self.schemas.schema_count());
        let index = random.pick(&[0, any, any]);
        let subject = self.subject(index);
        let data = |random: &mut Random, form| match may_be_wrong {
            true => subject.data(random, form),
            false => subject.sound_data(random, form),
        };
        let Some(id) = self.schemas.id_at(index) else {
            self.bytes.push(PARENT);
            self.bytes.extend(data(random, Form::Original));
            return;
        };
        self.last_child = Some(index);
        self.add_token(CHILD, id);
        self.bytes.extend(data(random, Form::Original));
        match random.below(3) {
            0 => {}
            1 => {
                self.add_token(CHILD_CHANGE, id);
                self.bytes.extend(data(random, Form::Update));
            }
            _ => self.add_token(CHILD_DELETE, id),
        }
    }

    /// Adds what breaks a rule, or may do so.
    fn add_wrong(&mut self, random: &mut Random) {
        match random.below(8) {
            0 => self.bytes.push(END),
            1 => {
                let any = random.byte();
                let token = random.pick(&NO_TOKENS);
                self.bytes.push(random.pick(&[token, token, token, any]));
            }
            2 => {
                let id = self.any_id(random);
                self.add_token(CHILD, id);
            }
            3 => {
                let id = self.any_id(random);
                self.add_token(random.pick(&[CHILD_CHANGE, CHILD_DELETE]), id);
            }
            _ => self.add_late(random),
        }
    }

    /// Adds a sound change or deletion of the last child, which may not stand directly before
    /// it.
    fn add_late(&mut self, random: &mut Random) {
        let last = self
            .last_child
            .map(|index| (index, self.schemas.id_at(index)));
        let Some((index, Some(id))) = last else {
            return;
        };
        if random.one_in(2) {
            self.add_token(CHILD_DELETE, id);
        } else {
            let data = self.subject(index).sound_data(random, Form::Update);
            self.add_token(CHILD_CHANGE, id);
            self.bytes.extend(data);
        }
    }

    fn subject(&self, index: usize) -> Subject {
        Subject::of(self.sound.to_vec(), self.schemas, index)
    }

    /// Adds the end, or at times none, more than that, or an element that is cut short.
    fn add_end(&mut self, random: &mut Random) {
        match random.below(16) {
            0 => {}
            1 => self.bytes.extend([END, END]),
            2 => {
                let length = random.between(1, 8);
                self.bytes.push(END);
                self.bytes.extend(random.bytes(length));
            }
            3 => {
                let id = self.any_id(random);
                self.add_token(random.pick(&[CHILD, CHILD_CHANGE, CHILD_DELETE]), id);
                self.bytes.truncate(self.bytes.len() - random.between(1, 4));
            }
            _ => self.bytes.push(END),
        }
    }

    fn add_token(&mut self, token: u8, id: u32) {
        self.bytes.push(token);
        self.bytes.extend(id.to_le_bytes());
    }

    /// A child id of the file, one that is known if high bits are lost, or any.
    fn any_id(&self, random: &mut Random) -> u32 {
        let any = random.bits() as u32;
        let index = random.below(self.schemas.schema_count());
        let Some(id) = self.schemas.id_at(index) else {
            return random.pick(&[0, 1, any]);
        };
        let near = [id + 1, id.wrapping_sub(1)];
        let lost = [id | 1 << 21, id | 1 << 24, id | 1 << 31];
        let [near, lost] = [random.pick(&near), random.pick(&lost)];
        random.pick(&[id, id, id, near, lost, any])
    }

    /// Ends the section where it is refused, or a little further, so that two errors meet.
    fn end_where_refused(&mut self, random: &mut Random) {
        if let Err(error) = check_section(self.sound, &self.bytes) {
            self.bytes.truncate(error.offset + random.below(6));
        }
    }
}

#[cfg(test)]
mod tests {
    use super::*;

    #[test]
    fn a_full_section_has_the_limit_and_is_sound() {
        let file = generate::groups(&[1, BYTES.into(), 0, LONGEST as u32]);
        let section = full_section();
        assert_eq!(section.len(), MAX_INPUT);
        let rows = MAX_INPUT.div_ceil(FULL_ROW);
        assert_eq!(check_section(&file, &section), Ok(rows));
    }

    #[test]
    fn checking_and_listing_differ_only_by_the_room() {
        let refused = |code, offset, input| -> Reply<usize> {
            Err(Fault::Error(Error::new(code, offset, input)))
        };
        let room = refused(ErrorCode::Capacity, 2, Input::Table);
        let short = refused(ErrorCode::Truncated, 2, Input::Section);
        assert!(go_together(&Ok(2), &Ok(2), 8));
        assert!(go_together(&Ok(2), &room, 7));
        assert!(go_together(&short, &short, 7));
        for (checked, listed, space) in [
            (Ok(2), Ok(2), 7),
            (Ok(2), Ok(3), 12),
            (Ok(2), room.clone(), 8),
            (Ok(3), room.clone(), 7),
            (Ok(2), refused(ErrorCode::Capacity, 2, Input::Section), 7),
            (Ok(2), short.clone(), 8),
            (Ok(2), short.clone(), 7),
            (short.clone(), Ok(2), 8),
            (short.clone(), room.clone(), 7),
            (short, refused(ErrorCode::Truncated, 3, Input::Section), 8),
            (room.clone(), room, 7),
        ] {
            assert!(
                !go_together(&checked, &listed, space),
                "{checked:?} {listed:?}"
            );
        }
    }

    #[test]
    fn sections_of_all_sizes_are_sound() {
        let mut random = Random::new(1);
        for longest in [300, 65_534] {
            let section = sizes_section(&mut random, longest);
            let mut table = vec![0; ROW_NUMBERS * section.len()];
            let rows = list_section(&sizes_file(), &section, &mut table).expect("it is sound");
            assert!(rows > HELD && section.len() > NOTED);
            let starts = table.chunks(ROW_NUMBERS).take(rows).map(|row| row[2]);
            let gaps: Vec<u32> = starts
                .clone()
                .skip(1)
                .zip(starts)
                .map(|(b, a)| b - a)
                .collect();
            assert!(gaps.iter().any(|gap| *gap > 255), "no long element");
            assert_eq!(gaps.iter().any(|gap| *gap > 65_535), longest > 300);
        }
    }
}
