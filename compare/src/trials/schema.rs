//! Trials of the schema file's calls.

use super::{
    all_and_past, capacity, complaints, damage, filled_complaints, output_complaints, Call, Run,
};
use crate::archive;
use crate::generate::{self, Shape, MAX_ID};
use crate::random::Random;
use crate::reading::schema::{
    read_schema, schema_column, schema_columns, schema_numbers, schema_of_child, write_schema,
    SchemaFile, MAX_COLUMNS, MAX_FILE_COLUMNS,
};
use crate::reading::{ErrorCode, Input, MAX_INPUT};
use crate::text::{shown, shown_numbers};

/// The numbers of the longest list that a writer takes.
pub(super) const MAX_NUMBERS: usize = 4_194_304;

/// One column of one byte.
pub(super) const SOUND: [u8; 3] = [0x01, 0x11, 0x00];

static READ: Call = Call {
    name: "read_schema",
    codes: &[
        ErrorCode::Truncated,
        ErrorCode::NumberForm,
        ErrorCode::NumberRange,
        ErrorCode::SchemaLimit,
        ErrorCode::RepeatedId,
        ErrorCode::Trailing,
        ErrorCode::Oversize,
    ],
};
static COLUMNS: Call = Call {
    name: "schema_columns",
    codes: WITH_NUMBER,
};
static COLUMN: Call = Call {
    name: "schema_column",
    codes: WITH_NUMBER,
};
static CHILD: Call = Call {
    name: "schema_of_child",
    codes: WITH_NUMBER,
};

static WRITE: Call = Call {
    name: "write_schema",
    codes: &[
        ErrorCode::Truncated,
        ErrorCode::NumberRange,
        ErrorCode::SchemaLimit,
        ErrorCode::RepeatedId,
        ErrorCode::Trailing,
        ErrorCode::Capacity,
        ErrorCode::Oversize,
    ],
};
static NUMBERS: Call = Call {
    name: "schema_numbers",
    codes: &[
        ErrorCode::Truncated,
        ErrorCode::NumberForm,
        ErrorCode::NumberRange,
        ErrorCode::SchemaLimit,
        ErrorCode::RepeatedId,
        ErrorCode::Trailing,
        ErrorCode::Capacity,
        ErrorCode::Oversize,
    ],
};

/// The codes of a call that takes a file and a number.
pub(super) const WITH_NUMBER: &[ErrorCode] = &[
    ErrorCode::Truncated,
    ErrorCode::NumberForm,
    ErrorCode::NumberRange,
    ErrorCode::SchemaLimit,
    ErrorCode::RepeatedId,
    ErrorCode::Trailing,
    ErrorCode::NoSuch,
    ErrorCode::Oversize,
];

/// One file for the schema reader.
pub(super) fn read_case(random: &mut Random, run: &mut Run) {
    let bytes = input(random);
    read(&bytes, run);
}

/// One file: the columns of each schema, and of some that it lacks.
pub(super) fn columns_case(random: &mut Random, run: &mut Run) {
    let bytes = input(random);
    for number in all_and_past(random, schema_count(&bytes)) {
        columns(&bytes, number, run);
    }
}

/// One file: each column of each schema, and some that it lacks.
pub(super) fn column_case(random: &mut Random, run: &mut Run) {
    let bytes = input(random);
    for number in all_and_past(random, schema_count(&bytes)) {
        let count = schema_columns(&bytes, number).unwrap_or(1);
        for at in all_and_past(random, count) {
            column(&bytes, number, at, run);
        }
    }
}

/// One file: each child id, and some that it lacks.
pub(super) fn child_case(random: &mut Random, run: &mut Run) {
    let bytes = input(random);
    for id in ids(random, &bytes) {
        child(&bytes, id, run);
    }
}

/// One list of numbers for the schema writer.
pub(super) fn write_case(random: &mut Random, run: &mut Run) {
    let numbers = list(random);
    let space = capacity(random, generate::groups(&numbers).len());
    write(&numbers, &random.bytes(space), run);
}

/// One file whose numbers are asked for.
pub(super) fn numbers_case(random: &mut Random, run: &mut Run) {
    let bytes = input(random);
    let mut all = vec![0; bytes.len()];
    let count = schema_numbers(&bytes, &mut all).unwrap_or(bytes.len());
    let before: Vec<u32> = (0..capacity(random, count))
        .map(|_| random.bits() as u32)
        .collect();
    numbers(&bytes, &before, run);
}

/// Inputs at the size limit and over it, sound or not at their start, with numbers that no
/// file has.
pub(super) fn oversized(bytes: &mut [u8], run: &mut Run) {
    for count in [SOUND[0], 0x00] {
        bytes[..SOUND.len()].copy_from_slice(&SOUND);
        bytes[0] = count;
        for size in [MAX_INPUT, MAX_INPUT + 1] {
            let file = &bytes[..size];
            read(file, run);
            for number in [0, usize::MAX] {
                columns(file, number, run);
                column(file, number, 0, run);
                column(file, number, usize::MAX, run);
                child(file, number as u32, run);
            }
            numbers(file, &[7; 2], run);
            numbers(file, &[7; 4], run);
        }
    }
    bytes[..SOUND.len()].fill(0);
    let mut list = vec![0; MAX_NUMBERS + 1];
    for count in [u32::from(SOUND[0]), 0] {
        list[..SOUND.len()].copy_from_slice(&SOUND.map(u32::from));
        list[0] = count;
        for size in [MAX_NUMBERS, MAX_NUMBERS + 1] {
            write(&list[..size], &[0xAA; 2], run);
            write(&list[..size], &[0xAA; 4], run);
        }
    }
    // What is only written to may have any size.
    write(&SOUND.map(u32::from), bytes, run);
    numbers(&SOUND, &list, run);
}

fn read(bytes: &[u8], run: &mut Run) {
    let reading = read_schema(bytes);
    let archive = archive::read_schema(bytes);
    run.judge(&READ, &reading, &complaints(&reading, &archive), || {
        shown(bytes)
    });
}

fn columns(bytes: &[u8], number: usize, run: &mut Run) {
    let reading = schema_columns(bytes, number);
    let archive = archive::schema_columns(bytes, number);
    run.judge(&COLUMNS, &reading, &complaints(&reading, &archive), || {
        format!("{} {number}", shown(bytes))
    });
}

fn column(bytes: &[u8], number: usize, column: usize, run: &mut Run) {
    let reading = schema_column(bytes, number, column);
    let archive = archive::schema_column(bytes, number, column);
    run.judge(&COLUMN, &reading, &complaints(&reading, &archive), || {
        format!("{} {number} {column}", shown(bytes))
    });
}

fn child(bytes: &[u8], id: u32, run: &mut Run) {
    let reading = schema_of_child(bytes, id);
    let archive = archive::schema_of_child(bytes, id);
    run.judge(&CHILD, &reading, &complaints(&reading, &archive), || {
        format!("{} {id}", shown(bytes))
    });
}

/// Writes with both sides into outputs that begin as `before`; what they accept they must also
/// read back.
fn write(numbers: &[u32], before: &[u8], run: &mut Run) {
    let (mut ours, mut theirs) = (before.to_vec(), before.to_vec());
    let reading = write_schema(numbers, &mut ours);
    let archive = archive::write_schema(numbers, &mut theirs);
    let mut complaints = complaints(&reading, &archive);
    complaints.extend(output_complaints(before, &ours, &theirs, &reading));
    if let Ok(size) = reading {
        read_back(numbers, &ours[..size], &theirs[..size], &mut complaints);
    }
    run.judge(&WRITE, &reading, &complaints, || {
        let space = before.len();
        format!("{}, output of {space} bytes", shown_numbers(numbers))
    });
}

/// Complains if either side does not find the numbers given in its writer's file.
fn read_back(given: &[u32], ours: &[u8], theirs: &[u8], complaints: &mut Vec<String>) {
    let count = given.len();
    let mut table = vec![0; count];
    if schema_numbers(ours, &mut table) != Ok(count) || table != given {
        complaints.push("the reading does not read it back".to_string());
    }
    table.fill(0);
    if archive::schema_numbers(theirs, &mut table) != Ok(count) || table != given {
        complaints.push("the archive does not read it back".to_string());
    }
}

/// Asks both sides for the numbers of a file, with tables that begin as `before`; what they
/// hand out they must also write back.
fn numbers(bytes: &[u8], before: &[u32], run: &mut Run) {
    let (mut ours, mut theirs) = (before.to_vec(), before.to_vec());
    let reading = schema_numbers(bytes, &mut ours);
    let archive = archive::schema_numbers(bytes, &mut theirs);
    let mut complaints = complaints(&reading, &archive);
    let of_tables = filled_complaints(before, &ours, &theirs, 0, &reading, shown_numbers);
    complaints.extend(of_tables);
    if let Ok(count) = reading {
        write_back(&ours[..count], &theirs[..count], bytes, &mut complaints);
    }
    run.judge(&NUMBERS, &reading, &complaints, || {
        let space = before.len();
        format!("{}, table of {space} numbers", shown(bytes))
    });
}

/// Complains if either side does not make the file from its numbers.
fn write_back(ours: &[u32], theirs: &[u32], file: &[u8], complaints: &mut Vec<String>) {
    let size = file.len();
    let mut output = vec![0; size];
    if write_schema(ours, &mut output) != Ok(size) || output != file {
        complaints.push("the reading does not write it back".to_string());
    }
    output.fill(0);
    if archive::write_schema(theirs, &mut output) != Ok(size) || output != file {
        complaints.push("the archive does not write it back".to_string());
    }
}

/// The schemas of a file; 1 if it is refused.
pub(super) fn schema_count(bytes: &[u8]) -> usize {
    read_schema(bytes).map_or(1, |counts| counts.schemas)
}

/// The child ids of a file, if it has any, and some that it may lack.
fn ids(random: &mut Random, bytes: &[u8]) -> Vec<u32> {
    let file = SchemaFile::read(bytes, Input::Schema);
    let known: Vec<u32> = file.map_or(Vec::new(), |file| {
        (1..file.schema_count())
            .filter_map(|index| file.id_at(index))
            .collect()
    });
    let any = random.bits() as u32;
    let mut ids = vec![random.pick(&[0, MAX_ID as u32, MAX_ID as u32 + 1, u32::MAX, any])];
    if !known.is_empty() {
        let id = random.pick(&known);
        // Ids that are known ones if high bits are lost stand among these.
        let near = [id + 1, id.wrapping_sub(1), id + (1 << 21), id | 1 << 31];
        ids.push(random.pick(&near));
    }
    ids.extend(known);
    ids
}

/// Bytes for a reader: a file, sound or damaged, or any bytes.
pub(super) fn input(random: &mut Random) -> Vec<u8> {
    match random.below(32) {
        0 | 1 => {
            let length = random.below(60);
            return random.bytes(length);
        }
        2 | 3 => return likely_bytes(random),
        _ => {}
    }
    let mut numbers = file_numbers(random);
    if random.one_in(4) {
        change_number(random, &mut numbers);
    }
    let mut bytes = generate::groups(&numbers);
    if random.one_in(16) {
        stretch_number(random, &mut bytes);
    }
    if random.one_in(2) {
        damage(random, &mut bytes);
    }
    if random.one_in(4) {
        end_where_refused(random, &mut bytes);
    }
    bytes
}

/// Ends a file where it is refused, or a bad number further, so that two errors meet.
fn end_where_refused(random: &mut Random, bytes: &mut Vec<u8>) {
    if let Err(error) = read_schema(bytes) {
        bytes.truncate(error.offset);
        let ends: [&[u8]; 6] = [
            &[],
            &[0x00],
            &[0x41],
            &[0x80],
            &[0x83, 0x00],
            &[0x80, 0x80, 0x80],
        ];
        bytes.extend(random.pick(&ends));
    }
}

/// Numbers for the writer: those of a file, sound or damaged, or any numbers.
fn list(random: &mut Random) -> Vec<u32> {
    if random.one_in(16) {
        return likely_bytes(random).into_iter().map(u32::from).collect();
    }
    let mut numbers = file_numbers(random);
    match random.below(16) {
        0..=3 => change_number(random, &mut numbers),
        4 => {
            let at = random.below(numbers.len());
            let over = random.below(1 << 22) as u32;
            numbers[at] = random.pick(&[MAX_ID as u32 + 1, MAX_ID as u32 + 1 + over, u32::MAX]);
        }
        5 | 6 => numbers.truncate(random.below(numbers.len() + 1)),
        7 | 8 => {
            for _ in 0..random.between(1, 4) {
                let any = random.bits() as u32;
                numbers.push(random.pick(&[0, 1, 0x88, MAX_ID as u32 + 1, any]));
            }
        }
        9 => {
            change_number(random, &mut numbers);
            numbers.truncate(random.below(numbers.len() + 1));
        }
        _ => {}
    }
    if random.one_in(4) {
        end_list_where_refused(random, &mut numbers);
    }
    numbers
}

/// Ends a list where it is refused, or a bad number further, so that two errors meet.
fn end_list_where_refused(random: &mut Random, numbers: &mut Vec<u32>) {
    let Err(error) = write_schema(numbers, &mut []) else {
        return;
    };
    let mut at = 0;
    let index = numbers.iter().position(|number| {
        let is_there = at == error.offset;
        at += generate::groups(&[*number]).len();
        is_there
    });
    // A sound list is refused for the output alone, behind its last number.
    if let Some(index) = index {
        numbers.truncate(index);
        let ends: [&[u32]; 4] = [&[], &[0], &[65], &[MAX_ID as u32 + 1]];
        numbers.extend(random.pick(&ends));
    }
}

/// The numbers of a file: any that keeps the rules, or one with a limit reached or passed.
fn file_numbers(random: &mut Random) -> Vec<u32> {
    let schemas = random.between(5, 12);
    let any = random.between(2 * schemas, MAX_FILE_COLUMNS);
    let mut shape = Shape {
        schemas,
        columns: any,
        depth: random.between(2, 4),
        repeats_ids: false,
    };
    match random.below(32) {
        0 => {}
        1 => shape.columns = MAX_FILE_COLUMNS,
        2 => shape.columns = MAX_FILE_COLUMNS + 1,
        3 => shape.columns = random.between(MAX_FILE_COLUMNS + 1, schemas * MAX_COLUMNS),
        4 => shape.depth = 5,
        5 => shape.repeats_ids = true,
        6 => {
            shape.depth = 5;
            shape.repeats_ids = true;
        }
        7 => {
            shape.schemas = 1;
            shape.columns = random.between(1, MAX_COLUMNS);
            shape.depth = 1;
        }
        _ => return generate::schema_numbers(random),
    }
    generate::shaped_numbers(random, shape)
}

/// Gives one number another value: a near one, one of the list, one at a limit, any.
pub(super) fn change_number(random: &mut Random, numbers: &mut [u32]) {
    let at = random.below(numbers.len());
    let limits = [
        0, 1, 2, 64, 65, 0x87, 0x88, 0x8B, 127, 128, 16_383, 16_384, 32_767, 32_768, 2_097_151,
        2_097_152,
    ];
    let near = [numbers[at].wrapping_add(1), numbers[at].wrapping_sub(1)];
    let limit = random.pick(&limits);
    let other = random.pick(numbers);
    let any = random.bits() as u32;
    numbers[at] = random.pick(&[near[0], near[1], limit, limit, other, any]);
}

/// Gives one number a last group of 0, so that its form is not the shortest.
fn stretch_number(random: &mut Random, bytes: &mut Vec<u8>) {
    let is_last = |at: &usize| bytes[*at] & 0x80 == 0;
    let ends: Vec<usize> = (0..bytes.len()).filter(is_last).collect();
    let end = random.pick(&ends);
    bytes[end] |= 0x80;
    bytes.insert(end + 1, 0x00);
}

/// Bytes that often stand in a file, in any order.
fn likely_bytes(random: &mut Random) -> Vec<u8> {
    let length = random.below(40);
    let choices = [0x00, 0x01, 0x01, 0x02, 0x03, 0x11, 0x80, 0x82, 0x88];
    (0..length).map(|_| random.pick(&choices)).collect()
}
