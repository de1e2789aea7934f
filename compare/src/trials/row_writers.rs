//! Trials of the row writers.

use super::row_data::{Form, Subject};
use super::rows::REFUSED;
use super::schema::{MAX_NUMBERS, SOUND};
use super::{capacity, complaints, filled_complaints, number_past, Call, Run};
use crate::random::Random;
use crate::reading::column::{Column, Kind, WIDE_TEXT};
use crate::reading::encode::{
    entries_of, entry_numbers, Entry, ENTRY_NUMBERS, NULL, UNCHANGED, VALUE,
};
use crate::reading::{ErrorCode, MAX_INPUT};
use crate::text::{shown, shown_numbers};

/// The entry of the first byte of the values.
const FIRST_BYTE: [u32; ENTRY_NUMBERS] = [VALUE, 0, 1];

static WRITE_ORIGINAL: Call = Call {
    name: "write_original",
    codes: OF_WRITER,
};
static WRITE_UPDATE: Call = Call {
    name: "write_update",
    codes: OF_WRITER,
};

/// The codes of a row writer.
const OF_WRITER: &[ErrorCode] = &[
    ErrorCode::Truncated,
    ErrorCode::NumberForm,
    ErrorCode::NumberRange,
    ErrorCode::SchemaLimit,
    ErrorCode::RepeatedId,
    ErrorCode::Trailing,
    ErrorCode::Capacity,
    ErrorCode::NoSuch,
    ErrorCode::Oversize,
    ErrorCode::Entry,
];

/// What a row writer is given. The output begins as `before`.
#[derive(Clone, Copy)]
struct Given<'a> {
    file: &'a [u8],
    number: usize,
    entries: &'a [u32],
    values: &'a [u8],
    place: usize,
    before: &'a [u8],
}

/// One set of entries for the writer of original rows.
pub(super) fn original_case(random: &mut Random, run: &mut Run) {
    case(random, Form::Original, run);
}

/// One set of entries for the writer of update data.
pub(super) fn update_case(random: &mut Random, run: &mut Run) {
    case(random, Form::Update, run);
}

/// Inputs at the size limit and over it, in every place and with other faults besides.
pub(super) fn oversized(zeros: &[u8], run: &mut Run) {
    for form in [Form::Original, Form::Update] {
        for file in [&SOUND[..], &REFUSED, &zeros[..MAX_INPUT], zeros] {
            for values in [&zeros[..1], &zeros[..MAX_INPUT], zeros] {
                for (number, place) in [(0, 1), (0, 9), (usize::MAX, 9)] {
                    let given = Given {
                        file,
                        number,
                        entries: &FIRST_BYTE,
                        values,
                        place,
                        before: &[0xAA; 8],
                    };
                    write(form, given, run);
                    let entries = &[];
                    write(form, Given { entries, ..given }, run);
                }
            }
        }
        let given = Given {
            file: &SOUND,
            number: 0,
            entries: &FIRST_BYTE,
            values: &[0x2A],
            place: 0,
            before: zeros,
        };
        // What is only written to may have any size, and so may the place.
        for place in [0, MAX_INPUT - 2, MAX_INPUT, MAX_INPUT + 1] {
            write(form, Given { place, ..given }, run);
        }
        // So many entries are not one for each column, whatever their size.
        let entries = &vec![0; MAX_NUMBERS + 1][..];
        let before = &[0xAA; 8];
        let many = Given {
            entries,
            before,
            ..given
        };
        write(form, many, run);
    }
}

fn case(random: &mut Random, form: Form, run: &mut Run) {
    let subject = Subject::any(random);
    let (entries, values) = entries(random, form, &subject.columns);
    let given = Given {
        file: &subject.file,
        number: subject.number,
        entries: &entries,
        values: &values,
        place: 0,
        before: &[],
    };
    let (space, place) = output(random, need(form, given));
    let before = &random.bytes(space);
    let given = Given {
        place,
        before,
        ..given
    };
    write(form, given, run);
}

/// Writes with both sides; the archive must find the entries in what it wrote.
fn write(form: Form, given: Given, run: &mut Run) {
    let Given {
        file,
        number,
        entries,
        values,
        place,
        before,
    } = given;
    let (mut ours, mut theirs) = (before.to_vec(), before.to_vec());
    let reading = form.writer()(file, number, &entries_of(entries), values, &mut ours, place);
    let archive = form.archive_writer()(file, number, entries, values, place, &mut theirs);
    let mut complaints = complaints(&reading, &archive);
    let of_outputs = filled_complaints(before, &ours, &theirs, place, &reading, shown);
    complaints.extend(of_outputs);
    if let Ok(size) = reading {
        look_back(form, given, &theirs, place + size, &mut complaints);
    }
    let call = match form {
        Form::Original => &WRITE_ORIGINAL,
        Form::Update => &WRITE_UPDATE,
    };
    run.judge(call, &reading, &complaints, || {
        let entries = shown_numbers(entries);
        let [file, values] = [file, values].map(shown);
        let space = before.len();
        format!("{file} {number} {entries} {values} {place}, output of {space} bytes")
    });
}

/// Complains if the archive does not find the entries given in the data that it wrote up to
/// `end`, or another end.
fn look_back(form: Form, given: Given, output: &[u8], end: usize, complaints: &mut Vec<String>) {
    let Given {
        file,
        number,
        values,
        place,
        ..
    } = given;
    let entries = entries_of(given.entries);
    let data = &output[place..end];
    let found = form.archive_entries(file, number, data, entries.len());
    let is_same = |(found, entry): (&Entry, &Entry)| match (found, entry) {
        (
            Entry::Value { start, end },
            Entry::Value {
                start: from,
                end: to,
            },
        ) => data.get(*start..*end) == values.get(*from..*to),
        _ => found == entry,
    };
    if !found.is_some_and(|found| found.iter().zip(&entries).all(is_same)) {
        complaints.push("the archive does not find the entries in it".to_string());
    }
    // An output over the size limit cannot be asked.
    if output.len() <= MAX_INPUT && form.archive_end()(file, number, output, place) != Ok(end) {
        complaints.push("the archive finds another end of it".to_string());
    }
}

/// The bytes that the entries need, if nothing but the output is wrong; else any number.
fn need(form: Form, given: Given) -> usize {
    let entries = entries_of(given.entries);
    match form.writer()(given.file, given.number, &entries, given.values, &mut [], 0) {
        Err(error) if error.code == ErrorCode::Capacity => error.offset,
        _ => 8,
    }
}

/// The size of an output for data that need so many bytes, and a place in it, at times past it.
fn output(random: &mut Random, need: usize) -> (usize, usize) {
    let before = if random.one_in(2) {
        0
    } else {
        random.below(20)
    };
    let space = before + capacity(random, need);
    let place = match random.below(16) {
        0 => number_past(random, before, space + 1),
        1 => random.between(before, space),
        _ => before,
    };
    (space, place)
}

/// Entries as numbers, with their values: sound ones, or with something wrong.
fn entries(random: &mut Random, form: Form, columns: &[Column]) -> (Vec<u32>, Vec<u8>) {
    let (mut entries, mut values) = form.entries(random, columns);
    for _ in 0..random.pick(&[0, 0, 0, 0, 1, 1, 2]) {
        change_entry(random, columns, &mut entries, &mut values);
    }
    if random.one_in(4) {
        let more = random.below(20);
        values.extend(random.bytes(more));
    }
    let mut numbers = entry_numbers(&entries).expect("the values are few");
    if random.one_in(2) {
        change_unused(random, &mut numbers);
    }
    if random.one_in(8) {
        change_numbers(random, &mut numbers, values.len() as u32);
    }
    (numbers, values)
}

/// Gives one column another entry, which it may not take.
fn change_entry(
    random: &mut Random,
    columns: &[Column],
    entries: &mut [Entry],
    values: &mut Vec<u8>,
) {
    let at = random.below(columns.len());
    let end = values.len();
    entries[at] = match random.below(8) {
        0 => Entry::Null,
        1 => Entry::Unchanged,
        2 => random.pick(entries),
        3 => {
            let start = random.below(end + 1);
            let past = end + random.between(1, 3);
            let places = [(start, past), (past, past), (past, start), (end, start)];
            let (start, end) = random.pick(&places);
            Entry::Value { start, end }
        }
        _ => {
            let length = other_length(random, &columns[at]);
            values.extend(random.bytes(length));
            Entry::Value {
                start: end,
                end: end + length,
            }
        }
    };
}

/// A length around those that a column takes.
fn other_length(random: &mut Random, column: &Column) -> usize {
    let longest = match column.kind {
        Kind::Fixed(width) => usize::from(width),
        Kind::Variable if column.code == WIDE_TEXT => 2 * usize::from(column.maximum),
        Kind::Variable => usize::from(column.maximum),
        Kind::Chapter => 0,
    };
    random.pick(&[
        0,
        1,
        2,
        longest / 2,
        longest.saturating_sub(1),
        longest,
        longest + 1,
        longest + 2,
        254,
        255,
        256,
        // A length that is allowed if high bits are lost.
        256 + longest,
    ])
}

/// Gives entries that are no values any start and end, which must not matter.
fn change_unused(random: &mut Random, numbers: &mut [u32]) {
    for entry in numbers.chunks_mut(ENTRY_NUMBERS) {
        if entry[0] != VALUE && random.one_in(2) {
            entry[1] = random.bits() as u32;
            entry[2] = random.bits() as u32;
        }
    }
}

/// Takes away numbers, adds some, or gives one another value, so that an entry may be none.
fn change_numbers(random: &mut Random, numbers: &mut Vec<u32>, values: u32) {
    let any = random.bits() as u32;
    match random.below(4) {
        0 => {
            let at = ENTRY_NUMBERS * random.below(numbers.len() / ENTRY_NUMBERS);
            // Among them numbers that are kinds if high bits are lost.
            let kinds = [3, 4, 0x80, 0x100, 0x101, 0x102, 0x1_0001, 1 << 31, any];
            numbers[at] = random.pick(&kinds);
        }
        1 => numbers.truncate(numbers.len() - random.between(1, ENTRY_NUMBERS)),
        2 => {
            for _ in 0..random.between(1, ENTRY_NUMBERS) {
                numbers.push(random.pick(&[NULL, VALUE, UNCHANGED, any]));
            }
        }
        _ => {
            let at = random.below(numbers.len());
            numbers[at] = random.pick(&[0, 1, 2, values, values + 1, u32::MAX, any]);
        }
    }
}
