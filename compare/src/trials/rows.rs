//! Trials of the calls that look at row data.

use super::row_data::{Form, Subject};
use super::schema::SOUND;
use super::{all_and_past, complaints, number_past, Call, Run};
use crate::archive;
use crate::random::Random;
use crate::reading::encode::entry_numbers;
use crate::reading::row::{field_count, look_up};
use crate::reading::schema::SchemaFile;
use crate::reading::update::{current, look_update};
use crate::reading::{ErrorCode, Input, MAX_INPUT};
use crate::text::shown;

/// A file that is refused for its count.
pub(super) const REFUSED: [u8; 1] = [0x00];

static LOOK_UP: Call = Call {
    name: "look_up",
    codes: OF_ROW,
};
static FIELD_COUNT: Call = Call {
    name: "field_count",
    codes: &[
        ErrorCode::Truncated,
        ErrorCode::NumberForm,
        ErrorCode::NumberRange,
        ErrorCode::SchemaLimit,
        ErrorCode::RepeatedId,
        ErrorCode::ChapterBit,
        ErrorCode::Trailing,
        ErrorCode::NoSuch,
        ErrorCode::Oversize,
    ],
};
static ROW_END: Call = Call {
    name: "row_end",
    codes: OF_ROW,
};
static LOOK_UPDATE: Call = Call {
    name: "look_update",
    codes: OF_UPDATE,
};
static UPDATE_END: Call = Call {
    name: "update_end",
    codes: OF_UPDATE,
};
static CURRENT: Call = Call {
    name: "current",
    codes: OF_UPDATE,
};

/// The codes of a call that takes a file and walks a row.
const OF_ROW: &[ErrorCode] = &[
    ErrorCode::Truncated,
    ErrorCode::NumberForm,
    ErrorCode::NumberRange,
    ErrorCode::SchemaLimit,
    ErrorCode::RepeatedId,
    ErrorCode::ChapterBit,
    ErrorCode::Length,
    ErrorCode::Trailing,
    ErrorCode::NoSuch,
    ErrorCode::Oversize,
];

/// The codes of a call that takes a file and walks update data.
const OF_UPDATE: &[ErrorCode] = &[
    ErrorCode::Truncated,
    ErrorCode::NumberForm,
    ErrorCode::NumberRange,
    ErrorCode::SchemaLimit,
    ErrorCode::RepeatedId,
    ErrorCode::ChapterBit,
    ErrorCode::ForceRule,
    ErrorCode::Length,
    ErrorCode::Trailing,
    ErrorCode::NoSuch,
    ErrorCode::Oversize,
];

/// One row: each column, and some that it lacks.
pub(super) fn look_up_case(random: &mut Random, run: &mut Run) {
    let subject = Subject::any(random);
    let row = subject.data(random, Form::Original);
    for column in all_and_past(random, subject.columns.len()) {
        row_column(&subject.file, subject.number, &row, column, run);
    }
}

/// One row whose fields are counted.
pub(super) fn field_count_case(random: &mut Random, run: &mut Run) {
    let subject = Subject::any(random);
    let row = subject.data(random, Form::Original);
    count(&subject.file, subject.number, &row, run);
}

/// One row whose end is asked for.
pub(super) fn row_end_case(random: &mut Random, run: &mut Run) {
    end_case(random, Form::Original, run);
}

/// Update data: each column, and some that they lack.
pub(super) fn look_update_case(random: &mut Random, run: &mut Run) {
    let subject = Subject::any(random);
    let update = subject.data(random, Form::Update);
    for column in all_and_past(random, subject.columns.len()) {
        update_column(&subject.file, subject.number, &update, column, run);
    }
}

/// Update data whose end is asked for.
pub(super) fn update_end_case(random: &mut Random, run: &mut Run) {
    end_case(random, Form::Update, run);
}

/// One changed row: each column, and some that it lacks.
pub(super) fn current_case(random: &mut Random, run: &mut Run) {
    let subject = Subject::any(random);
    let row = subject.data(random, Form::Original);
    // Mostly sound, so that the row is asked too.
    let update = if random.one_in(3) {
        subject.data(random, Form::Update)
    } else {
        subject.sound_data(random, Form::Update)
    };
    for column in all_and_past(random, subject.columns.len()) {
        current_column(&subject.file, subject.number, &row, &update, column, run);
    }
}

/// Inputs at the size limit and over it, in every place and with other faults besides.
pub(super) fn oversized(zeros: &[u8], run: &mut Run) {
    let files = [&SOUND[..], &REFUSED, &zeros[..MAX_INPUT], zeros];
    let inputs = [&zeros[..0], &zeros[..MAX_INPUT], zeros];
    for file in files {
        for number in [0, usize::MAX] {
            for input in inputs {
                count(file, number, input, run);
                for place in [0, MAX_INPUT, usize::MAX] {
                    row_column(file, number, input, place, run);
                    update_column(file, number, input, place, run);
                    end(Form::Original, file, number, input, place, run);
                    end(Form::Update, file, number, input, place, run);
                    for update in inputs {
                        current_column(file, number, input, update, place, run);
                    }
                }
            }
        }
    }
}

/// Data with bytes around them, whose end is asked for, or at times the end of what does not
/// start there.
fn end_case(random: &mut Random, form: Form, run: &mut Run) {
    let subject = Subject::any(random);
    let data = subject.data(random, form);
    let start = if random.one_in(2) {
        0
    } else {
        random.below(20)
    };
    let mut bytes = random.bytes(start);
    bytes.extend(data);
    if random.one_in(4) {
        let behind = random.below(20);
        bytes.extend(random.bytes(behind));
    }
    let at = match random.below(16) {
        0 => number_past(random, start, bytes.len() + 1),
        1 => random.below(bytes.len() + 1),
        _ => start,
    };
    end(form, &subject.file, subject.number, &bytes, at, run);
}

fn row_column(file: &[u8], number: usize, row: &[u8], column: usize, run: &mut Run) {
    let reading = look_up(file, number, row, column);
    let archive = archive::look_up(file, number, row, column);
    run.judge(&LOOK_UP, &reading, &complaints(&reading, &archive), || {
        format!("{} {number} {} {column}", shown(file), shown(row))
    });
}

fn count(file: &[u8], number: usize, row: &[u8], run: &mut Run) {
    let reading = field_count(file, number, row);
    let archive = archive::field_count(file, number, row);
    let complaints = complaints(&reading, &archive);
    run.judge(&FIELD_COUNT, &reading, &complaints, || {
        format!("{} {number} {}", shown(file), shown(row))
    });
}

fn update_column(file: &[u8], number: usize, update: &[u8], column: usize, run: &mut Run) {
    let reading = look_update(file, number, update, column);
    let archive = archive::look_update(file, number, update, column);
    let complaints = complaints(&reading, &archive);
    run.judge(&LOOK_UPDATE, &reading, &complaints, || {
        format!("{} {number} {} {column}", shown(file), shown(update))
    });
}

fn current_column(
    file: &[u8],
    number: usize,
    row: &[u8],
    update: &[u8],
    column: usize,
    run: &mut Run,
) {
    let reading = current(file, number, row, update, column);
    let archive = archive::current(file, number, row, update, column);
    run.judge(&CURRENT, &reading, &complaints(&reading, &archive), || {
        let [file, row, update] = [file, row, update].map(shown);
        format!("{file} {number} {row} {update} {column}")
    });
}

/// Asks both sides where data end; the archive must write back what it finds in them.
fn end(form: Form, file: &[u8], number: usize, bytes: &[u8], at: usize, run: &mut Run) {
    let reading = form.end()(file, number, bytes, at);
    let archive = form.archive_end()(file, number, bytes, at);
    let mut complaints = complaints(&reading, &archive);
    if let Ok(end) = reading {
        write_back(form, file, number, &bytes[at..end], &mut complaints);
    }
    let call = match form {
        Form::Original => &ROW_END,
        Form::Update => &UPDATE_END,
    };
    run.judge(call, &reading, &complaints, || {
        format!("{} {number} {} {at}", shown(file), shown(bytes))
    });
}

/// Complains if the archive does not make sound data from what it finds in them, reserved bits
/// aside.
fn write_back(form: Form, file: &[u8], number: usize, data: &[u8], complaints: &mut Vec<String>) {
    let schemas = SchemaFile::read(file, Input::Schema).expect("the file is sound");
    let columns = schemas.columns(number).expect("the schema is there");
    let mut wanted = data.to_vec();
    for (at, bits) in form.reserved_bits(columns) {
        wanted[at] &= !bits;
    }
    let mut output = vec![0xAA; data.len()];
    let written = form
        .archive_entries(file, number, data, columns.len())
        .and_then(|entries| entry_numbers(&entries))
        .map(|entries| form.archive_writer()(file, number, &entries, data, 0, &mut output));
    if written != Some(Ok(data.len())) || output != wanted {
        complaints.push("the archive does not write it back".to_string());
    }
}
