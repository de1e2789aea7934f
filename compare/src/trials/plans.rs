//! Trials of the plans that are made: making, checking, fixed places, and look-ups through them.

use super::row_data::{Form, Subject};
use super::rows::REFUSED;
use super::schema::{self, schema_count, SOUND, WITH_NUMBER};
use super::{all_and_past, complaints, damage, number_past, Call, Run};
use crate::archive;
use crate::generate::{self, MAX_ID};
use crate::random::Random;
use crate::reading::column::{Column, CHAPTER};
use crate::reading::numbers::PlanNumbers;
use crate::reading::plan::{check_plan, make_plan, Plan};
use crate::reading::row::{look_up, Answer};
use crate::reading::schema::{read_schema, SchemaFile};
use crate::reading::{Error, ErrorCode, Input, MAX_INPUT};
use crate::text::{agree, shown};

static MAKE: Call = Call {
    name: "make_plan",
    codes: WITH_NUMBER,
};
static CHECK: Call = Call {
    name: "check_plan",
    codes: &[
        ErrorCode::Truncated,
        ErrorCode::NumberForm,
        ErrorCode::NumberRange,
        ErrorCode::SchemaLimit,
        ErrorCode::RepeatedId,
        ErrorCode::Trailing,
        ErrorCode::PlanMismatch,
        ErrorCode::NoSuch,
        ErrorCode::Oversize,
    ],
};
static FIXED_PLACE: Call = Call {
    name: "fixed_place",
    codes: &[ErrorCode::NoSuch],
};
static PLANNED: Call = Call {
    name: "planned_look_up",
    codes: &[
        ErrorCode::Truncated,
        ErrorCode::ChapterBit,
        ErrorCode::Length,
        ErrorCode::NoSuch,
        ErrorCode::Oversize,
    ],
};
static OPEN: Call = Call {
    name: "open_row",
    codes: &[
        ErrorCode::Truncated,
        ErrorCode::ChapterBit,
        ErrorCode::Oversize,
    ],
};
static OPENED: Call = Call {
    name: "open_look_up",
    codes: &[ErrorCode::Truncated, ErrorCode::Length, ErrorCode::NoSuch],
};

/// How many changes of a sound file are tried until one leaves it sound.
const CHANGES: usize = 8;

/// One file: the plan of each schema, and of some that it lacks.
pub(super) fn make_case(random: &mut Random, run: &mut Run) {
    let file = schema::input(random);
    for number in all_and_past(random, schema_count(&file)) {
        make(&file, number, run);
    }
}

/// The plan of one schema, checked against it or against another one.
pub(super) fn check_case(random: &mut Random, run: &mut Run) {
    let numbers = generate::schema_numbers(random);
    let file = generate::groups(&numbers);
    let number = random.below(schema_count(&file));
    let (other_file, other) = other_schema(random, numbers, number);
    check((&file, number), (&other_file, other), run);
}

/// One row, by the plan of its schema: each column, and some that it lacks.
pub(super) fn look_up_case(random: &mut Random, run: &mut Run) {
    let subject = Subject::any(random);
    let row = subject.data(random, Form::Original);
    let columns = all_and_past(random, subject.columns.len());
    look_ups(&subject.file, subject.number, &row, &columns, run);
}

/// Inputs at the size limit and over it, with other faults besides.
pub(super) fn oversized(zeros: &[u8], run: &mut Run) {
    for file in [&SOUND[..], &REFUSED, &zeros[..MAX_INPUT], zeros] {
        for number in [0, usize::MAX] {
            make(file, number, run);
            check((&SOUND, 0), (file, number), run);
        }
    }
    for row in [&zeros[..0], &zeros[..MAX_INPUT], zeros] {
        look_ups(&SOUND, 0, row, &[0, MAX_INPUT, usize::MAX], run);
    }
}

/// Makes a plan with both sides, and answers both if there are two.
pub(super) fn make(file: &[u8], number: usize, run: &mut Run) -> Option<(Plan, PlanNumbers)> {
    let reading = make_plan(file, number);
    let wanted = reading.clone().map(|plan| plan.numbers());
    let archive = archive::make_plan(file, number);
    // In full, since the texts of different plans may be the same.
    let complaints = if agree(&wanted, &archive) {
        Vec::new()
    } else {
        vec![
            format!("reading: {wanted:?}"),
            format!("archive: {archive:?}"),
        ]
    };
    run.judge(&MAKE, &reading, &complaints, || {
        format!("{} {number}", shown(file))
    });
    Some((reading.ok()?, archive.ok()?))
}

/// Checks the plan of one schema against another. Both sides accept it exactly where the columns
/// of the two agree, and exactly then the plan of the other is the same.
fn check(planned: (&[u8], usize), against: (&[u8], usize), run: &mut Run) {
    let ((file, number), (other_file, other)) = (planned, against);
    let Some((plan, numbers)) = make(file, number, run) else {
        return;
    };
    let reading = check_plan(&plan, other_file, other);
    let archive = archive::check_plan(&numbers, other_file, other);
    let mut complaints = complaints(&reading, &archive);
    if let Some(columns) = columns_of(other_file, other) {
        let agrees = columns_of(file, number) == Some(columns);
        if agrees != reading.is_ok() {
            complaints.push("the reading does not go by the columns".to_string());
        }
        if agrees != (archive::make_plan(other_file, other) == Ok(numbers)) {
            complaints.push("the archive's plans do not go by the columns".to_string());
        }
    }
    run.judge(&CHECK, &reading, &complaints, || {
        let [file, other_file] = [file, other_file].map(shown);
        format!("plan of {file} {number}, {other_file} {other}")
    });
}

/// The columns of a schema of a sound file.
fn columns_of(bytes: &[u8], number: usize) -> Option<Vec<Column>> {
    let file = SchemaFile::read(bytes, Input::Schema).ok()?;
    file.columns(number).ok().map(<[Column]>::to_vec)
}

/// A schema to check the plan of schema `number` against, by its file and its number: the same
/// one, one with something changed, one with the same columns elsewhere, any other one.
fn other_schema(random: &mut Random, mut numbers: Vec<u32>, number: usize) -> (Vec<u8>, usize) {
    let count = schema_count(&generate::groups(&numbers));
    match random.below(16) {
        0 => {}
        1 => schema::change_number(random, &mut numbers),
        2..=7 => change_soundly(random, &mut numbers),
        8 => {
            let mut file = generate::groups(&numbers);
            damage(random, &mut file);
            return (file, number);
        }
        9 => return (schema::input(random), number),
        10 => {
            let past = number_past(random, number, count);
            return (generate::groups(&numbers), past);
        }
        11 | 12 => return (generate::groups(&numbers), random.below(count)),
        13 => numbers = generate::schema_numbers(random),
        _ => {
            // All of it one level further down, if that is not too deep.
            let id = random.below(MAX_ID) as u32;
            let above = [1, u32::from(CHAPTER), random.below(2) as u32, id];
            let nested = generate::groups(&[&above, &numbers[..]].concat());
            if schema_count(&nested) > count {
                return (nested, number + 1);
            }
        }
    }
    (generate::groups(&numbers), number)
}

/// Gives one number of a file another value with which the file is still sound, if one is found.
fn change_soundly(random: &mut Random, numbers: &mut Vec<u32>) {
    for _ in 0..CHANGES {
        let mut changed = numbers.clone();
        schema::change_number(random, &mut changed);
        if read_schema(&generate::groups(&changed)).is_ok() {
            *numbers = changed;
            return;
        }
    }
}

/// Looks up columns of a row through the plan of a schema, if it has one: directly, and in the
/// row opened once. The answers are those of the walk.
fn look_ups(file: &[u8], number: usize, row: &[u8], columns: &[usize], run: &mut Run) {
    let Some((plan, numbers)) = make(file, number, run) else {
        return;
    };
    let inputs = || format!("plan of {} {number}, {}", shown(file), shown(row));
    let opened = plan.open(row);
    let wanted = opened.map(|_| plan.map_size());
    let start = archive::open_row(&numbers, row);
    run.judge(&OPEN, &wanted, &complaints(&wanted, &start), inputs);
    for column in columns {
        let walk = look_up(file, number, row, *column);
        let with_column = || format!("{} {column}", inputs());
        fixed_place(&plan, &numbers, *column, &walk, run);
        let found = archive::planned_look_up(&numbers, row, *column);
        let mut of_planned = complaints(&walk, &found);
        if plan.look_up(row, *column) != walk {
            of_planned.push("the reading's plan says something else".to_string());
        }
        run.judge(&PLANNED, &walk, &of_planned, with_column);
        if let (Ok(opened), Ok(_)) = (opened, &start) {
            let found = archive::open_look_up(&numbers, row, *column);
            let mut of_opened = complaints(&walk, &found);
            if opened.look_up(&plan, *column) != walk {
                of_opened.push("the reading's opened row says something else".to_string());
            }
            run.judge(&OPENED, &walk, &of_opened, with_column);
        }
    }
}

/// Asks for the fixed place of a column; what the walk found must start there.
fn fixed_place(
    plan: &Plan,
    numbers: &PlanNumbers,
    column: usize,
    walk: &Result<Answer, Error>,
    run: &mut Run,
) {
    let reading = plan.fixed_place(column);
    let archive = archive::fixed_place(numbers, column);
    let mut complaints = complaints(&reading, &archive);
    if let (Ok(Some(fixed)), Ok(Answer::Field { place, .. })) = (reading, walk) {
        if place.start != fixed {
            complaints.push(format!("a field starts at {}", place.start));
        }
    }
    run.judge(&FIXED_PLACE, &reading, &complaints, || {
        format!("{numbers:?} {column}")
    });
}
