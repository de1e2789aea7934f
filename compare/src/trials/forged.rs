//! Trials of plans and of readers that no call makes. A look-up through such a plan always answers,
//! and as the reading does through the same numbers; where the plan's own columns fix a place, a
//! field starts there. Such a reader always answers something.

use super::plans::make;
use super::row_data::{Form, Subject};
use super::schema::SOUND;
use super::sections::sections;
use super::{complaints, number_past, Call, Run};
use crate::archive::{self, Fault, Reply};
use crate::generate;
use crate::random::Random;
use crate::reading::arrival::Progress;
use crate::reading::column::{BYTES, CHAPTER, FIXED, TEXT, WIDE_TEXT};
use crate::reading::numbers::{Part, PlanNumbers, CHAPTERS, COUNTS, MAP, PLAN_NUMBERS, STOPS};
use crate::reading::plan::make_plan;
use crate::reading::row::Answer;
use crate::reading::schema::MAX_COLUMNS;
use crate::reading::{Error, ErrorCode, Input, MAX_INPUT};
use crate::text::{shown, Text};

static CHECK: Call = Call {
    name: "forged check_plan",
    codes: &[ErrorCode::PlanMismatch],
};
static FIXED_PLACE: Call = Call {
    name: "forged fixed_place",
    codes: &[ErrorCode::NoSuch],
};
static PLANNED: Call = Call {
    name: "forged planned_look_up",
    codes: &[
        ErrorCode::Truncated,
        ErrorCode::ChapterBit,
        ErrorCode::Length,
        ErrorCode::NoSuch,
        ErrorCode::Oversize,
    ],
};
static OPEN: Call = Call {
    name: "forged open_row",
    codes: &[
        ErrorCode::Truncated,
        ErrorCode::ChapterBit,
        ErrorCode::Oversize,
    ],
};
static OPENED: Call = Call {
    name: "forged open_look_up",
    codes: &[ErrorCode::Truncated, ErrorCode::Length, ErrorCode::NoSuch],
};
static FEED: Call = Call {
    name: "forged feed",
    codes: &[ErrorCode::NoSuch],
};
static CLOSE: Call = Call {
    name: "forged close",
    codes: &[ErrorCode::NoSuch],
};

/// Numbers at limits: of stages, of maps and columns, of sections, of integers.
const LIMITS: [u64; 22] = [
    0,
    1,
    2,
    3,
    4,
    5,
    6,
    7,
    8,
    9,
    10,
    16,
    17,
    63,
    64,
    255,
    256,
    16_777_215,
    16_777_216,
    16_777_217,
    1 << 63,
    u64::MAX,
];

/// A forged plan, checked against the schema that it began with, and one row: each column, and
/// some that no plan has.
pub(super) fn look_up_case(random: &mut Random, run: &mut Run) {
    let subject = Subject::any(random);
    let Some((_, made)) = make(&subject.file, subject.number, run) else {
        return;
    };
    let plan = forged(random, made);
    check(&plan, &subject.file, subject.number, run);
    let row = row(random, &subject);
    let under = random.below(MAX_COLUMNS);
    let past = number_past(random, under, MAX_COLUMNS);
    let columns: Vec<usize> = (0..=plan.count()).chain([MAX_COLUMNS, past]).collect();
    look_ups(&plan, &row, &columns, run);
}

/// Rows at the size limit and over it.
pub(super) fn oversized(zeros: &[u8], run: &mut Run) {
    let Some((_, made)) = make(&SOUND, 0, run) else {
        return;
    };
    let mut far = made;
    far.set(0, Part::GAP, u64::MAX);
    far.set(MAP, Part::WHOLE, MAX_INPUT as u64);
    for plan in [made, far, PlanNumbers::BLANK] {
        for row in [&zeros[..0], &zeros[..MAX_INPUT], zeros] {
            look_ups(&plan, row, &[0, 1, usize::MAX], run);
        }
    }
}

/// Readers that were fed a part of a section and then changed, or that are of any numbers. A call
/// answers, and says the same when it is made again.
pub(super) fn reader_case(random: &mut Random, run: &mut Run) {
    for (file, section) in sections(random) {
        let (first, rest) = section.split_at(random.below(section.len() + 1));
        let mut reader = adtg::Reader::new();
        let _ = archive::feed(&file, &mut reader, first);
        let mut reader = forged_reader(random, reader);
        let fragments = [rest, &[], first, rest];
        for fragment in fragments.into_iter().take(random.between(1, 4)) {
            let call = |reader: &mut _| archive::feed(&file, reader, fragment);
            reader = ask(&FEED, &reader, call, run, || {
                format!("{} {}", shown(&file), shown(fragment))
            });
        }
        let call = |reader: &mut _| archive::close(&file, reader);
        ask(&CLOSE, &reader, call, run, || shown(&file));
    }
}

/// Makes a call twice with the same reader: both answer the same, in the form of an answer. What the
/// reader is then.
fn ask(
    call: &'static Call,
    before: &adtg::Reader,
    answer: impl Fn(&mut adtg::Reader) -> Reply<Progress>,
    run: &mut Run,
    inputs: impl FnOnce() -> String,
) -> adtg::Reader {
    let (mut once, mut again) = (before.clone(), before.clone());
    let (reply, repeated) = (answer(&mut once), answer(&mut again));
    let mut complaints = Vec::new();
    if reply != repeated || once != again {
        complaints.push(format!("archive: {}", reply.text()));
        complaints.push(format!("archive, again: {}", repeated.text()));
    }
    let answered = match &reply {
        Ok(progress) => Ok(*progress),
        Err(Fault::Error(error)) => Err(*error),
        Err(Fault::Malformed(malformed)) => {
            complaints.push(malformed.to_string());
            Err(Error::new(ErrorCode::NoSuch, 0, Input::Reader))
        }
    };
    run.judge(call, &answered, &complaints, || {
        format!("{before:?} {}", inputs())
    });
    once
}

/// A reader with some of its numbers changed, one of numbers at limits, or of any bytes.
fn forged_reader(random: &mut Random, reader: adtg::Reader) -> adtg::Reader {
    let mut bytes = reader.to_bytes();
    let numbers = bytes.as_chunks_mut().0;
    match random.below(8) {
        0 => numbers.fill_with(|| random.bits().to_le_bytes()),
        1 | 2 => numbers.fill_with(|| random.pick(&LIMITS).to_le_bytes()),
        _ => {
            for _ in 0..random.pick(&[1, 1, 1, 2, 3]) {
                let at = random.below(numbers.len());
                let old = u64::from_le_bytes(numbers[at]);
                let turned = old ^ 1 << random.below(64);
                let near = [old.wrapping_add(1), old.wrapping_sub(1)];
                let any = random.bits();
                let limit = random.pick(&LIMITS);
                let new = random.pick(&[near[0], near[1], turned, limit, limit, any]);
                numbers[at] = new.to_le_bytes();
            }
        }
    }
    adtg::Reader::from_bytes(bytes)
}

/// The archive accepts a plan only if it is the one that it would make.
fn check(plan: &PlanNumbers, file: &[u8], number: usize, run: &mut Run) {
    let mismatch = Error::new(ErrorCode::PlanMismatch, 0, Input::Plan);
    let wanted = match make_plan(file, number) {
        Ok(made) if made.numbers() == *plan => Ok(()),
        Ok(_) => Err(mismatch),
        Err(error) => Err(error),
    };
    let archive = archive::check_plan(plan, file, number);
    run.judge(&CHECK, &wanted, &complaints(&wanted, &archive), || {
        format!("{plan:?}, {} {number}", shown(file))
    });
}

/// Asks for columns through a plan: directly, and through the row's handle if it opens. Both
/// answer the same.
fn look_ups(plan: &PlanNumbers, row: &[u8], columns: &[usize], run: &mut Run) {
    let inputs = || format!("{plan:?}, {}", shown(row));
    let wanted = plan.open(row);
    let opened = archive::open_row(plan, row);
    run.judge(&OPEN, &wanted, &complaints(&wanted, &opened), inputs);
    for column in columns {
        let inputs = || format!("{} {column}", inputs());
        let wanted = plan.look_up(row, *column);
        fixed_place(plan, *column, &wanted, run);
        let reply = archive::planned_look_up(plan, row, *column);
        run.judge(&PLANNED, &wanted, &complaints(&wanted, &reply), inputs);
        if opened.is_ok() {
            let reply = archive::open_look_up(plan, row, *column);
            run.judge(&OPENED, &wanted, &complaints(&wanted, &reply), inputs);
        }
    }
}

/// Asks for the place that the plan's own columns fix; what was found must start there.
fn fixed_place(plan: &PlanNumbers, column: usize, found: &Result<Answer, Error>, run: &mut Run) {
    let wanted = plan.fixed_place(column);
    let archive = archive::fixed_place(plan, column);
    let mut complaints = complaints(&wanted, &archive);
    if let (Ok(Some(fixed)), Ok(Answer::Field { place, .. })) = (wanted, found) {
        if place.start != fixed {
            complaints.push(format!("a field starts at {}", place.start));
        }
    }
    run.judge(&FIXED_PLACE, &wanted, &complaints, || {
        format!("{plan:?} {column}")
    });
}

/// A row for a forged plan: one of the schema, sound or damaged, or bytes that are often lengths,
/// at times so many that every gap ends in them.
fn row(random: &mut Random, subject: &Subject) -> Vec<u8> {
    let length = match random.below(16) {
        0 => random.below(140_000),
        1..=5 => random.below(400),
        _ => return subject.data(random, Form::Original),
    };
    let mut row = random.bytes(8.min(length));
    row.resize_with(length, || random.pick(&[0, 0, 0, 1, 2, 4, 0xFF]));
    row
}

/// A plan with something wrong in it, at times with nothing.
pub(super) fn forged(random: &mut Random, made: PlanNumbers) -> PlanNumbers {
    let mut plan = match random.below(8) {
        0 => any_plan(random),
        1 => likely_plan(random),
        2 | 3 => mixed(random, made),
        _ => made,
    };
    for _ in 0..random.pick(&[0, 1, 1, 1, 1, 2, 3, 20]) {
        change(random, &mut plan);
    }
    if random.one_in(8) {
        // No stop but by variable types, so that places are fixed.
        for column in 0..MAX_COLUMNS {
            if plan.get(column, Part::FLAGS) == 1 {
                plan.set(column, Part::FLAGS, 0);
            }
        }
    }
    plan
}

/// A plan that was made, with some parts of another one.
fn mixed(random: &mut Random, mut plan: PlanNumbers) -> PlanNumbers {
    let (file, schemas) = generate::schema_file(random);
    let number = random.below(schemas.schema_count());
    let other = make_plan(&file, number)
        .expect("the file is sound")
        .numbers();
    let columns = 0..STOPS;
    let (numbers, parts) = match random.below(10) {
        0 => (COUNTS..MAP, vec![Part::COUNT]),
        1 => (COUNTS..MAP, vec![Part::FIRST]),
        2 => (MAP..PLAN_NUMBERS, vec![Part::WHOLE]),
        3 => (columns, vec![Part::CODE, Part::MAXIMUM]),
        4 => (STOPS..COUNTS, vec![Part::WHOLE]),
        5 => {
            let part = random.pick(Part::all(STOPS));
            (STOPS..COUNTS, vec![part])
        }
        _ => (columns, vec![random.pick(Part::all(0))]),
    };
    for number in numbers {
        for part in &parts {
            plan.set(number, *part, other.get(number, *part));
        }
    }
    plan
}

/// A plan of any numbers, often one by which rows open and stops are gone over.
fn any_plan(random: &mut Random) -> PlanNumbers {
    let numbers = [0; PLAN_NUMBERS].map(|_: u64| random.bits());
    let mut plan = PlanNumbers { numbers };
    if !random.one_in(4) {
        plan.set(COUNTS, Part::FIRST, random.below(4) as u64);
        plan.set(MAP, Part::WHOLE, random.below(9) as u64);
        plan.set(CHAPTERS, Part::WHOLE, 0);
    }
    plan
}

/// A plan of numbers that each might stand in one, together any.
fn likely_plan(random: &mut Random) -> PlanNumbers {
    let mut codes: Vec<u8> = FIXED.iter().map(|(code, _)| *code).collect();
    codes.extend([BYTES, TEXT, WIDE_TEXT, BYTES, TEXT, WIDE_TEXT, CHAPTER]);
    let maxima = [0, 1, 4, 12, 255, 256, 32_767];
    let stops_to = random.between(1, MAX_COLUMNS);
    let mut plan = PlanNumbers::BLANK;
    for column in 0..STOPS {
        let mut set = |part, value| plan.set(column, part, value);
        set(Part::CODE, random.pick(&codes).into());
        set(Part::FLAGS, random.below(2) as u64);
        set(Part::MAXIMUM, random.pick(&maxima));
        set(Part::GAP, random.below(20) as u64);
        set(Part::BIT, random.bits());
        set(Part::BEFORE, random.below(stops_to) as u64);
        set(Part::WIDTH, random.pick(&[0, 1, 2, 4, 8, 16, 255]));
    }
    for stop in STOPS..COUNTS {
        for part in Part::all(stop) {
            plan.set(stop, *part, random.bits());
        }
        plan.set(stop, Part::STOP_GAP, random.below(20) as u64);
        plan.set(stop, Part::MOST, random.pick(&maxima));
    }
    plan.set(COUNTS, Part::COUNT, random.between(1, MAX_COLUMNS) as u64);
    let first_under = random.pick(&[4, MAX_COLUMNS]);
    let first = random.below(first_under);
    plan.set(COUNTS, Part::FIRST, first as u64);
    plan.set(MAP, Part::WHOLE, random.below(9) as u64);
    let bit = 1 << random.below(64);
    plan.set(CHAPTERS, Part::WHOLE, random.pick(&[0, 0, bit]));
    plan
}

/// Gives one part of a plan another value: a near one, one bit turned, one at a limit, any. Most
/// often it is a part that look-ups go by.
fn change(random: &mut Random, plan: &mut PlanNumbers) {
    let column = random.below(plan.count());
    let stops = plan.get(column, Part::BEFORE) as usize;
    let number = match random.below(8) {
        0 | 1 => random.between(COUNTS, CHAPTERS),
        2 | 3 => column,
        4..=6 => STOPS + random.below(stops),
        _ => random.below(PLAN_NUMBERS),
    };
    let part = random.pick(Part::all(number));
    let old = plan.get(number, part);
    let turned = old ^ 1 << random.below(part.bits as usize);
    let limits = [
        0,
        1,
        8,
        63,
        64,
        65,
        0x80,
        0x81,
        0x88,
        255,
        256,
        1 << 63,
        u64::MAX,
    ];
    let limit = random.pick(&limits);
    let near = [old.wrapping_add(1), old.wrapping_sub(1)];
    let any = random.bits();
    let new = random.pick(&[near[0], near[1], turned, turned, limit, limit, any]);
    plan.set(number, part, new);
}

#[cfg(test)]
mod tests {
    use super::*;

    #[test]
    fn changes_reach_every_part() {
        let mut random = Random::new(1);
        let mut unchanged: Vec<(usize, Part)> = (0..PLAN_NUMBERS)
            .flat_map(|number| Part::all(number).iter().map(move |part| (number, *part)))
            .collect();
        for _ in 0..200_000 {
            let mut plan = PlanNumbers::BLANK;
            change(&mut random, &mut plan);
            unchanged.retain(|(number, part)| plan.get(*number, *part) == 0);
        }
        assert_eq!(unchanged, []);
    }

    #[test]
    fn the_numbers_of_a_made_plan_say_what_it_says() {
        let mut random = Random::new(1);
        for _ in 0..200 {
            let subject = Subject::any(&mut random);
            let row = subject.data(&mut random, Form::Original);
            let Ok(plan) = make_plan(&subject.file, subject.number) else {
                continue;
            };
            let numbers = plan.numbers();
            assert_eq!(numbers.open(&row), plan.open(&row).map(|_| plan.map_size()));
            for column in 0..=MAX_COLUMNS {
                assert_eq!(numbers.fixed_place(column), plan.fixed_place(column));
                assert_eq!(numbers.look_up(&row, column), plan.look_up(&row, column));
            }
        }
    }
}
