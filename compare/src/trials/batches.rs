//! Trials of batches: one column of the rows of one owner. Through a plan that was made they are
//! held against the reading's walk, through a forged one against its look-ups, row by row.

use super::forged::forged;
use super::plans::make;
use super::schema::SOUND;
use super::sections::HELD;
use super::{all_and_past, capacity, complaints, damage, filled_complaints, Call, Run};
use crate::archive;
use crate::generate::{self, Section};
use crate::random::Random;
use crate::reading::batch::{
    find_by, find_column, owner_of, CHAPTER_MARK, NULL_MARK, PARENTS, SPAN_NUMBERS,
};
use crate::reading::column::Column;
use crate::reading::numbers::{Part, PlanNumbers};
use crate::reading::plan::Plan;
use crate::reading::schema::SchemaFile;
use crate::reading::section::ROW_NUMBERS;
use crate::reading::{Error, ErrorCode, Input, MAX_INPUT};
use crate::text::{shown, shown_numbers};

static FIND: Call = Call {
    name: "find_column",
    codes: OF_BATCH,
};
static FORGED: Call = Call {
    name: "forged find_column",
    codes: OF_BATCH,
};

const OF_BATCH: &[ErrorCode] = &[
    ErrorCode::Truncated,
    ErrorCode::ChapterBit,
    ErrorCode::Length,
    ErrorCode::Capacity,
    ErrorCode::NoSuch,
    ErrorCode::Oversize,
];

/// The most rows of a section, but for a few long ones.
const MAX_ROWS: usize = 10;

/// What a batch is asked for, all but the plan and the column.
#[derive(Clone, Copy)]
struct Asked<'a> {
    section: &'a [u8],
    rows: &'a [u32],
    owner: usize,
}

/// A schema of a sound file, with its plan on both sides.
pub(super) struct Planned {
    pub(super) file: Vec<u8>,
    pub(super) number: usize,
    pub(super) columns: Vec<Column>,
    pub(super) plan: Plan,
    pub(super) numbers: PlanNumbers,
}

impl Planned {
    pub(super) fn make(file: &[u8], number: usize, run: &mut Run) -> Option<Planned> {
        let (plan, numbers) = make(file, number, run)?;
        let schemas = SchemaFile::read(file, Input::Schema).ok()?;
        Some(Planned {
            file: file.to_vec(),
            number,
            columns: schemas.columns_at(number).to_vec(),
            plan,
            numbers,
        })
    }
}

/// One section and one owner, by the plan of its schema or at times of another one: each column,
/// and some that it lacks.
pub(super) fn find_case(random: &mut Random, run: &mut Run) {
    let (file, schemas) = generate::schema_file(random);
    let index = random.below(schemas.schema_count());
    let (section, rows) = section_and_rows(random, &file, &schemas, index);
    let owner = owner(random, schemas.id_at(index));
    let asked = Asked::new(&section, &rows, owner);
    let number = match random.below(8) {
        0 => random.below(schemas.schema_count()),
        _ => index,
    };
    let Some(planned) = Planned::make(&file, number, run) else {
        return;
    };
    for column in all_and_past(random, planned.columns.len()) {
        let before = asked.spans(random);
        find(&planned, asked, column, &before, run);
    }
}

/// The same by a forged plan.
pub(super) fn forged_case(random: &mut Random, run: &mut Run) {
    let (file, schemas) = generate::schema_file(random);
    let index = random.below(schemas.schema_count());
    let (section, rows) = section_and_rows(random, &file, &schemas, index);
    let owner = owner(random, schemas.id_at(index));
    let asked = Asked::new(&section, &rows, owner);
    let Some((_, made)) = make(&file, index, run) else {
        return;
    };
    let plan = forged(random, made);
    for column in all_and_past(random, schemas.columns_at(index).len()) {
        let before = asked.spans(random);
        find_forged(&plan, asked, column, &before, run);
    }
}

/// Sections at the size limit and over it, with rows that start in them, at their end and behind
/// it.
pub(super) fn oversized(zeros: &[u8], run: &mut Run) {
    let Some(planned) = Planned::make(&SOUND, 0, run) else {
        return;
    };
    let mut far = planned.numbers;
    far.set(0, Part::GAP, u64::MAX);
    let plans = [planned.numbers, far, PlanNumbers::BLANK];
    let end = MAX_INPUT as u32;
    let tables = [
        vec![],
        vec![1, 0, 0, 0, 1, 0, end - 1, 0],
        vec![1, 0, end, 0],
        vec![1, 0, 0, 0, 1, 0, end + 1, 0],
        vec![1, 0, u32::MAX, 0],
    ];
    for section in [&zeros[..0], &zeros[..MAX_INPUT], zeros] {
        for rows in &tables {
            let asked = Asked::new(section, rows, PARENTS);
            for column in [0, 1, usize::MAX] {
                for space in [0, 3, 5] {
                    let before = vec![7; space];
                    find(&planned, asked, column, &before, run);
                    for plan in &plans {
                        find_forged(plan, asked, column, &before, run);
                    }
                }
            }
        }
    }
}

/// Finds a column on both sides by the plan of a schema, into spans that begin as `before`.
fn find(planned: &Planned, asked: Asked, column: usize, before: &[u32], run: &mut Run) {
    let Asked {
        section,
        rows,
        owner,
    } = asked;
    let mut ours = before.to_vec();
    let reading = find_column(&planned.columns, section, rows, owner, column, &mut ours);
    let mut theirs = before.to_vec();
    let numbers = &planned.numbers;
    let archive = archive::find_column(numbers, section, rows, owner, column, &mut theirs);
    let mut complaints = complaints(&reading, &archive);
    complaints.extend(span_complaints(before, &ours, &theirs, &reading));
    let mut spans = before.to_vec();
    let by_plan = planned
        .plan
        .find_column(section, rows, owner, column, &mut spans);
    if by_plan != reading || spans != ours {
        complaints.push("the reading's plan says something else".to_string());
    }
    run.judge(&FIND, &reading, &complaints, || {
        let file = shown(&planned.file);
        let asked = asked.text(column, before);
        format!("plan of {file} {}, {asked}", planned.number)
    });
}

/// Finds a column by a plan of any numbers, and looks each row up by itself. Fields lie in the
/// section.
fn find_forged(plan: &PlanNumbers, asked: Asked, column: usize, before: &[u32], run: &mut Run) {
    let Asked {
        section,
        rows,
        owner,
    } = asked;
    let look_up = |part: &[u8]| plan.look_up(part, column);
    let mut ours = before.to_vec();
    let one_by_one = find_by(look_up, section, rows, owner, &mut ours);
    let mut theirs = before.to_vec();
    let archive = archive::find_column(plan, section, rows, owner, column, &mut theirs);
    let mut complaints = complaints(&one_by_one, &archive);
    complaints.extend(span_complaints(before, &ours, &theirs, &one_by_one));
    let found = archive.map_or(0, |count| count.saturating_mul(SPAN_NUMBERS));
    let spans = &theirs[..found.min(theirs.len())];
    if !spans.chunks(SPAN_NUMBERS).all(|span| fits(span, section)) {
        complaints.push("a field is not in the section".to_string());
    }
    run.judge(&FORGED, &one_by_one, &complaints, || {
        format!("{plan:?}, {}", asked.text(column, before))
    });
}

/// True if a span lies in the section or is a mark.
fn fits(span: &[u32], section: &[u8]) -> bool {
    match *span {
        [NULL_MARK, NULL_MARK] | [CHAPTER_MARK, CHAPTER_MARK] => true,
        [start, end] => start <= end && end as usize <= section.len(),
        _ => false,
    }
}

/// Complaints about the spans of two sides that both began as `before`.
fn span_complaints(
    before: &[u32],
    ours: &[u32],
    theirs: &[u32],
    found: &Result<usize, Error>,
) -> Vec<String> {
    let filled = found.as_ref().map(|count| SPAN_NUMBERS * count);
    filled_complaints(before, ours, theirs, 0, &filled, shown_numbers)
}

/// A section with rows of one schema and others, and its table. Either may be wrong.
pub(super) fn section_and_rows(
    random: &mut Random,
    file: &[u8],
    schemas: &SchemaFile,
    index: usize,
) -> (Vec<u8>, Vec<u32>) {
    let mut section = Section::default();
    // At times about as many rows as the archive holds on its way; it goes over more twice.
    let many = random.one_in(256);
    let rows = if many {
        random.between(HELD - 2, HELD + 3)
    } else {
        random.below(MAX_ROWS + 1)
    };
    for _ in 0..rows {
        if many {
            section.add_row(random, file, schemas, index);
            continue;
        }
        let any = random.below(schemas.schema_count());
        let number = random.pick(&[index, index, any]);
        section.add_row(random, file, schemas, number);
    }
    let (mut section, mut rows) = section.end();
    if random.one_in(3) {
        damage(random, &mut section);
    }
    if random.one_in(3) {
        forge_rows(random, &mut rows, section.len() as u32);
    }
    (section, rows)
}

impl<'a> Asked<'a> {
    fn new(section: &'a [u8], rows: &'a [u32], owner: usize) -> Asked<'a> {
        Asked {
            section,
            rows,
            owner,
        }
    }

    /// Spans before a call: often around as many as the rows need.
    fn spans(&self, random: &mut Random) -> Vec<u32> {
        let is_owned = |row: &&[u32]| owner_of(row) == self.owner;
        let rows = self.rows.chunks_exact(ROW_NUMBERS).filter(is_owned).count();
        let space = capacity(random, SPAN_NUMBERS * rows);
        (0..space).map(|_| random.bits() as u32).collect()
    }

    fn text(&self, column: usize, before: &[u32]) -> String {
        let (section, rows) = (shown(self.section), shown_numbers(self.rows));
        format!("{section} {rows} {} {column} {}", self.owner, before.len())
    }
}

/// The owner of the rows with this id, or at times another one: near it, the same if high bits
/// are lost, the parent instead of a child, any.
pub(super) fn owner(random: &mut Random, id: Option<u32>) -> usize {
    let own = id.map_or(PARENTS, |id| id as usize);
    if !random.one_in(12) {
        return own;
    }
    let any = random.bits() as usize;
    let lost = [own ^ 1 << 32, own ^ 1 << 63, own & 0xFFFF_FFFF];
    let near = [own.wrapping_add(1), own.wrapping_sub(1)];
    let [lost, near] = [random.pick(&lost), random.pick(&near)];
    random.pick(&[lost, near, 0, 1, PARENTS, any])
}

/// Makes a table another one: cut anywhere, with more behind it, a row twice, numbers changed.
fn forge_rows(random: &mut Random, rows: &mut Vec<u32>, section: u32) {
    match random.below(8) {
        0 | 1 => rows.truncate(random.below(rows.len() + 1)),
        2 => {
            let more = random.between(1, ROW_NUMBERS + 1);
            rows.extend((0..more).map(|_| random.below(40) as u32));
        }
        3 => {
            let twice = random.below(rows.len() / ROW_NUMBERS + 1) * ROW_NUMBERS;
            let row: Vec<u32> = rows.iter().skip(twice).take(ROW_NUMBERS).copied().collect();
            rows.extend(row);
        }
        _ if rows.is_empty() => {}
        _ => {
            for _ in 0..random.between(1, 3) {
                let at = random.below(rows.len());
                rows[at] = other_number(random, rows[at], section);
            }
        }
    }
}

/// Another number in a table: a kind, a near one, one at the section's end, one with a high bit
/// turned, any.
fn other_number(random: &mut Random, old: u32, section: u32) -> u32 {
    let kind = random.below(6) as u32;
    let near = random.pick(&[old.wrapping_add(1), old.wrapping_sub(1)]);
    let end = random.pick(&[section.saturating_sub(1), section, section + 1]);
    let turned = old ^ 1 << random.pick(&[8, 16, 24, 31]);
    let any = random.bits() as u32;
    let inside = random.below(section as usize + 1) as u32;
    random.pick(&[kind, near, end, turned, inside, u32::MAX, any])
}
