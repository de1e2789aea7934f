//! Trials of pages: one column of the rows of one owner, page by page. Through a plan that was made
//! each page is held against the reading's walk, through a forged one against its look-ups. All
//! pages together are held against look-ups of both sides, row by row.

use super::batches::{owner, section_and_rows, Planned};
use super::forged::forged;
use super::plans::make;
use super::schema::SOUND;
use super::{all_and_past, complaints, filled_complaints, Call, Run};
use crate::archive::{self, Fault, Reply};
use crate::generate;
use crate::random::Random;
use crate::reading::batch::{owner_of, CHAPTER_MARK, NULL_MARK, PARENTS};
use crate::reading::numbers::{Part, PlanNumbers};
use crate::reading::page::{list_by, page_by, walk, Asked, Page, Span, PAGE_SPAN_NUMBERS};
use crate::reading::row::Answer;
use crate::reading::section::ROW_NUMBERS;
use crate::reading::{Error, ErrorCode, Input, MAX_INPUT};
use crate::text::{shown, shown_numbers};

static PAGE: Call = Call {
    name: "find_page",
    codes: OF_PAGE,
};
static PAGES: Call = Call {
    name: "find_page, all pages",
    codes: OF_ROWS,
};
static FORGED_PAGE: Call = Call {
    name: "forged find_page",
    codes: OF_PAGE,
};
static FORGED_PAGES: Call = Call {
    name: "forged find_page, all pages",
    codes: OF_ROWS,
};

const OF_PAGE: &[ErrorCode] = &[
    ErrorCode::Truncated,
    ErrorCode::ChapterBit,
    ErrorCode::Length,
    ErrorCode::NoSuch,
    ErrorCode::Oversize,
];
const OF_ROWS: &[ErrorCode] = &[
    ErrorCode::Truncated,
    ErrorCode::ChapterBit,
    ErrorCode::Length,
    ErrorCode::NoSuch,
];

/// A plan, and what the reading finds in a row by it.
trait Subject {
    /// The calls that a page and all pages by it are counted under.
    fn calls(&self) -> [&'static Call; 2];

    fn numbers(&self) -> &PlanNumbers;

    fn look_up(&self, part: &[u8], column: usize) -> Result<Answer, Error>;

    /// What the reading has to say about itself: a page found in another way.
    fn own_complaints(&self, asked: &Asked, before: &[u32], found: &Found) -> Vec<String>;

    fn text(&self) -> String;
}

/// What the reading's page answers, and the spans after the call.
type Found = (Result<Page, Error>, Vec<u32>);

/// The same of the archive.
struct Told {
    page: Reply<Page>,
    spans: Vec<u32>,
}

impl Subject for Planned {
    fn calls(&self) -> [&'static Call; 2] {
        [&PAGE, &PAGES]
    }

    fn numbers(&self) -> &PlanNumbers {
        &self.numbers
    }

    fn look_up(&self, part: &[u8], column: usize) -> Result<Answer, Error> {
        walk(&self.columns, column)(part)
    }

    fn own_complaints(&self, asked: &Asked, before: &[u32], found: &Found) -> Vec<String> {
        let mut spans = before.to_vec();
        let by_plan = (self.plan.find_page(asked, &mut spans), spans);
        if by_plan == *found {
            return Vec::new();
        }
        vec!["the reading's plan says something else".to_string()]
    }

    fn text(&self) -> String {
        format!("plan of {} {}", shown(&self.file), self.number)
    }
}

/// A plan of any numbers.
impl Subject for PlanNumbers {
    fn calls(&self) -> [&'static Call; 2] {
        [&FORGED_PAGE, &FORGED_PAGES]
    }

    fn numbers(&self) -> &PlanNumbers {
        self
    }

    fn look_up(&self, part: &[u8], column: usize) -> Result<Answer, Error> {
        PlanNumbers::look_up(self, part, column)
    }

    fn own_complaints(&self, _: &Asked, _: &[u32], _: &Found) -> Vec<String> {
        Vec::new()
    }

    fn text(&self) -> String {
        format!("{self:?}")
    }
}

/// One section and one owner, by the plan of its schema or at times of another one: each column,
/// and some that it lacks.
pub(super) fn find_case(random: &mut Random, run: &mut Run) {
    let (file, schemas) = generate::schema_file(random);
    let index = random.below(schemas.schema_count());
    let (section, table) = section_and_rows(random, &file, &schemas, index);
    let owner = owner(random, schemas.id_at(index));
    let number = match random.below(8) {
        0 => random.below(schemas.schema_count()),
        _ => index,
    };
    let Some(planned) = Planned::make(&file, number, run) else {
        return;
    };
    let all = Asked::all(&section, &table, owner);
    find_columns(random, &planned, all, planned.columns.len(), run);
}

/// The same by a forged plan.
pub(super) fn forged_case(random: &mut Random, run: &mut Run) {
    let (file, schemas) = generate::schema_file(random);
    let index = random.below(schemas.schema_count());
    let (section, table) = section_and_rows(random, &file, &schemas, index);
    let owner = owner(random, schemas.id_at(index));
    let Some((_, made)) = make(&file, index, run) else {
        return;
    };
    let plan = forged(random, made);
    let all = Asked::all(&section, &table, owner);
    find_columns(random, &plan, all, schemas.columns_at(index).len(), run);
}

/// Each column of so many, and some past them: a page from anywhere on, and all pages.
fn find_columns(
    random: &mut Random,
    subject: &impl Subject,
    all: Asked,
    columns: usize,
    run: &mut Run,
) {
    for column in all_and_past(random, columns) {
        let asked = part(random, Asked { column, ..all });
        let before = spans(random, &asked);
        find(subject, &asked, &before, run);
        let fewer = random.below(all.rows + 1);
        let rows = random.pick(&[all.rows, all.rows, fewer]);
        let later = random.below(rows + 1);
        let from = random.pick(&[0, 0, later]);
        let asked = Asked {
            rows,
            from,
            column,
            ..all
        };
        find_all(random, subject, asked, run);
    }
}

/// Sections at the size limit and over it, with rows that start in them, at their end and behind
/// it, and with numbers of rows at limits.
pub(super) fn oversized(zeros: &[u8], run: &mut Run) {
    let Some(planned) = Planned::make(&SOUND, 0, run) else {
        return;
    };
    let mut far = planned.numbers;
    far.set(0, Part::GAP, u64::MAX);
    let plans = [planned.numbers, far, PlanNumbers::BLANK];
    let end = MAX_INPUT as u32;
    let tables = [
        vec![],
        vec![1, 0, 0, 0, 1, 0, end - 1, 0],
        vec![1, 0, end, 0],
        vec![1, 0, 0, 0, 1, 0, end + 1, 0],
        vec![1, 0, u32::MAX, 0],
    ];
    for section in [&zeros[..0], &zeros[..MAX_INPUT], zeros] {
        for table in &tables {
            let all = Asked::all(section, table, PARENTS);
            for (rows, from) in [(all.rows, 0), (all.rows, 1), (3, 4), (1 << 62, 0)] {
                for column in [0, 1, usize::MAX] {
                    for space in [0, 3, 7] {
                        let before = vec![7; space];
                        let asked = Asked {
                            rows,
                            from,
                            column,
                            ..all
                        };
                        find(&planned, &asked, &before, run);
                        for plan in &plans {
                            find(plan, &asked, &before, run);
                        }
                    }
                }
            }
        }
    }
}

/// Finds a page on both sides, into spans that begin as `before`. Answers what the archive says, and
/// its spans.
fn find(subject: &impl Subject, asked: &Asked, before: &[u32], run: &mut Run) -> Told {
    let mut ours = before.to_vec();
    let look_up = |part: &[u8]| subject.look_up(part, asked.column);
    let reading = page_by(look_up, asked, &mut ours);
    let mut theirs = before.to_vec();
    let archive = archive::find_page(subject.numbers(), asked, &mut theirs);
    let mut complaints = complaints(&reading, &archive);
    let filled = reading.as_ref().map(|page| PAGE_SPAN_NUMBERS * page.spans);
    complaints.extend(filled_complaints(
        before,
        &ours,
        &theirs,
        0,
        &filled,
        shown_numbers,
    ));
    if let Ok(page) = &archive {
        let filled = page
            .spans
            .saturating_mul(PAGE_SPAN_NUMBERS)
            .min(theirs.len());
        let spans = theirs[..filled].chunks(PAGE_SPAN_NUMBERS);
        if !spans.into_iter().all(|span| fits(span, asked)) {
            complaints.push("a span is not in the section or not of the rows".to_string());
        }
        let gets_on = page.next > asked.from || asked.from == asked.rows;
        if before.len() >= PAGE_SPAN_NUMBERS && !gets_on {
            complaints.push("the page does not get on".to_string());
        }
    }
    let found = (reading, ours);
    complaints.extend(subject.own_complaints(asked, before, &found));
    let [call, _] = subject.calls();
    run.judge(call, &reading, &complaints, || {
        format!("{}, {}", subject.text(), asked_text(asked, before))
    });
    Told {
        page: archive,
        spans: theirs,
    }
}

/// Goes over all pages, each with other room. They have what look-ups of each side find row by row.
fn find_all(random: &mut Random, subject: &impl Subject, asked: Asked, run: &mut Run) {
    let column = asked.column;
    let (pages, error, turned) = turn(random, subject, asked, run);
    let by_reading = list_by(|part| subject.look_up(part, column), &asked);
    let by_archive = list_by(
        |part| {
            let found = archive::planned_look_up(subject.numbers(), part, column);
            // A reply without a meaning is no error of any look-up.
            let none = Error::new(ErrorCode::Capacity, 0, Input::Only);
            found.map_err(|fault| match fault {
                Fault::Error(error) => error,
                Fault::Malformed(_) => none,
            })
        },
        &asked,
    );
    let mut complaints = Vec::new();
    let paged = (pages, error);
    for (side, list) in [("reading", &by_reading), ("archive", &by_archive)] {
        if !turned || paged != *list {
            complaints.push(format!("{side}, row by row: {}", list_text(list)));
        }
    }
    if !complaints.is_empty() {
        complaints.push(format!("archive, page by page: {}", list_text(&paged)));
    }
    let (list, error) = by_reading;
    let answer = error.map_or(Ok(list.len()), Err);
    let [_, call] = subject.calls();
    run.judge(call, &answer, &complaints, || {
        format!("{}, {}", subject.text(), asked_text(&asked, &[]))
    });
}

/// The spans of all pages, the error that ends them, and whether they came to an end.
fn turn(
    random: &mut Random,
    subject: &impl Subject,
    mut asked: Asked,
    run: &mut Run,
) -> (Vec<Span>, Option<Error>, bool) {
    let mut pages = Vec::new();
    // A page without room is followed by one that gets on.
    for turn in 0..=2 * asked.rows {
        let mut before = spans(random, &asked);
        if turn % 2 == 1 && before.len() < PAGE_SPAN_NUMBERS {
            before.resize(PAGE_SPAN_NUMBERS, 7);
        }
        let told = find(subject, &asked, &before, run);
        match told.page {
            Ok(page) => {
                let spans = told.spans.as_chunks().0;
                pages.extend(spans.iter().copied().take(page.spans));
                asked.from = page.next;
            }
            Err(Fault::Error(error)) => return (pages, Some(error), true),
            Err(Fault::Malformed(_)) => return (pages, None, false),
        }
        if asked.from >= asked.rows {
            return (pages, None, true);
        }
    }
    (pages, None, false)
}

/// True if a span lies in the section or is a mark, and its row is one that is asked for.
fn fits(span: &[u32], asked: &Asked) -> bool {
    let [row, start, end] = *span else {
        return false;
    };
    let is_mark = start == end && [NULL_MARK, CHAPTER_MARK].contains(&start);
    let is_field = start <= end && end as usize <= asked.section.len();
    let rows = asked.from..asked.rows;
    (is_mark || is_field) && rows.contains(&(row as usize))
}

impl<'a> Asked<'a> {
    /// The first column of all rows of an owner.
    fn all(section: &'a [u8], table: &'a [u32], owner: usize) -> Asked<'a> {
        Asked {
            section,
            table,
            rows: table.len() / ROW_NUMBERS,
            from: 0,
            owner,
            column: 0,
        }
    }
}

/// The same from any row on, at times with fewer rows, with more than the table has, or from behind
/// the last.
fn part<'a>(random: &mut Random, all: Asked<'a>) -> Asked<'a> {
    let fewer = random.below(all.rows + 1);
    let more = all.rows + random.pick(&[1, 1, 300, 1 << 32, 1 << 62, 1 << 63]);
    let rows = match random.below(16) {
        0..3 => fewer,
        3 => random.pick(&[more, more, usize::MAX]),
        _ => all.rows,
    };
    let inside = random.below(rows.min(all.rows) + 1);
    let behind = rows.wrapping_add(random.pick(&[1, 1, 300, 1 << 32, 1 << 63]));
    let from = match random.below(16) {
        0 => rows,
        1 => random.pick(&[behind, behind, usize::MAX]),
        2..6 => 0,
        _ => inside,
    };
    Asked { rows, from, ..all }
}

/// Spans before a call: none, few, around as many as the rows need, or more; and at times a part of
/// one more.
fn spans(random: &mut Random, asked: &Asked) -> Vec<u32> {
    let rows = asked.table.chunks_exact(ROW_NUMBERS).take(asked.rows);
    let own = rows
        .skip(asked.from)
        .filter(|row| owner_of(row) == asked.owner);
    let need = own.count();
    let room = match random.below(8) {
        0 => 0,
        1 | 2 => random.between(1, 2),
        3 | 4 => random.between(need.saturating_sub(1), need + 1),
        5 => random.below(need + 1),
        _ => need + random.below(10),
    };
    let space = PAGE_SPAN_NUMBERS * room + random.below(PAGE_SPAN_NUMBERS);
    (0..space).map(|_| random.bits() as u32).collect()
}

fn asked_text(asked: &Asked, before: &[u32]) -> String {
    let Asked {
        rows,
        from,
        owner,
        column,
        ..
    } = asked;
    let (section, table) = (shown(asked.section), shown_numbers(asked.table));
    let space = before.len();
    format!("{section} {table} {rows} {from} {owner} {column} {space}")
}

/// Spans, and the error that they end with.
fn list_text((list, error): &(Vec<Span>, Option<Error>)) -> String {
    format!("{} {error:?}", shown_numbers(list.as_flattened()))
}
