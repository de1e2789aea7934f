//! How long it takes to find one column in all rows of one owner: by the archive's pages, by the
//! iterator of the crate, by one look-up of the archive for each row, and by the reading's pages
//! through its own plan. All in one process, on the same section and table, and all hand on the same
//! spans: row, start and end, up to 256 of them at a time.

use std::hint::black_box;
use std::time::Instant;

use adtg::{Answer, Owner};

use super::median;
use super::sections::{self, Rows, BYTES_OF_SECTION};
use crate::reading::batch::{owner_of, CHAPTER_MARK, NULL_MARK};
use crate::reading::page::{self, Span, PAGE_SPAN_NUMBERS};
use crate::reading::plan::{make_plan, Plan};
use crate::reading::section::ROW_NUMBERS;
use crate::reading::Error;
use crate::text::Text;
use crate::Totals;

/// How many rounds a case has. In a round each way finds the column; another way comes first in the
/// next.
const ROUNDS: usize = 31;

/// How many spans are handed on at a time.
const PAGE_SPANS: usize = 256;

/// How many rows small sections have.
const SMALL: [usize; 4] = [1, 4, 16, 64];

/// How many rows the copies of a small section have together, and how many a round goes over. The
/// copies lie at other places each, since some places are slower for one way or the other.
const ROWS_OF_COPIES: usize = 128;
const ROWS_OF_ROUND: usize = 8_192;

/// What is asked of a section: whose rows, by which schema of its file, and which column.
struct Asked {
    owner: Owner,
    number: usize,
    column: usize,
}

impl Asked {
    const fn new(owner: Owner, number: usize, column: usize) -> Asked {
        Asked {
            owner,
            number,
            column,
        }
    }

    /// The last column that is no chapter, of each owner; of wide rows the first one too.
    fn of(rows: Rows) -> &'static [Asked] {
        match rows {
            Rows::Short => const { &[Asked::new(Owner::Parents, 0, 2)] },
            Rows::Wide => {
                const {
                    &[
                        Asked::new(Owner::Parents, 0, 0),
                        Asked::new(Owner::Parents, 0, 29),
                    ]
                }
            }
            Rows::Nested | Rows::Page => {
                const {
                    &[
                        Asked::new(Owner::Parents, 0, 5),
                        Asked::new(Owner::Child(7), 1, 4),
                        Asked::new(Owner::Child(8), 2, 3),
                    ]
                }
            }
        }
    }

    fn owner_text(&self) -> String {
        match self.owner {
            Owner::Parents => "parents".to_string(),
            Owner::Child(id) => format!("child {id}"),
        }
    }
}

/// What is asked, with all that the sides need for it.
struct Case<'a> {
    name: &'a str,
    asked: &'a Asked,
    copies: Vec<Copy<'a>>,
    plan: Plan,
    archive_plan: adtg::Plan,
    /// How often a way goes over a copy of the section in a round.
    times: usize,
}

/// A section and its table, which lie anywhere.
struct Copy<'a> {
    section: &'a [u8],
    table: &'a [u32],
    rows: adtg::Rows<'a>,
}

/// The ways to find the column, in the order of the table.
#[derive(Clone, Copy)]
enum Way {
    Pages,
    Iterator,
    OneByOne,
    Reading,
}

const WAYS: [Way; 4] = [Way::Pages, Way::Iterator, Way::OneByOne, Way::Reading];

/// Measures all cases and prints the table. Sides that do not agree are not measured.
pub fn run() -> Result<Totals, String> {
    let mut totals = Totals::default();
    println!(
        "Finding one column in sections of {BYTES_OF_SECTION} bytes, in a page of rows and in"
    );
    println!("small sections: nanoseconds for a row of the owner (medians of {ROUNDS} rounds):\n");
    println!("{}", head());
    each_case(None, |case| {
        let of_case = compare(case);
        totals.cases += of_case.cases;
        totals.differ += of_case.differ;
        if of_case.differ == 0 {
            println!("{}", line(case, measure(case)));
        }
    })?;
    println!();
    Ok(totals)
}

/// Finds the columns once in each way, in all sections or in those of this name: for a tool that
/// counts instructions.
pub fn count(only: Option<&str>) -> Result<Totals, String> {
    let mut totals = Totals::default();
    each_case(only, |case| {
        let of_case = compare(case);
        totals.cases += of_case.cases;
        totals.differ += of_case.differ;
        let (name, owner, column) = (case.name, case.asked.owner_text(), case.asked.column);
        let count = case.count();
        println!("{name}, {owner}, column {column}: {count} rows a way");
    })?;
    if totals.cases == 0 {
        return Err("there is no such case".to_string());
    }
    Ok(totals)
}

/// Makes each case, or those of this name, and hands it on.
fn each_case(only: Option<&str>, mut each: impl FnMut(&Case)) -> Result<(), String> {
    for rows in Rows::ALL {
        if only.is_none_or(|only| only == rows.name()) {
            let of_section = sections::Case::new(rows)?;
            each_asked(
                rows,
                rows.name(),
                &of_section,
                (1, rows.size().1),
                &mut each,
            )?;
        }
    }
    for rows in [Rows::Short, Rows::Wide, Rows::Nested] {
        for count in SMALL {
            let name = format!("{} {count}", rows.name());
            if only.is_none_or(|only| only == name) {
                let of_section = sections::Case::small(rows, count)?;
                let copies = (ROWS_OF_COPIES / count, ROWS_OF_ROUND / count);
                each_asked(rows, &name, &of_section, copies, &mut each)?;
            }
        }
    }
    Ok(())
}

/// Hands on all that is asked of a section, but for owners without a row. There are so many copies of
/// the section, and a round goes over so many.
fn each_asked(
    rows: Rows,
    name: &str,
    of_section: &sections::Case,
    (copies, times): (usize, usize),
    each: &mut impl FnMut(&Case),
) -> Result<(), String> {
    let sections = of_section.section.repeat(copies);
    let sections = sections.chunks_exact(of_section.section.len());
    let tables = of_section.wanted.repeat(copies);
    let tables = tables.chunks_exact(of_section.wanted.len());
    for asked in Asked::of(rows) {
        let (file, number) = (&of_section.file, asked.number);
        let copy = |(section, table)| {
            let rows = adtg::Rows::from_numbers(table).ok_or("the table has no rows")?;
            Ok(Copy {
                section,
                table,
                rows,
            })
        };
        let copies: Result<Vec<Copy>, String> =
            sections.clone().zip(tables.clone()).map(copy).collect();
        let case = Case {
            name,
            asked,
            copies: copies?,
            plan: make_plan(file, number).map_err(|error| error.text())?,
            archive_plan: adtg::Plan::make(file, number).map_err(|error| error.to_string())?,
            times,
        };
        if case.count() > 0 {
            each(&case);
        }
    }
    Ok(())
}

/// The ways: each puts the spans of all rows into the sink.
impl Case<'_> {
    #[inline(never)]
    fn by_pages(&self, copy: &Copy, sink: &mut Sink<impl FnMut(&[u32])>) -> Result<(), Error> {
        let Asked { owner, column, .. } = *self.asked;
        let mut from = 0;
        while from < copy.rows.len() {
            let buffer = sink.page.as_flattened_mut();
            let plan = &self.archive_plan;
            let page = plan.find_page(copy.section, copy.rows, from, owner, column, buffer)?;
            from = page.next;
            sink.count = page.spans.len();
            sink.hand_on();
        }
        Ok(())
    }

    #[inline(never)]
    fn by_iterator(&self, copy: &Copy, sink: &mut Sink<impl FnMut(&[u32])>) -> Result<(), Error> {
        let Asked { owner, column, .. } = *self.asked;
        let plan = &self.archive_plan;
        for found in plan.column_spans(copy.section, copy.rows, owner, column) {
            let (row, span) = found?;
            let row = row as u32;
            let span = match span {
                adtg::Span::Field { start, end } => [row, start as u32, end as u32],
                adtg::Span::Null => [row, NULL_MARK, NULL_MARK],
                adtg::Span::Chapter => [row, CHAPTER_MARK, CHAPTER_MARK],
            };
            sink.add(span);
        }
        sink.hand_on();
        Ok(())
    }

    #[inline(never)]
    fn one_by_one(&self, copy: &Copy, sink: &mut Sink<impl FnMut(&[u32])>) -> Result<(), Error> {
        let (owner, column) = (self.asked.owner.number(), self.asked.column);
        for (number, row) in copy.table.chunks_exact(ROW_NUMBERS).enumerate() {
            if owner_of(row) != owner {
                continue;
            }
            let (number, start) = (number as u32, row[2]);
            let part = &copy.section[start as usize..];
            let span = match self.archive_plan.look_up(part, column)? {
                Answer::Field {
                    start: from, end, ..
                } => [number, start + from as u32, start + end as u32],
                Answer::Null => [number, NULL_MARK, NULL_MARK],
                Answer::Chapter => [number, CHAPTER_MARK, CHAPTER_MARK],
            };
            sink.add(span);
        }
        sink.hand_on();
        Ok(())
    }

    #[inline(never)]
    fn by_reading(&self, copy: &Copy, sink: &mut Sink<impl FnMut(&[u32])>) -> Result<(), Error> {
        let mut asked = page::Asked {
            section: copy.section,
            table: copy.table,
            rows: copy.rows.len(),
            from: 0,
            owner: self.asked.owner.number(),
            column: self.asked.column,
        };
        while asked.from < asked.rows {
            let buffer = sink.page.as_flattened_mut();
            let page = self.plan.find_page(&asked, buffer)?;
            asked.from = page.next;
            sink.count = page.spans;
            sink.hand_on();
        }
        Ok(())
    }

    fn find(
        &self,
        way: Way,
        copy: &Copy,
        sink: &mut Sink<impl FnMut(&[u32])>,
    ) -> Result<(), Error> {
        match way {
            Way::Pages => self.by_pages(copy, sink),
            Way::Iterator => self.by_iterator(copy, sink),
            Way::OneByOne => self.one_by_one(copy, sink),
            Way::Reading => self.by_reading(copy, sink),
        }
    }

    /// How many rows the owner has in the section.
    fn count(&self) -> usize {
        let owner = self.asked.owner.number();
        let rows = self.copies[0].table.chunks_exact(ROW_NUMBERS);
        rows.filter(|row| owner_of(row) == owner).count()
    }
}

/// Where the spans go: a page that is handed on when it is full, and at the end.
struct Sink<F> {
    page: [Span; PAGE_SPANS],
    count: usize,
    each: F,
}

impl<F: FnMut(&[u32])> Sink<F> {
    fn new(each: F) -> Sink<F> {
        Sink {
            page: [[0; PAGE_SPAN_NUMBERS]; PAGE_SPANS],
            count: 0,
            each,
        }
    }

    #[inline]
    fn add(&mut self, span: Span) {
        self.page[self.count] = span;
        self.count += 1;
        if self.count == PAGE_SPANS {
            self.hand_on();
        }
    }

    #[inline]
    fn hand_on(&mut self) {
        (self.each)(self.page[..self.count].as_flattened());
        self.count = 0;
    }
}

/// Finds the column once in each way; all find the same, and as many spans as the owner has rows.
fn compare(case: &Case) -> Totals {
    let found = WAYS.map(|way| {
        let mut spans: Vec<u32> = Vec::new();
        let mut sink = Sink::new(|page: &[u32]| spans.extend(page));
        let copies = case.copies.iter();
        let answers: Vec<_> = copies.map(|copy| case.find(way, copy, &mut sink)).collect();
        (answers, spans)
    });
    let wanted = PAGE_SPAN_NUMBERS * case.count() * case.copies.len();
    let (answers, spans) = &found[0];
    let is_whole = answers.iter().all(Result::is_ok) && spans.len() == wanted;
    let differ = !is_whole || found.iter().any(|way| *way != found[0]);
    if differ {
        println!("{}: {wanted} numbers are wanted", case.name);
        for (answers, spans) in &found {
            println!("  {}, {} numbers", answers[0].text(), spans.len());
        }
    }
    Totals {
        cases: 1,
        differ: u64::from(differ),
    }
}

/// The medians of the ways, in nanoseconds for a row of the owner.
fn measure(case: &Case) -> [f64; WAYS.len()] {
    let count = (case.count() * case.times) as f64;
    let mut sink = Sink::new(|page: &[u32]| {
        black_box(page);
    });
    let mut rounds: [Vec<f64>; WAYS.len()] = Default::default();
    for round in 0..ROUNDS {
        for turn in 0..WAYS.len() {
            let index = (round + turn) % WAYS.len();
            let started = Instant::now();
            for copy in case.copies.iter().cycle().take(case.times) {
                let _ = black_box(case.find(WAYS[index], black_box(copy), &mut sink));
            }
            rounds[index].push(started.elapsed().as_nanos() as f64 / count);
        }
    }
    rounds.map(median)
}

/// The two lines above the table.
fn head() -> String {
    let sides = format!(
        "{:34}{:>9}{:>10}{:>12}{:>9}{:>20}",
        "", "archive", "archive", "archive", "reading", "batch /"
    );
    let ways = format!(
        "{:<10}{:<9}{:>6}{:>9}{:>9}{:>10}{:>12}{:>9}{:>12}{:>9}",
        "rows",
        "owner",
        "column",
        "count",
        "batch",
        "iterator",
        "one by one",
        "batch",
        "one by one",
        "reading"
    );
    format!("{sides}\n{ways}")
}

/// A line of the table.
fn line(case: &Case, medians: [f64; WAYS.len()]) -> String {
    let [batch, iterator, one_by_one, reading] = medians;
    format!(
        "{:<10}{:<9}{:>6}{:>9}{batch:>9.1}{iterator:>10.1}{one_by_one:>12.1}{reading:>9.1}{:>12.2}{:>9.2}",
        case.name,
        case.asked.owner_text(),
        case.asked.column,
        case.count(),
        batch / one_by_one,
        batch / reading
    )
}
