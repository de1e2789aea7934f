//! How long it takes to find one column in all rows of one owner: by the archive's batch, by one
//! look-up of the archive for each row, and by the reading's batch through its own plan. All in
//! one process, on the same section and table.

use std::hint::black_box;
use std::time::Instant;

use adtg::{Answer, Owner};

use super::median;
use super::sections::{self, Rows, BYTES_OF_SECTION};
use crate::reading::batch::{owner_of, CHAPTER_MARK, NULL_MARK, SPAN_NUMBERS};
use crate::reading::plan::{make_plan, Plan};
use crate::reading::section::ROW_NUMBERS;
use crate::reading::Error;
use crate::text::Text;
use crate::Totals;

/// How many rounds a case has. In a round each way finds the column once; another way comes first
/// in the next.
const ROUNDS: usize = 31;

/// What the spans hold before a call.
const BEFORE: u32 = 0xA5A5_A5A5;

/// What is asked of a section: whose rows, by which schema of its file, and which column.
struct Asked {
    owner: Owner,
    number: usize,
    column: usize,
}

impl Asked {
    const fn new(owner: Owner, number: usize, column: usize) -> Asked {
        Asked {
            owner,
            number,
            column,
        }
    }

    /// The last column that is no chapter, of each owner; of wide rows the first one too.
    fn of(rows: Rows) -> &'static [Asked] {
        match rows {
            Rows::Short => const { &[Asked::new(Owner::Parents, 0, 2)] },
            Rows::Wide => {
                const {
                    &[
                        Asked::new(Owner::Parents, 0, 0),
                        Asked::new(Owner::Parents, 0, 29),
                    ]
                }
            }
            Rows::Nested | Rows::Page => {
                const {
                    &[
                        Asked::new(Owner::Parents, 0, 5),
                        Asked::new(Owner::Child(7), 1, 4),
                        Asked::new(Owner::Child(8), 2, 3),
                    ]
                }
            }
        }
    }

    fn owner_text(&self) -> String {
        match self.owner {
            Owner::Parents => "parents".to_string(),
            Owner::Child(id) => format!("child {id}"),
        }
    }
}

/// What is asked, with all that the sides need for it.
struct Case<'a> {
    asked: &'a Asked,
    section: &'a [u8],
    rows: &'a [u32],
    plan: Plan,
    archive_plan: adtg::Plan,
}

/// The three ways, in the order of the table.
const WAYS: usize = 3;

/// Measures all cases and prints the table. Sides that do not agree are not measured.
pub fn run() -> Result<Totals, String> {
    let mut totals = Totals::default();
    println!("Finding one column in sections of {BYTES_OF_SECTION} bytes and in a page of rows:");
    println!("nanoseconds for a row of the owner (medians of {ROUNDS} rounds):\n");
    println!("{}", head());
    each_case(None, |rows, case| {
        let of_case = compare(rows, case);
        totals.cases += of_case.cases;
        totals.differ += of_case.differ;
        if of_case.differ == 0 {
            println!("{}", line(rows, case, measure(case, rows.size().1)));
        }
    })?;
    println!();
    Ok(totals)
}

/// Finds the columns once in each way, in all sections or in the one of this name: for a tool that
/// counts instructions.
pub fn count(only: Option<&str>) -> Result<Totals, String> {
    let mut totals = Totals::default();
    each_case(only, |rows, case| {
        let of_case = compare(rows, case);
        totals.cases += of_case.cases;
        totals.differ += of_case.differ;
        let (owner, column) = (case.asked.owner_text(), case.asked.column);
        let count = case.count();
        println!(
            "{}, {owner}, column {column}: {count} rows a way",
            rows.name()
        );
    })?;
    if totals.cases == 0 {
        return Err("there is no such case".to_string());
    }
    Ok(totals)
}

/// Makes each case, or those of one section, and hands it on.
fn each_case(only: Option<&str>, mut each: impl FnMut(Rows, &Case)) -> Result<(), String> {
    for rows in Rows::ALL {
        if only.is_some_and(|only| only != rows.name()) {
            continue;
        }
        let of_section = sections::Case::new(rows)?;
        for asked in Asked::of(rows) {
            let (file, number) = (&of_section.file, asked.number);
            let plan = make_plan(file, number).map_err(|error| error.text())?;
            let archive_plan = adtg::Plan::make(file, number).map_err(|error| error.to_string())?;
            let case = Case {
                asked,
                section: &of_section.section,
                rows: &of_section.wanted,
                plan,
                archive_plan,
            };
            each(rows, &case);
        }
    }
    Ok(())
}

/// The ways to find the column: how many spans stand in `spans`. None is inlined, as a call of the
/// archive cannot be.
impl Case<'_> {
    #[inline(never)]
    fn archive_batch(&self, spans: &mut [u32]) -> Result<usize, Error> {
        let Asked { owner, column, .. } = *self.asked;
        let plan = &self.archive_plan;
        let found = plan.find_column(self.section, self.rows, owner, column, spans);
        found.map(|spans| spans.len()).map_err(Error::from)
    }

    #[inline(never)]
    fn archive_one_by_one(&self, spans: &mut [u32]) -> Result<usize, Error> {
        let owner = self.asked.owner.number();
        let mut room = spans.chunks_exact_mut(SPAN_NUMBERS);
        let mut count = 0;
        for row in self.rows.chunks_exact(ROW_NUMBERS) {
            if owner_of(row) != owner {
                continue;
            }
            let start = row[2];
            let part = &self.section[start as usize..];
            let span = match self.archive_plan.look_up(part, self.asked.column)? {
                Answer::Field {
                    start: from, end, ..
                } => [start + from as u32, start + end as u32],
                Answer::Null => [NULL_MARK; SPAN_NUMBERS],
                Answer::Chapter => [CHAPTER_MARK; SPAN_NUMBERS],
            };
            if let Some(free) = room.next() {
                free.copy_from_slice(&span);
            }
            count += 1;
        }
        Ok(count)
    }

    #[inline(never)]
    fn reading_batch(&self, spans: &mut [u32]) -> Result<usize, Error> {
        let (owner, column) = (self.asked.owner.number(), self.asked.column);
        let plan = &self.plan;
        plan.find_column(self.section, self.rows, owner, column, spans)
    }

    fn find(&self, way: usize, spans: &mut [u32]) -> Result<usize, Error> {
        match way {
            0 => self.archive_batch(spans),
            1 => self.archive_one_by_one(spans),
            _ => self.reading_batch(spans),
        }
    }

    /// How many rows the owner has.
    fn count(&self) -> usize {
        let owner = self.asked.owner.number();
        let rows = self.rows.chunks_exact(ROW_NUMBERS);
        rows.filter(|row| owner_of(row) == owner).count()
    }

    /// Room for all spans.
    fn spans(&self) -> Vec<u32> {
        vec![BEFORE; SPAN_NUMBERS * self.count()]
    }
}

/// Finds the column once in each way; all find the same.
fn compare(rows: Rows, case: &Case) -> Totals {
    let found: Vec<_> = (0..WAYS)
        .map(|way| {
            let mut spans = case.spans();
            (case.find(way, &mut spans), spans)
        })
        .collect();
    let wanted = Ok(case.count());
    let differ = found.iter().any(|way| *way != found[0]) || found[0].0 != wanted;
    if differ {
        let answers: Vec<String> = found.iter().map(|(answer, _)| answer.text()).collect();
        println!("{}: {} rows are wanted", rows.name(), case.count());
        println!("  archive, one by one, reading: {}", answers.join(", "));
    }
    Totals {
        cases: 1,
        differ: u64::from(differ),
    }
}

/// The medians of the ways, in nanoseconds for a row of the owner.
fn measure(case: &Case, times: usize) -> [f64; WAYS] {
    let mut spans = case.spans();
    let count = (case.count() * times) as f64;
    let mut rounds: [Vec<f64>; WAYS] = Default::default();
    for round in 0..ROUNDS {
        for turn in 0..WAYS {
            let way = (round + turn) % WAYS;
            let started = Instant::now();
            for _ in 0..times {
                let _ = black_box(black_box(case).find(way, black_box(&mut spans)));
            }
            rounds[way].push(started.elapsed().as_nanos() as f64 / count);
        }
    }
    rounds.map(median)
}

/// The two lines above the table.
fn head() -> String {
    let sides = format!(
        "{:32}{:>9}{:>12}{:>9}{:>20}",
        "", "archive", "archive", "reading", "batch /"
    );
    let ways = format!(
        "{:<8}{:<9}{:>6}{:>9}{:>9}{:>12}{:>9}{:>12}{:>9}",
        "rows", "owner", "column", "count", "batch", "one by one", "batch", "one by one", "reading"
    );
    format!("{sides}\n{ways}")
}

/// A line of the table.
fn line(rows: Rows, case: &Case, medians: [f64; WAYS]) -> String {
    let [batch, one_by_one, reading] = medians;
    format!(
        "{:<8}{:<9}{:>6}{:>9}{batch:>9.1}{one_by_one:>12.1}{reading:>9.1}{:>12.2}{:>9.2}",
        rows.name(),
        case.asked.owner_text(),
        case.asked.column,
        case.count(),
        batch / one_by_one,
        batch / reading
    )
}
