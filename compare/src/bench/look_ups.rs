//! How long a look-up takes: through a plan in the archive, through a plan in the reading, and by
//! the reading's walk over columns that are parsed already. All in one process, on the same rows
//! in the same order.

use std::hint::black_box;
use std::time::Instant;

use adtg::{Found, RowHandle};

use super::median;
use crate::generate;
use crate::random::Random;
use crate::reading::column::{Column, BYTES, FIXED, TEXT, WIDE_TEXT};
use crate::reading::plan::{make_plan, OpenRow, Plan};
use crate::reading::row::{look_up_in, Answer};
use crate::reading::schema::{SchemaFile, MAX_COLUMNS};
use crate::reading::{Error, Input};
use crate::text::{shown, Text};
use crate::Totals;

/// The columns that are asked for.
const ASKED: [usize; 4] = [0, 8, 31, 63];

/// How many rows a case has; in each the column asked for has a field.
const ROWS: usize = 1024;

/// How many rounds a case has. In a round each way looks up all rows once, in an order of the
/// round. Rounds are short, so that other programs disturb few of them.
const ROUNDS: usize = 201;

const SEED: u64 = 1;

/// A schema of 64 columns.
#[derive(Clone, Copy, Debug, PartialEq, Eq)]
enum Table {
    /// All fixed, none nullable.
    Fixed,
    /// All fixed and nullable.
    Nullable,
    /// Every eighth variable, the others fixed, none nullable.
    EightVariable,
    /// All variable, none nullable.
    Variable,
}

impl Table {
    const ALL: [Table; 4] = [
        Table::Fixed,
        Table::Nullable,
        Table::EightVariable,
        Table::Variable,
    ];

    /// The name by which a case is asked for.
    fn name(self) -> &'static str {
        match self {
            Table::Fixed => "fixed",
            Table::Nullable => "nullable",
            Table::EightVariable => "eight",
            Table::Variable => "variable",
        }
    }

    fn title(self) -> &'static str {
        match self {
            Table::Fixed => "all fixed",
            Table::Nullable => "all nullable",
            Table::EightVariable => "eight variable",
            Table::Variable => "all variable",
        }
    }

    /// The schema file.
    fn file(self) -> Vec<u8> {
        let mut numbers = vec![MAX_COLUMNS as u32];
        for index in 0..MAX_COLUMNS {
            let fixed = FIXED[index % FIXED.len()].0;
            let variable = [BYTES, TEXT, WIDE_TEXT][index % 3];
            // Prefixes of one byte and of four.
            let maximum = [100, 1000][index % 2];
            match self {
                Table::Fixed => numbers.extend([fixed.into(), 0]),
                Table::Nullable => numbers.extend([fixed.into(), 1]),
                Table::EightVariable if index % 8 != 4 => numbers.extend([fixed.into(), 0]),
                Table::EightVariable => numbers.extend([TEXT.into(), 0, 100]),
                Table::Variable => numbers.extend([variable.into(), 0, maximum]),
            }
        }
        generate::groups(&numbers)
    }
}

/// What is looked up: one column in many rows, with all that the sides need for it.
struct Case<'a> {
    column: usize,
    columns: &'a [Column],
    plan: &'a Plan,
    archive_plan: &'a adtg::Plan,
    rows: &'a [Vec<u8>],
    /// Each row as the reading and the archive opened it.
    opened: Vec<(OpenRow<'a>, RowHandle<'a>)>,
}

/// The five ways to look up, in the order of the table.
const WAYS: usize = 5;

/// Measures all cases and prints the table. Sides that do not agree are not measured.
pub fn run() -> Result<Totals, String> {
    let mut totals = Totals::default();
    println!("Nanoseconds for a look-up that finds a field");
    println!("(medians of {ROUNDS} rounds over {ROWS} rows):\n");
    println!("{}", head());
    each_case(None, |table, case| {
        let of_case = compare(case);
        totals.cases += of_case.cases;
        totals.differ += of_case.differ;
        if of_case.differ == 0 {
            println!("{}", line(table, case.column, measure(case)));
        }
    })?;
    println!();
    Ok(totals)
}

/// Looks up each row once in each way and compares the answers, in all cases or in one: for a
/// tool that counts instructions.
pub fn count(only: Option<(&str, usize)>) -> Result<Totals, String> {
    let mut totals = Totals::default();
    each_case(only, |table, case| {
        let of_case = compare(case);
        totals.cases += of_case.cases;
        totals.differ += of_case.differ;
        println!(
            "{}, column {}: {ROWS} look-ups a way",
            table.name(),
            case.column
        );
    })?;
    if totals.cases == 0 {
        return Err("there is no such case".to_string());
    }
    Ok(totals)
}

/// Makes each case, or the one of this name and column, and hands it on.
fn each_case(
    only: Option<(&str, usize)>,
    mut each: impl FnMut(Table, &Case),
) -> Result<(), String> {
    for table in Table::ALL {
        let file = table.file();
        let schemas = SchemaFile::read(&file, Input::Only).map_err(|error| error.text())?;
        let columns = schemas.columns_at(0);
        let plan = make_plan(&file, 0).map_err(|error| error.text())?;
        let archive_plan = adtg::Plan::make(&file, 0).map_err(|error| error.to_string())?;
        for column in ASKED {
            if only.is_some_and(|only| only != (table.name(), column)) {
                continue;
            }
            let rows = rows(&file, columns, column);
            let mut opened = Vec::new();
            for row in &rows {
                let of_reading = plan.open(row).map_err(|error| error.text())?;
                let of_archive = archive_plan.open(row).map_err(|error| error.to_string())?;
                opened.push((of_reading, of_archive));
            }
            let case = Case {
                column,
                columns,
                plan: &plan,
                archive_plan: &archive_plan,
                rows: &rows,
                opened,
            };
            each(table, &case);
        }
    }
    Ok(())
}

/// Rows of a schema that have a field in a column. All else of them is left to chance.
fn rows(file: &[u8], columns: &[Column], column: usize) -> Vec<Vec<u8>> {
    let mut random = Random::new(SEED);
    let mut rows = Vec::new();
    while rows.len() < ROWS {
        let (entries, values) = generate::original_entries(&mut random, columns);
        let row = generate::original_row(file, 0, &entries, &values);
        if let Ok(Answer::Field { .. }) = look_up_in(columns, &row, column) {
            rows.push(row);
        }
    }
    rows
}

/// The ways to look up a row. Those of the reading are not inlined, as a call of the archive
/// cannot be.
impl Case<'_> {
    #[inline(always)]
    fn archive_planned(&self, index: usize) -> Found {
        self.archive_plan.find(&self.rows[index], self.column)
    }

    #[inline(always)]
    fn archive_opened(&self, index: usize) -> Found {
        self.opened[index].1.find(self.column)
    }

    #[inline(always)]
    fn reading_planned(&self, index: usize) -> Result<Answer, Error> {
        reading_planned(self.plan, &self.rows[index], self.column)
    }

    #[inline(always)]
    fn reading_opened(&self, index: usize) -> Result<Answer, Error> {
        reading_opened(self.plan, &self.opened[index].0, self.column)
    }

    #[inline(always)]
    fn reading_walked(&self, index: usize) -> Result<Answer, Error> {
        reading_walked(self.columns, &self.rows[index], self.column)
    }
}

#[inline(never)]
fn reading_planned(plan: &Plan, row: &[u8], column: usize) -> Result<Answer, Error> {
    plan.look_up(row, column)
}

#[inline(never)]
fn reading_opened(plan: &Plan, row: &OpenRow, column: usize) -> Result<Answer, Error> {
    row.look_up(plan, column)
}

#[inline(never)]
fn reading_walked(columns: &[Column], row: &[u8], column: usize) -> Result<Answer, Error> {
    look_up_in(columns, row, column)
}

/// Looks up each row once in each way; all answers are those of the walk.
fn compare(case: &Case) -> Totals {
    let mut totals = Totals::default();
    for (index, row) in case.rows.iter().enumerate() {
        let walk = case.reading_walked(index);
        let of_reading = [case.reading_planned(index), case.reading_opened(index)];
        let of_archive = [case.archive_planned(index), case.archive_opened(index)]
            .map(|found| found.answer().map(Answer::from).map_err(Error::from));
        totals.cases += 1;
        let do_agree = of_reading
            .iter()
            .chain(&of_archive)
            .all(|answer| *answer == walk);
        if !do_agree {
            totals.differ += 1;
            println!("column {} of {}: {}", case.column, shown(row), walk.text());
            println!(
                "  reading: {}",
                of_reading.map(|answer| answer.text()).join(", ")
            );
            println!(
                "  archive: {}",
                of_archive.map(|answer| answer.text()).join(", ")
            );
        }
    }
    totals
}

/// The medians of the rounds, in nanoseconds.
fn measure(case: &Case) -> [f64; WAYS] {
    let mut random = Random::new(SEED);
    let mut order: Vec<usize> = (0..ROWS).collect();
    let mut rounds: [Vec<f64>; WAYS] = Default::default();
    for round in 0..ROUNDS {
        shuffle(&mut random, &mut order);
        // Another way comes first in each round.
        for turn in 0..WAYS {
            let way = (round + turn) % WAYS;
            rounds[way].push(match way {
                0 => time(&order, |index| case.archive_planned(index)),
                1 => time(&order, |index| case.archive_opened(index)),
                2 => time(&order, |index| case.reading_planned(index)),
                3 => time(&order, |index| case.reading_opened(index)),
                _ => time(&order, |index| case.reading_walked(index)),
            });
        }
    }
    rounds.map(median)
}

/// Puts numbers into any order.
fn shuffle(random: &mut Random, numbers: &mut [usize]) {
    for at in (1..numbers.len()).rev() {
        numbers.swap(at, random.below(at + 1));
    }
}

/// The nanoseconds that a look-up takes, on average over these rows.
fn time<T>(order: &[usize], look_up: impl Fn(usize) -> T) -> f64 {
    let started = Instant::now();
    for index in order {
        black_box(look_up(black_box(*index)));
    }
    started.elapsed().as_nanos() as f64 / order.len() as f64
}

/// The two lines above the table.
fn head() -> String {
    let sides = format!(
        "{:21}{:>9}{:>9}{:>9}{:>9}{:>9}{:>21}",
        "", "archive", "archive", "reading", "reading", "reading", "archive / reading"
    );
    let ways = format!(
        "{:<16}{:>5}{:>9}{:>9}{:>9}{:>9}{:>9}{:>9}{:>9}{:>11}",
        "64 columns",
        "asked",
        "plan",
        "opened",
        "plan",
        "opened",
        "walk",
        "plan",
        "opened",
        "plan/walk"
    );
    format!("{sides}\n{ways}")
}

/// A line of the table.
fn line(table: Table, column: usize, medians: [f64; WAYS]) -> String {
    let mut line = format!("{:<16}{column:>5}", table.title());
    for median in medians {
        line += &format!("{median:>9.1}");
    }
    let [planned, opened, our_planned, our_opened, walked] = medians;
    line + &format!(
        "{:>9.2}{:>9.2}{:>11.2}",
        planned / our_planned,
        opened / our_opened,
        planned / walked
    )
}
