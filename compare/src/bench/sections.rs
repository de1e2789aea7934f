//! How long it takes to list the rows of a whole section in a table that has room for them, and to
//! check it alone.

use std::hint::black_box;
use std::time::Instant;

use super::median;
use crate::archive::{self, Reply};
use crate::generate::{self, Section};
use crate::random::Random;
use crate::reading::column::{BYTES, CHAPTER, TEXT, WIDE_TEXT};
use crate::reading::schema::SchemaFile;
use crate::reading::section::{check_section, list_section, ROW_NUMBERS};
use crate::reading::{Error, Input};
use crate::text::{agree, Text};
use crate::Totals;

/// How many bytes a section has, to the end of a row; and a page of rows, as a desk asks for it.
pub(super) const BYTES_OF_SECTION: usize = 8_000_000;
pub(super) const BYTES_OF_PAGE: usize = 10_000;

/// How often a page is gone over in a round.
const PAGES: usize = 100;

/// How many rounds a case has. In a round each side goes over the section once; the other side
/// comes first in the next.
const ROUNDS: usize = 31;

const SEED: u64 = 1;

/// What the table holds before a section is read.
const BEFORE: u32 = 0xA5A5_A5A5;

/// What is done with a section.
#[derive(Clone, Copy, Debug)]
enum Task {
    List,
    Check,
}

/// What the rows of a section are like.
#[derive(Clone, Copy, Debug)]
pub(super) enum Rows {
    /// Three fixed columns, none nullable.
    Short,
    /// Thirty columns of all kinds but chapters.
    Wide,
    /// Parents, and children at two levels that are unchanged, changed or deleted.
    Nested,
    /// A page of such rows.
    Page,
}

impl Rows {
    pub(super) const ALL: [Rows; 4] = [Rows::Short, Rows::Wide, Rows::Nested, Rows::Page];

    /// The name by which a case is asked for.
    pub(super) fn name(self) -> &'static str {
        match self {
            Rows::Short => "short",
            Rows::Wide => "wide",
            Rows::Nested => "nested",
            Rows::Page => "page",
        }
    }

    /// How many bytes the section has, and how often a side goes over it in a round.
    pub(super) fn size(self) -> (usize, usize) {
        match self {
            Rows::Page => (BYTES_OF_PAGE, PAGES),
            _ => (BYTES_OF_SECTION, 1),
        }
    }

    /// The schema file.
    fn file(self) -> Vec<u8> {
        let [bytes, text, wide, chapter] = [BYTES, TEXT, WIDE_TEXT, CHAPTER].map(u32::from);
        match self {
            Rows::Short => generate::groups(&[3, 0x05, 0, 0x03, 0, 0x13, 0]),
            Rows::Wide => {
                let mut numbers = vec![30];
                // Prefixes of one byte and of four.
                for maximum in [100, 300, 600] {
                    numbers.extend([0x03, 0, 0x05, 0, 0x07, 0, 0x0B, 0, 0x11, 0]);
                    numbers.extend([text, 0, maximum, wide, 1, 100]);
                    numbers.extend([0x06, 1, 0x14, 1, 0x03, 1]);
                }
                generate::groups(&numbers)
            }
            Rows::Nested | Rows::Page => {
                let mut numbers = vec![7, 0x03, 0, 0x48, 0, 0x05, 0, text, 0, 60];
                numbers.extend([wide, 1, 40, 0x0B, 1, chapter, 1, 7]);
                numbers.extend([6, 0x03, 0, 0x06, 1, text, 1, 60, bytes, 1, 300]);
                numbers.extend([0x07, 0, chapter, 0, 8]);
                numbers.extend([4, 0x14, 0, 0x07, 1, text, 0, 30, 0x05, 0]);
                generate::groups(&numbers)
            }
        }
    }
}

impl Task {
    fn by_archive(self, file: &[u8], section: &[u8], table: &mut [u32]) -> Reply<usize> {
        match self {
            Task::List => archive::list_section(file, section, table),
            Task::Check => archive::check_section(file, section),
        }
    }

    fn by_reading(self, file: &[u8], section: &[u8], table: &mut [u32]) -> Result<usize, Error> {
        match self {
            Task::List => list_section(file, section, table),
            Task::Check => check_section(file, section),
        }
    }
}

/// A section, its schema file and the table that it makes.
pub(super) struct Case {
    pub(super) file: Vec<u8>,
    pub(super) section: Vec<u8>,
    pub(super) wanted: Vec<u32>,
}

impl Case {
    pub(super) fn new(rows: Rows) -> Result<Case, String> {
        let mut random = Random::new(SEED);
        let file = rows.file();
        let schemas = SchemaFile::read(&file, Input::Only).map_err(|error| error.text())?;
        let mut section = Section::default();
        while section.size() < rows.size().0 {
            let number = random.below(schemas.schema_count());
            section.add_row(&mut random, &file, &schemas, number);
        }
        Ok(Case::of(file, section))
    }

    /// A small section of so many such rows, by turns of each schema.
    pub(super) fn small(rows: Rows, count: usize) -> Result<Case, String> {
        let mut random = Random::new(SEED);
        let file = rows.file();
        let schemas = SchemaFile::read(&file, Input::Only).map_err(|error| error.text())?;
        let mut section = Section::default();
        for row in 0..count {
            let number = row % schemas.schema_count();
            section.add_row(&mut random, &file, &schemas, number);
        }
        Ok(Case::of(file, section))
    }

    fn of(file: Vec<u8>, section: Section) -> Case {
        let (section, wanted) = section.end();
        Case {
            file,
            section,
            wanted,
        }
    }

    pub(super) fn rows(&self) -> usize {
        self.wanted.len() / ROW_NUMBERS
    }
}

/// Measures all cases and prints a table for each task. Sides that do not agree are not measured.
pub fn run() -> Result<Totals, String> {
    let mut totals = Totals::default();
    for (task, name) in [
        (Task::List, "Listing the rows of"),
        (Task::Check, "Checking"),
    ] {
        println!(
            "{name} whole sections of {BYTES_OF_SECTION} bytes, a page of {BYTES_OF_PAGE} (medians of {ROUNDS} rounds):\n"
        );
        println!("{}", head());
        for rows in Rows::ALL {
            let case = Case::new(rows)?;
            let of_case = compare(rows, &case, task);
            totals.cases += of_case.cases;
            totals.differ += of_case.differ;
            if of_case.differ == 0 {
                let medians = measure(&case, task, rows.size().1);
                println!("{}", line(rows, &case, medians));
            }
        }
        println!();
    }
    Ok(totals)
}

/// Lists and checks each section once on each side, or the one of this name: for a tool that
/// counts instructions.
pub fn count(only: Option<&str>) -> Result<Totals, String> {
    let mut totals = Totals::default();
    for rows in Rows::ALL {
        if only.is_some_and(|only| only != rows.name()) {
            continue;
        }
        let case = Case::new(rows)?;
        for task in [Task::List, Task::Check] {
            let of_case = compare(rows, &case, task);
            totals.cases += of_case.cases;
            totals.differ += of_case.differ;
        }
        println!("{}: {} rows a side", rows.name(), case.rows());
    }
    if totals.cases == 0 {
        return Err("there is no such case".to_string());
    }
    Ok(totals)
}

/// Goes over the section once on each side; both count the rows, and where they are listed both
/// make the table that is wanted.
fn compare(rows: Rows, case: &Case, task: Task) -> Totals {
    let wanted = Ok(case.rows());
    let mut ours = vec![BEFORE; case.wanted.len()];
    let reading = task.by_reading(&case.file, &case.section, &mut ours);
    let mut theirs = vec![BEFORE; case.wanted.len()];
    let archive = task.by_archive(&case.file, &case.section, &mut theirs);
    let do_agree = reading == wanted && agree(&wanted, &archive);
    let is_listed = matches!(task, Task::List);
    let differ = !do_agree || is_listed && [ours, theirs].iter().any(|made| *made != case.wanted);
    if differ {
        println!("{}: {} rows are wanted", rows.name(), case.rows());
        println!("  reading: {}", reading.text());
        println!("  archive: {}", archive.text());
        if do_agree {
            println!("  with other tables");
        }
    }
    Totals {
        cases: 1,
        differ: u64::from(differ),
    }
}

/// The medians of archive and reading, in nanoseconds for a whole section.
fn measure(case: &Case, task: Task, times: usize) -> [f64; 2] {
    let mut table = vec![BEFORE; case.wanted.len()];
    let mut rounds: [Vec<f64>; 2] = Default::default();
    for round in 0..ROUNDS {
        for turn in 0..2 {
            let side = (round + turn) % 2;
            let started = Instant::now();
            for _ in 0..times {
                let (file, section) = (black_box(&case.file), black_box(&case.section));
                let table = black_box(&mut table);
                if side == 0 {
                    let _ = black_box(task.by_archive(file, section, table));
                } else {
                    let _ = black_box(task.by_reading(file, section, table));
                }
            }
            rounds[side].push(started.elapsed().as_nanos() as f64 / times as f64);
        }
    }
    rounds.map(median)
}

/// The two lines above the table.
fn head() -> String {
    let sides = format!(
        "{:26}{:>9}{:>9}{:>9}{:>9}{:>10}",
        "", "archive", "archive", "reading", "reading", "archive /"
    );
    let units = format!(
        "{:<8}{:>9}{:>9}{:>9}{:>9}{:>9}{:>9}{:>10}",
        "rows", "count", "bytes", "GB/s", "ns/row", "GB/s", "ns/row", "reading"
    );
    format!("{sides}\n{units}")
}

/// A line of the table.
fn line(rows: Rows, case: &Case, medians: [f64; 2]) -> String {
    let (size, count) = (case.section.len() as f64, case.rows() as f64);
    let mut line = format!("{:<8}{:>9}{:>9.1}", rows.name(), case.rows(), size / count);
    for median in medians {
        line += &format!("{:>9.2}{:>9.1}", size / median, median / count);
    }
    line + &format!("{:>10.2}", medians[0] / medians[1])
}
