//! How long it takes to read a section that arrives in fragments, beside a check of the same section
//! as a whole and one in parts; and what a call costs that brings one byte.

use std::hint::black_box;
use std::time::Instant;

use super::median;
use super::sections::{Case, Rows, BYTES_OF_PAGE, BYTES_OF_SECTION};
use crate::archive::{self, Fault, Reply};
use crate::reading::arrival::Progress;
use crate::reading::error::{Error, ErrorCode, Input};
use crate::reading::section::{PARENT_UNCHANGED, ROW_NUMBERS};
use crate::text::Text;
use crate::Totals;

/// The sizes of fragments: a buffer, and what a packet carries.
const FRAGMENTS: [usize; 2] = [65_536, 1_460];

/// What the time of a check divided by that of the feeding is to be at least, for each size.
const BARS: [f64; 2] = [0.8, 0.5];

/// How many rounds a case has. In a round each way goes over the section once; another way comes
/// first in the next.
const ROUNDS: usize = 31;

/// How many calls of one kind are made in a round where a call alone is measured.
const CALLS: usize = 10_000;

/// How a section is gone over.
#[derive(Clone, Copy, Debug)]
enum Way {
    /// Whole, by the section reader.
    Check,
    /// In fragments of so many bytes, and then the close.
    Feed(usize),
    /// In parts, by a call of the section reader for each. It remembers nothing and meets no cut row,
    /// but it too reads the schema file in each call.
    Parts,
}

const WAYS: [Way; 4] = [
    Way::Check,
    Way::Feed(FRAGMENTS[0]),
    Way::Feed(FRAGMENTS[1]),
    Way::Parts,
];

/// A section, and where its parts end: each has as many parents and what follows them as the smaller
/// fragments have room for, or one.
struct Cut {
    case: Case,
    ends: Vec<usize>,
}

/// A call that is measured alone.
#[derive(Clone, Copy, Debug)]
enum Call {
    /// The next byte of a section.
    OneByte,
    /// An empty fragment in the middle of a section.
    NoByte,
    /// The schema file, as every call reads it.
    Schema,
}

const ALONE: [Call; 3] = [Call::OneByte, Call::NoByte, Call::Schema];

impl Cut {
    fn new(case: Case) -> Cut {
        let parents = case
            .wanted
            .chunks_exact(ROW_NUMBERS)
            .filter(|row| row[0] == PARENT_UNCHANGED)
            .map(|row| row[2] as usize - 1);
        let done = case.section.len() - 1;
        let (mut start, mut last, mut ends) = (0, 0, Vec::new());
        for token in parents.chain([done]) {
            if token - start > FRAGMENTS[1] && start < last {
                ends.push(last);
                start = last;
            }
            last = token;
        }
        ends.push(case.section.len());
        Cut { case, ends }
    }

    /// Where the last part starts.
    fn last(&self) -> usize {
        self.ends.iter().rev().nth(1).copied().unwrap_or(0)
    }
}

impl Way {
    /// How many rows the section has. Of its parts the last alone is a section; the others must be gone
    /// over to their ends.
    fn go(self, cut: &Cut) -> Reply<Progress> {
        let case = &cut.case;
        match self {
            Way::Check => archive::check_section(&case.file, &case.section).map(Progress::Complete),
            Way::Feed(size) => {
                let mut reader = adtg::Reader::new();
                for fragment in case.section.chunks(size) {
                    archive::feed(&case.file, &mut reader, fragment)?;
                }
                archive::close(&case.file, &mut reader)
            }
            Way::Parts => {
                let mut start = 0;
                for end in &cut.ends {
                    let part = &case.section[start..*end];
                    let over = Error::new(ErrorCode::Truncated, part.len(), Input::Section);
                    match archive::check_section(&case.file, part) {
                        Err(Fault::Error(error)) if error == over => start = *end,
                        Err(fault) => return Err(fault),
                        Ok(_) => break,
                    }
                }
                Ok(Progress::Complete(if start == cut.last() {
                    case.rows()
                } else {
                    0
                }))
            }
        }
    }
}

/// Measures all cases and prints two tables. A way that does not count the rows is not measured.
pub fn run() -> Result<Totals, String> {
    let mut totals = Totals::default();
    println!(
        "Sections of {BYTES_OF_SECTION} bytes, a page of {BYTES_OF_PAGE}: checked whole, fed in fragments and closed, and checked in parts of\nat most {} bytes, a call for each (medians of {ROUNDS} rounds).\nA ratio is the time of the check divided by that of the other way; the bars are {:.2} and {:.2}.\n",
        FRAGMENTS[1], BARS[0], BARS[1]
    );
    println!("{}", head());
    let mut cases = Vec::new();
    for rows in Rows::ALL {
        let cut = Cut::new(Case::new(rows)?);
        totals.cases += 1;
        if differs(rows, &cut) {
            totals.differ += 1;
            continue;
        }
        println!("{}", line(rows, &cut.case, measure(&cut, rows.size().1)));
        cases.push((rows, cut.case));
    }
    println!("\nNanoseconds a call, with the schema file of each (medians of {ROUNDS} rounds):\n");
    println!(
        "{:<8}{:>10}{:>10}{:>10}{:>13}",
        "rows", "file", "one byte", "no byte", "read_schema"
    );
    for (rows, case) in &cases {
        let [one, none, schema] = measure_alone(case);
        let (name, size) = (rows.name(), case.file.len());
        println!("{name:<8}{size:>10}{one:>10.1}{none:>10.1}{schema:>13.1}");
    }
    println!("\nA reader has {} bytes.\n", adtg::Reader::SIZE);
    Ok(totals)
}

/// Goes over each section once in each way, or over the one of this name: for a tool that counts
/// instructions.
pub fn count(only: Option<&str>) -> Result<Totals, String> {
    let mut totals = Totals::default();
    for rows in Rows::ALL {
        if only.is_some_and(|only| only != rows.name()) {
            continue;
        }
        let cut = Cut::new(Case::new(rows)?);
        totals.cases += 1;
        totals.differ += u64::from(differs(rows, &cut));
        println!("{}: {} rows each way", rows.name(), cut.case.rows());
    }
    if totals.cases == 0 {
        return Err("there is no such case".to_string());
    }
    Ok(totals)
}

/// Goes over the section once in each way; says so if one does not count its rows.
fn differs(rows: Rows, cut: &Cut) -> bool {
    let mut differs = false;
    let wanted = cut.case.rows();
    for way in WAYS {
        let answer = way.go(cut);
        if answer != Ok(Progress::Complete(wanted)) {
            println!("{}: {wanted} rows are wanted", rows.name());
            println!("  {way:?}: {}", answer.text());
            differs = true;
        }
    }
    differs
}

/// The medians of each way, in nanoseconds for a whole section.
fn measure(cut: &Cut, times: usize) -> [f64; WAYS.len()] {
    let mut rounds: [Vec<f64>; WAYS.len()] = Default::default();
    for round in 0..ROUNDS {
        for turn in 0..WAYS.len() {
            let at = (round + turn) % WAYS.len();
            let started = Instant::now();
            for _ in 0..times {
                let _ = black_box(WAYS[at].go(black_box(cut)));
            }
            rounds[at].push(started.elapsed().as_nanos() as f64 / times as f64);
        }
    }
    rounds.map(median)
}

/// The medians of each call alone, in nanoseconds.
fn measure_alone(case: &Case) -> [f64; ALONE.len()] {
    let mut rounds: [Vec<f64>; ALONE.len()] = Default::default();
    // Without the end, so that all calls go on.
    let most = CALLS.min(case.section.len() - 1);
    let bytes = &case.section[..most];
    for round in 0..ROUNDS {
        for turn in 0..ALONE.len() {
            let at = (round + turn) % ALONE.len();
            let file = black_box(&case.file);
            let mut reader = adtg::Reader::new();
            if let Call::NoByte = ALONE[at] {
                let _ = archive::feed(file, &mut reader, &bytes[..most / 2]);
            }
            let started = Instant::now();
            match ALONE[at] {
                Call::OneByte => {
                    for byte in bytes {
                        let _ = black_box(archive::feed(file, &mut reader, &[*byte]));
                    }
                }
                Call::NoByte => {
                    for _ in bytes {
                        let _ = black_box(archive::feed(file, &mut reader, black_box(&[])));
                    }
                }
                Call::Schema => {
                    for _ in bytes {
                        let _ = black_box(archive::read_schema(black_box(file)));
                    }
                }
            }
            rounds[at].push(started.elapsed().as_nanos() as f64 / most as f64);
        }
    }
    rounds.map(median)
}

/// The two lines above the first table.
fn head() -> String {
    let mut ways = format!("{:17}{:>10}", "", "check");
    let mut units = format!("{:<8}{:>9}{:>10}", "rows", "count", "GB/s");
    for size in FRAGMENTS {
        ways += &format!("{size:>10}{:>8}", "");
        units += &format!("{:>10}{:>8}", "GB/s", "ratio");
    }
    ways += &format!("{:>10}{:>8}", "parts", "");
    units += &format!("{:>10}{:>8}", "GB/s", "ratio");
    format!("{}\n{units}", ways.trim_end())
}

/// A line of the first table.
fn line(rows: Rows, case: &Case, medians: [f64; WAYS.len()]) -> String {
    let size = case.section.len() as f64;
    let [check, fed @ ..] = medians;
    let mut line = format!("{:<8}{:>9}", rows.name(), case.rows());
    line += &format!("{:>10.2}", size / check);
    for median in fed {
        line += &format!("{:>10.2}{:>8.2}", size / median, check / median);
    }
    line
}
