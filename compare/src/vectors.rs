//! Runs vector files against the reading and the archive.

use std::fs;
use std::path::{Path, PathBuf};
use std::str::FromStr;

use crate::archive::{self, Reply};
use crate::reading::arrival::{Arrival, Progress};
use crate::reading::batch::{find_column, CHAPTER_MARK, NULL_MARK, PARENTS, SPAN_NUMBERS};
use crate::reading::encode::{entry_numbers, write_original, write_update, Entry};
use crate::reading::header::read_header;
use crate::reading::options::read_options;
use crate::reading::page::{find_page, Asked, Page, PAGE_SPAN_NUMBERS};
use crate::reading::plan::make_plan;
use crate::reading::row::{field_count, look_up};
use crate::reading::schema::{read_schema, write_schema, SchemaFile};
use crate::reading::section::{check_section, list_section, ROW_NUMBERS};
use crate::reading::update::current;
use crate::reading::{Error, Input};
use crate::text::{agree, hex, parse_hex, Text};
use crate::Totals;

/// What both sides say about one line.
struct Answers {
    reading: String,
    archive: String,
}

/// Runs the inputs of one line, or says why they cannot be taken.
type Call = fn(&[&str]) -> Result<Answers, String>;

/// Runs every vector file of the folder, in the order of their names.
pub fn run_folder(folder: &Path) -> Result<Totals, String> {
    let files = vector_files(folder)?;
    if files.is_empty() {
        return Err(format!("no vector files in {}", folder.display()));
    }
    let mut totals = Totals::default();
    for file in files {
        let of_file = run_file(&file)?;
        totals.cases += of_file.cases;
        totals.differ += of_file.differ;
    }
    Ok(totals)
}

/// The `.txt` files of the folder, sorted.
fn vector_files(folder: &Path) -> Result<Vec<PathBuf>, String> {
    let unreadable = |error| format!("cannot read {}: {error}", folder.display());
    let mut files = Vec::new();
    for entry in fs::read_dir(folder).map_err(unreadable)? {
        let path = entry.map_err(unreadable)?.path();
        if path.extension().is_some_and(|extension| extension == "txt") {
            files.push(path);
        }
    }
    files.sort();
    Ok(files)
}

/// Runs one file and prints a line about it.
fn run_file(file: &Path) -> Result<Totals, String> {
    let name = file.file_stem().unwrap_or_default().to_string_lossy();
    // A second part of the name tells files about one call apart.
    let first_part = name.split('.').next().unwrap_or_default();
    let call =
        call_of(first_part).ok_or_else(|| format!("no call is known for {}", file.display()))?;
    let content = fs::read_to_string(file)
        .map_err(|error| format!("cannot read {}: {error}", file.display()))?;
    let mut totals = Totals::default();
    for (index, line) in content.lines().enumerate() {
        totals.cases += 1;
        if let Err(difference) = run_line(call, line) {
            totals.differ += 1;
            println!("{name} line {}: {line}\n{difference}", index + 1);
        }
    }
    let Totals { cases, differ } = totals;
    println!("{name}: {cases} cases, {differ} differ");
    Ok(totals)
}

/// Runs one line; the error says what differs.
fn run_line(call: Call, line: &str) -> Result<(), String> {
    let (inputs, expected) = line
        .split_once(" -> ")
        .ok_or("  the line has no answer".to_string())?;
    let inputs: Vec<&str> = inputs.split(' ').collect();
    let Answers { reading, archive } =
        call(&inputs).map_err(|error| format!("  the line cannot be taken: {error}"))?;
    if reading == expected && archive == expected {
        return Ok(());
    }
    Err(format!("  reading: {reading}\n  archive: {archive}"))
}

/// The call that a file of this name is about.
fn call_of(name: &str) -> Option<Call> {
    Some(match name {
        "read_header" => header_line,
        "read_options" => options_line,
        "read_sheet" => read_schema_line,
        "write_sheet" => write_schema_line,
        "look_up" => look_up_line,
        "field_count" => field_count_line,
        "current" => current_line,
        "make_plan" => make_plan_line,
        "fixed_place" => fixed_place_line,
        "write_original" => write_original_line,
        "write_update" => write_update_line,
        "check_section" => check_section_line,
        "list_section" => list_section_line,
        "find_column" => find_column_line,
        "find_page" => find_page_line,
        "feed" => feed_line,
        _ => return None,
    })
}

fn header_line(inputs: &[&str]) -> Result<Answers, String> {
    let [bytes] = take(inputs)?;
    let bytes = parse_hex(bytes)?;
    Ok(Answers {
        reading: read_header(&bytes).text(),
        archive: archive::read_header(&bytes).text(),
    })
}

fn options_line(inputs: &[&str]) -> Result<Answers, String> {
    let [bytes] = take(inputs)?;
    let bytes = parse_hex(bytes)?;
    Ok(Answers {
        reading: read_options(&bytes).text(),
        archive: archive::read_options(&bytes).text(),
    })
}

fn read_schema_line(inputs: &[&str]) -> Result<Answers, String> {
    let [bytes] = take(inputs)?;
    let bytes = parse_hex(bytes)?;
    Ok(Answers {
        reading: read_schema(&bytes).text(),
        archive: archive::read_schema(&bytes).text(),
    })
}

fn write_schema_line(inputs: &[&str]) -> Result<Answers, String> {
    let [numbers] = take(inputs)?;
    let numbers = parse_list(numbers, parse_number)?;
    // No number takes more than three bytes.
    let before = noise(3 * numbers.len() + 8);
    let mut output = before.clone();
    let written = write_schema(&numbers, &mut output);
    Ok(Answers {
        reading: written_text(&written, &before, &output, 0),
        archive: archive_write_schema(&numbers, &before),
    })
}

fn archive_write_schema(numbers: &[u32], before: &[u8]) -> String {
    let mut output = before.to_vec();
    let written = archive::write_schema(numbers, &mut output);
    written_text(&written, before, &output, 0)
}

fn look_up_line(inputs: &[&str]) -> Result<Answers, String> {
    let [schema, number, row, column] = take(inputs)?;
    let (schema, row) = (parse_hex(schema)?, parse_hex(row)?);
    let (number, column) = (parse_number(number)?, parse_number(column)?);
    Ok(Answers {
        reading: walk_and_plan(&schema, number, &row, column),
        archive: archive_look_up(&schema, number, &row, column),
    })
}

/// What the walk says about a column; the look-ups through a plan must say the same.
fn walk_and_plan(schema: &[u8], number: usize, row: &[u8], column: usize) -> String {
    let walk = look_up(schema, number, row, column);
    if let Ok(plan) = make_plan(schema, number) {
        let planned = plan.look_up(row, column);
        let opened = plan
            .open(row)
            .map_or(planned.clone(), |open| open.look_up(&plan, column));
        if planned != walk || opened != walk {
            return [walk, planned, opened]
                .map(|answer| answer.text())
                .join(", ");
        }
    }
    walk.text()
}

/// The same of the archive. A schema that has no plan must be refused by the walk too.
fn archive_look_up(schema: &[u8], number: usize, row: &[u8], column: usize) -> String {
    let walk = archive::look_up(schema, number, row, column);
    let (planned, opened) = match archive::make_plan(schema, number) {
        Ok(plan) => {
            let planned = archive::planned_look_up(&plan, row, column);
            let opened = archive::open_row(&plan, row).map_or(planned.clone(), |_| {
                archive::open_look_up(&plan, row, column)
            });
            (planned, opened)
        }
        Err(fault) => (Err(fault.clone()), Err(fault)),
    };
    if planned != walk || opened != walk {
        let answers = [walk, planned, opened];
        return answers.map(|answer| answer.text()).join(", ");
    }
    walk.text()
}

fn field_count_line(inputs: &[&str]) -> Result<Answers, String> {
    let [schema, number, row] = take(inputs)?;
    let (schema, row) = (parse_hex(schema)?, parse_hex(row)?);
    let number = parse_number(number)?;
    Ok(Answers {
        reading: field_count(&schema, number, &row).text(),
        archive: archive::field_count(&schema, number, &row).text(),
    })
}

fn current_line(inputs: &[&str]) -> Result<Answers, String> {
    let [schema, number, row, update, column] = take(inputs)?;
    let (schema, row, update) = (parse_hex(schema)?, parse_hex(row)?, parse_hex(update)?);
    let (number, column) = (parse_number(number)?, parse_number(column)?);
    Ok(Answers {
        reading: current(&schema, number, &row, &update, column).text(),
        archive: archive::current(&schema, number, &row, &update, column).text(),
    })
}

fn make_plan_line(inputs: &[&str]) -> Result<Answers, String> {
    let [schema, number] = take(inputs)?;
    let (schema, number) = (parse_hex(schema)?, parse_number(number)?);
    Ok(Answers {
        reading: make_plan(&schema, number).text(),
        archive: archive_make_plan(&schema, number),
    })
}

/// The archive's plan. Says so if numbers that the text leaves out are not the reading's.
fn archive_make_plan(schema: &[u8], number: usize) -> String {
    let wanted = make_plan(schema, number).map(|plan| plan.numbers());
    let made = archive::make_plan(schema, number);
    let mut text = made.text();
    if !agree(&wanted, &made) {
        text += " with other numbers";
    }
    text
}

fn fixed_place_line(inputs: &[&str]) -> Result<Answers, String> {
    let [schema, number, column] = take(inputs)?;
    let (schema, number) = (parse_hex(schema)?, parse_number(number)?);
    let column = parse_number(column)?;
    let place = make_plan(&schema, number).and_then(|plan| plan.fixed_place(column));
    Ok(Answers {
        reading: place.text(),
        archive: archive_fixed_place(&schema, number, column),
    })
}

fn archive_fixed_place(schema: &[u8], number: usize, column: usize) -> String {
    let place =
        archive::make_plan(schema, number).and_then(|plan| archive::fixed_place(&plan, column));
    place.text()
}

fn write_original_line(inputs: &[&str]) -> Result<Answers, String> {
    let row = RowToWrite::parse(inputs)?;
    Ok(Answers {
        reading: row.written_by(write_original),
        archive: row.written_by_archive(archive::write_original)?,
    })
}

fn write_update_line(inputs: &[&str]) -> Result<Answers, String> {
    let row = RowToWrite::parse(inputs)?;
    Ok(Answers {
        reading: row.written_by(write_update),
        archive: row.written_by_archive(archive::write_update)?,
    })
}

fn check_section_line(inputs: &[&str]) -> Result<Answers, String> {
    let [schema, section] = take(inputs)?;
    let (schema, section) = (parse_hex(schema)?, parse_hex(section)?);
    Ok(Answers {
        reading: count_text(&check_section(&schema, &section)),
        archive: count_text(&archive::check_section(&schema, &section)),
    })
}

fn list_section_line(inputs: &[&str]) -> Result<Answers, String> {
    let [schema, section, numbers] = take(inputs)?;
    let (schema, section) = (parse_hex(schema)?, parse_hex(section)?);
    let before: Vec<u32> = (0..parse_number(numbers)?).map(|at| !at).collect();
    let mut table = before.clone();
    let rows = list_section(&schema, &section, &mut table);
    Ok(Answers {
        reading: rows_text(&rows, &before, &table),
        archive: archive_list_section(&schema, &section, &before),
    })
}

fn archive_list_section(schema: &[u8], section: &[u8], before: &[u32]) -> String {
    let mut table = before.to_vec();
    let rows = archive::list_section(schema, section, &mut table);
    rows_text(&rows, before, &table)
}

fn find_column_line(inputs: &[&str]) -> Result<Answers, String> {
    let [schema, number, section, rows, owner, column, numbers] = take(inputs)?;
    let (schema, section) = (parse_hex(schema)?, parse_hex(section)?);
    let (number, column) = (parse_number(number)?, parse_number(column)?);
    let rows = parse_list(rows, parse_number)?;
    let owner = match owner {
        "parents" => PARENTS,
        _ => parse_number(owner)?,
    };
    let before: Vec<u32> = (0..parse_number(numbers)?).map(|at| !at).collect();
    let mut ours = before.clone();
    let reading = find_in_schema(&schema, number, &section, &rows, owner, column, &mut ours);
    let mut theirs = before.clone();
    let archive = archive::make_plan(&schema, number)
        .and_then(|plan| archive::find_column(&plan, &section, &rows, owner, column, &mut theirs));
    Ok(Answers {
        reading: spans_text(&reading, &before, &ours),
        archive: spans_text(&archive, &before, &theirs),
    })
}

fn find_page_line(inputs: &[&str]) -> Result<Answers, String> {
    let [schema, number, section, table, rows, from, owner, column, numbers] = take(inputs)?;
    let (schema, section) = (parse_hex(schema)?, parse_hex(section)?);
    let number = parse_number(number)?;
    let table = parse_list(table, parse_number)?;
    let asked = Asked {
        section: &section,
        table: &table,
        rows: parse_number(rows)?,
        from: parse_number(from)?,
        owner: match owner {
            "parents" => PARENTS,
            _ => parse_number(owner)?,
        },
        column: parse_number(column)?,
    };
    let before: Vec<u32> = (0..parse_number(numbers)?).map(|at| !at).collect();
    Ok(Answers {
        reading: find_page_by_both(&schema, number, &asked, &before),
        archive: archive_find_page(&schema, number, &asked, &before),
    })
}

/// The page that the walk finds; the plan must find the same.
fn find_page_by_both(schema: &[u8], number: usize, asked: &Asked, before: &[u32]) -> String {
    let mut spans = before.to_vec();
    let walked = SchemaFile::read(schema, Input::Schema)
        .and_then(|file| find_page(file.columns(number)?, asked, &mut spans));
    let walked = page_text(&walked, before, &spans);
    let mut spans = before.to_vec();
    let planned = make_plan(schema, number).and_then(|plan| plan.find_page(asked, &mut spans));
    let planned = page_text(&planned, before, &spans);
    if planned != walked {
        return format!("{walked}, {planned}");
    }
    walked
}

fn archive_find_page(schema: &[u8], number: usize, asked: &Asked, before: &[u32]) -> String {
    let mut spans = before.to_vec();
    let found = archive::make_plan(schema, number)
        .and_then(|plan| archive::find_page(&plan, asked, &mut spans));
    page_text(&found, before, &spans)
}

fn feed_line(inputs: &[&str]) -> Result<Answers, String> {
    let [schema, calls] = take(inputs)?;
    let schema = parse_hex(schema)?;
    // Here `-` is one empty fragment.
    let calls: Result<Vec<Fed>, String> = calls.split(',').map(parse_call).collect();
    let calls = calls?;
    let (mut arrival, mut reader) = (Arrival::default(), adtg::Reader::new());
    let by_reading = |call: &Fed| match call {
        Fed::Fragment(bytes) => arrival.feed(&schema, bytes),
        Fed::Close => arrival.close(&schema),
    };
    let by_archive = |call: &Fed| match call {
        Fed::Fragment(bytes) => archive::feed(&schema, &mut reader, bytes),
        Fed::Close => archive::close(&schema, &mut reader),
    };
    Ok(Answers {
        reading: fed_text(&calls, by_reading),
        archive: fed_text(&calls, by_archive),
    })
}

/// A call on a reader of fragments.
enum Fed {
    Fragment(Vec<u8>),
    Close,
}

/// What each call in turn answers.
fn fed_text<E: Text>(calls: &[Fed], answer: impl FnMut(&Fed) -> Result<Progress, E>) -> String {
    let answers: Vec<String> = calls.iter().map(answer).map(|one| one.text()).collect();
    answers.join(" | ")
}

/// The reading's batch with the columns of a schema of a file.
fn find_in_schema(
    schema: &[u8],
    number: usize,
    section: &[u8],
    rows: &[u32],
    owner: usize,
    column: usize,
    spans: &mut [u32],
) -> Result<usize, Error> {
    let file = SchemaFile::read(schema, Input::Schema)?;
    find_column(file.columns(number)?, section, rows, owner, column, spans)
}

/// The inputs of a row writer.
struct RowToWrite {
    schema: Vec<u8>,
    number: usize,
    entries: Vec<Entry>,
    values: Vec<u8>,
    before: Vec<u8>,
    place: usize,
}

/// A row writer of the reading.
type RowWriter = fn(&[u8], usize, &[Entry], &[u8], &mut [u8], usize) -> Result<usize, Error>;

/// A row writer of the archive, whose entries are numbers.
type ArchiveRowWriter = fn(&[u8], usize, &[u32], &[u8], usize, &mut [u8]) -> Reply<usize>;

impl RowToWrite {
    fn parse(inputs: &[&str]) -> Result<RowToWrite, String> {
        let [schema, number, entries, values, size, place] = take(inputs)?;
        Ok(RowToWrite {
            schema: parse_hex(schema)?,
            number: parse_number(number)?,
            entries: parse_list(entries, parse_entry)?,
            values: parse_hex(values)?,
            before: noise(parse_number(size)?),
            place: parse_number(place)?,
        })
    }

    /// What a writer of the reading says and does.
    fn written_by(&self, writer: RowWriter) -> String {
        let mut output = self.before.clone();
        let written = writer(
            &self.schema,
            self.number,
            &self.entries,
            &self.values,
            &mut output,
            self.place,
        );
        written_text(&written, &self.before, &output, self.place)
    }

    /// What a writer of the archive says and does, if it can be given the entries.
    fn written_by_archive(&self, writer: ArchiveRowWriter) -> Result<String, String> {
        let numbers = entry_numbers(&self.entries).ok_or("an entry is out of reach")?;
        let mut output = self.before.clone();
        let written = writer(
            &self.schema,
            self.number,
            &numbers,
            &self.values,
            self.place,
            &mut output,
        );
        Ok(written_text(&written, &self.before, &output, self.place))
    }
}

/// The bytes of the piece that a writer made at `place`, or its error. Says so if bytes
/// outside the piece changed.
fn written_text<E: Text>(
    written: &Result<usize, E>,
    before: &[u8],
    output: &[u8],
    place: usize,
) -> String {
    let (text, piece) = match written {
        Ok(size) => match output.get(place..place.saturating_add(*size)) {
            Some(piece) => (format!("written {}", hex(piece)), place..place + size),
            None => return format!("{size} bytes at {place}, past the output"),
        },
        Err(error) => (error.text(), 0..0),
    };
    let outside = |bytes: &[u8]| [&bytes[..piece.start], &bytes[piece.end..]].concat();
    if output.len() != before.len() || outside(output) != outside(before) {
        return format!("{text} with other bytes changed");
    }
    text
}

/// How many rows a section has, or its error.
fn count_text<E: Text>(rows: &Result<usize, E>) -> String {
    match rows {
        Ok(count) => format!("rows {count}"),
        Err(error) => error.text(),
    }
}

/// The rows that a table holds, or the reader's error. Says so if numbers past the rows
/// changed.
fn rows_text<E: Text>(rows: &Result<usize, E>, before: &[u32], table: &[u32]) -> String {
    let mut text = count_text(rows);
    let filled = rows
        .as_ref()
        .map_or(0, |count| count.saturating_mul(ROW_NUMBERS));
    let Some(numbers) = table.get(..filled) else {
        return format!("{text}, past the table");
    };
    for number in numbers {
        text += &format!(" {number}");
    }
    if table[filled..] != before[filled..] {
        text += " with other numbers changed";
    }
    text
}

/// The spans that a batch found, or its error. Says so if numbers past the spans changed.
fn spans_text<E: Text>(found: &Result<usize, E>, before: &[u32], spans: &[u32]) -> String {
    let (mut text, filled) = match found {
        Ok(count) => (format!("spans {count}"), count.saturating_mul(SPAN_NUMBERS)),
        Err(error) => (error.text(), 0),
    };
    let Some(numbers) = spans.get(..filled) else {
        return format!("{text}, past the spans");
    };
    for span in numbers.chunks(SPAN_NUMBERS) {
        text += &match *span {
            [NULL_MARK, NULL_MARK] => " null".to_string(),
            [CHAPTER_MARK, CHAPTER_MARK] => " chapter".to_string(),
            [start, end] => format!(" {start}:{end}"),
            _ => " part of a span".to_string(),
        };
    }
    if spans[filled..] != before[filled..] {
        text += " with other numbers changed";
    }
    text
}

/// The spans that a page has and the row that comes next, or the error. Says so if numbers past the
/// spans changed.
fn page_text<E: Text>(found: &Result<Page, E>, before: &[u32], spans: &[u32]) -> String {
    let filled = found
        .as_ref()
        .map_or(0, |page| page.spans.saturating_mul(PAGE_SPAN_NUMBERS));
    let Some(numbers) = spans.get(..filled) else {
        return format!("{}, past the spans", found.text());
    };
    let mut text = match found {
        Ok(page) => format!("spans {}", page.spans),
        Err(error) => error.text(),
    };
    for span in numbers.chunks(PAGE_SPAN_NUMBERS) {
        text += &match *span {
            [row, NULL_MARK, NULL_MARK] => format!(" {row}:null"),
            [row, CHAPTER_MARK, CHAPTER_MARK] => format!(" {row}:chapter"),
            [row, start, end] => format!(" {row}:{start}:{end}"),
            _ => " part of a span".to_string(),
        };
    }
    if let Ok(page) = found {
        text += &format!(" next {}", page.next);
    }
    if spans[filled..] != before[filled..] {
        text += " with other numbers changed";
    }
    text
}

/// Bytes that an output begins with, so that changes show.
fn noise(size: usize) -> Vec<u8> {
    (0..size).map(|at| (at * 37 + 11) as u8).collect()
}

/// A decimal number.
fn parse_number<N: FromStr>(text: &str) -> Result<N, String> {
    text.parse().map_err(|_| format!("not a number: {text:?}"))
}

/// A list with commas between its parts, `-` if it has none.
fn parse_list<T>(text: &str, part: fn(&str) -> Result<T, String>) -> Result<Vec<T>, String> {
    if text == "-" {
        return Ok(Vec::new());
    }
    text.split(',').map(part).collect()
}

/// A fragment or the close.
fn parse_call(text: &str) -> Result<Fed, String> {
    match text {
        "close" => Ok(Fed::Close),
        _ => parse_hex(text).map(Fed::Fragment),
    }
}

/// An entry for a row writer.
fn parse_entry(text: &str) -> Result<Entry, String> {
    match text {
        "n" => Ok(Entry::Null),
        "k" => Ok(Entry::Unchanged),
        _ => {
            let (start, end) = text
                .split_once(':')
                .ok_or_else(|| format!("not an entry: {text:?}"))?;
            Ok(Entry::Value {
                start: parse_number(start)?,
                end: parse_number(end)?,
            })
        }
    }
}

/// The inputs of a line, if there are as many as the call takes.
fn take<'a, const N: usize>(inputs: &[&'a str]) -> Result<[&'a str; N], String> {
    <[&str; N]>::try_from(inputs).map_err(|_| format!("{N} inputs expected, {}", inputs.len()))
}

#[cfg(test)]
mod tests {
    use super::*;

    fn echo(inputs: &[&str]) -> Result<Answers, String> {
        let [reading, archive] = take(inputs)?.map(str::to_string);
        Ok(Answers { reading, archive })
    }

    #[test]
    fn a_line_differs_if_either_side_does() {
        assert_eq!(run_line(echo, "yes yes -> yes"), Ok(()));
        for wrong in ["no yes -> yes", "yes no -> yes", "no no -> yes"] {
            assert!(run_line(echo, wrong).is_err(), "{wrong}");
        }
    }

    #[test]
    fn a_line_that_cannot_be_taken_differs() {
        for wrong in ["", "yes yes", "yes -> yes", "yes yes yes -> yes"] {
            assert!(run_line(echo, wrong).is_err(), "{wrong}");
        }
    }
}
