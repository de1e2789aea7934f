//! The calls of the proved archive, with the reading's types. A reply is taken as it comes, so that
//! one without a meaning is a difference and not the end of the run.

use adtg::raw::{self, Malformed};

use crate::reading::arrival::Progress;
use crate::reading::header::Header;
use crate::reading::numbers::PlanNumbers;
use crate::reading::options::Options;
use crate::reading::page::{Asked, Page, PAGE_SPAN_NUMBERS};
use crate::reading::row::Answer;
use crate::reading::schema::{Counts, Description};
use crate::reading::update::{Change, Current};
use crate::reading::{Error, ErrorCode, Input};

/// Why a call of the archive gave no answer.
#[derive(Clone, Debug, PartialEq, Eq)]
pub enum Fault {
    /// An error of the rules.
    Error(Error),
    /// A reply that the interface does not allow.
    Malformed(Malformed),
}

/// What a call of the archive answers.
pub type Reply<T> = Result<T, Fault>;

/// The archive's reading of a header.
pub fn read_header(bytes: &[u8]) -> Reply<Header> {
    told(raw::read_header(bytes).decode())
}

/// The archive's header writer: bytes written at the start of `output`.
pub fn write_header(
    major: u8,
    minor: u8,
    order: u8,
    unicode: u8,
    output: &mut [u8],
) -> Reply<usize> {
    told(raw::write_header(major, minor, order, unicode, output).decode())
}

/// The archive's short header writer: bytes written at the start of `output`.
pub fn write_header_short(major: u8, minor: u8, output: &mut [u8]) -> Reply<usize> {
    told(raw::write_header_short(major, minor, output).decode())
}

/// The archive's reading of handler options.
pub fn read_options(bytes: &[u8]) -> Reply<Options> {
    told(raw::read_options(bytes).decode())
}

/// The archive's options writer: bytes written at the start of `output`.
pub fn write_options(strings: [&[u8]; 3], async_option: u16, output: &mut [u8]) -> Reply<usize> {
    told(raw::write_options(strings, async_option, output).decode())
}

/// The archive's counts of a schema file.
pub fn read_schema(bytes: &[u8]) -> Reply<Counts> {
    told(raw::read_schema(bytes).decode())
}

/// The archive's count of the columns of one schema.
pub fn schema_columns(bytes: &[u8], number: usize) -> Reply<usize> {
    told(raw::schema_columns(bytes, number).decode())
}

/// What the archive says about one column of one schema.
pub fn schema_column(bytes: &[u8], number: usize, column: usize) -> Reply<Description> {
    told(raw::schema_column(bytes, number, column).decode())
}

/// The archive's number of the schema with this child id.
pub fn schema_of_child(bytes: &[u8], id: u32) -> Reply<usize> {
    told(raw::schema_of_child(bytes, id).decode())
}

/// The archive's schema writer: bytes written at the start of `output`.
pub fn write_schema(numbers: &[u32], output: &mut [u8]) -> Reply<usize> {
    told(raw::write_schema(numbers, output).decode())
}

/// The archive's list of a schema file's numbers: how many stand at the start of `table`.
pub fn schema_numbers(bytes: &[u8], table: &mut [u32]) -> Reply<usize> {
    told(raw::schema_numbers(bytes, table).decode())
}

/// What the archive finds in one column of a row.
pub fn look_up(file: &[u8], number: usize, row: &[u8], column: usize) -> Reply<Answer> {
    told(raw::look_up(file, number, row, column).decode())
}

/// The archive's number of the fields of a row.
pub fn field_count(file: &[u8], number: usize, row: &[u8]) -> Reply<usize> {
    told(raw::field_count(file, number, row).decode())
}

/// Where the archive sees the end of the original row data at `at`.
pub fn row_end(file: &[u8], number: usize, row: &[u8], at: usize) -> Reply<usize> {
    told(raw::row_end(file, number, row, at).decode())
}

/// What update data say about one column, for the archive.
pub fn look_update(file: &[u8], number: usize, update: &[u8], column: usize) -> Reply<Change> {
    told(raw::look_update(file, number, update, column).decode())
}

/// Where the archive sees the end of the update data at `at`.
pub fn update_end(file: &[u8], number: usize, update: &[u8], at: usize) -> Reply<usize> {
    told(raw::update_end(file, number, update, at).decode())
}

/// The archive's current value of one column of a changed row.
pub fn current(
    file: &[u8],
    number: usize,
    row: &[u8],
    update: &[u8],
    column: usize,
) -> Reply<Current> {
    told(raw::current(file, number, row, update, column).decode())
}

/// The archive's writer of original row data: bytes written from `place` on. Entries are three
/// numbers each.
pub fn write_original(
    file: &[u8],
    number: usize,
    entries: &[u32],
    values: &[u8],
    place: usize,
    output: &mut [u8],
) -> Reply<usize> {
    told(raw::write_original(file, number, entries, values, place, output).decode())
}

/// The archive's writer of update data: bytes written from `place` on. Entries are three
/// numbers each.
pub fn write_update(
    file: &[u8],
    number: usize,
    entries: &[u32],
    values: &[u8],
    place: usize,
    output: &mut [u8],
) -> Reply<usize> {
    told(raw::write_update(file, number, entries, values, place, output).decode())
}

/// The archive's check of a whole row section: how many rows it has.
pub fn check_section(file: &[u8], section: &[u8]) -> Reply<usize> {
    told(raw::check_section(file, section).decode())
}

/// The archive's list of the rows of a section: how many stand at the start of `table`, four
/// numbers each.
pub fn list_section(file: &[u8], section: &[u8], table: &mut [u32]) -> Reply<usize> {
    told(raw::list_section(file, section, table).decode())
}

/// What the archive answers to the next fragment of a section.
pub fn feed(file: &[u8], reader: &mut adtg::Reader, fragment: &[u8]) -> Reply<Progress> {
    told(raw::feed(file, reader, fragment).decode())
}

/// What the archive answers when a section is over, which is never that it goes on.
pub fn close(file: &[u8], reader: &mut adtg::Reader) -> Reply<Progress> {
    told(raw::close(file, reader).decode_closed()).map(Progress::Complete)
}

/// The archive's plan of one schema of a file.
pub fn make_plan(file: &[u8], number: usize) -> Reply<PlanNumbers> {
    told(raw::make_plan(file, number).decode())
}

/// The archive's check that a plan is the one of this schema.
pub fn check_plan(plan: &PlanNumbers, file: &[u8], number: usize) -> Reply<()> {
    told(raw::check_plan(&plan_of(plan), file, number).decode())
}

/// The place that a plan fixes for the archive; `None` if it depends on the row.
pub fn fixed_place(plan: &PlanNumbers, column: usize) -> Reply<Option<usize>> {
    told(raw::fixed_place(&plan_of(plan), column).decode())
}

/// What the archive finds in one column of a row through a plan.
pub fn planned_look_up(plan: &PlanNumbers, row: &[u8], column: usize) -> Reply<Answer> {
    told(plan_of(plan).find(row, column).decode())
}

/// Opens a row for the archive: where its data start.
pub fn open_row(plan: &PlanNumbers, row: &[u8]) -> Reply<usize> {
    told(raw::open_row(&plan_of(plan), row).decode())
}

/// What the archive finds in one column through the row's handle, or the error of opening it.
pub fn open_look_up(plan: &PlanNumbers, row: &[u8], column: usize) -> Reply<Answer> {
    match plan_of(plan).open(row) {
        Ok(handle) => told(handle.find(column).decode()),
        Err(error) => Err(Fault::Error(error.into())),
    }
}

/// The archive's batch: how many spans stand at the start of `spans`, two numbers each.
pub fn find_column(
    plan: &PlanNumbers,
    section: &[u8],
    rows: &[u32],
    owner: usize,
    column: usize,
    spans: &mut [u32],
) -> Reply<usize> {
    told(raw::find_column(&plan.numbers, section, rows, owner, column, spans).decode())
}

/// The archive's page of a column: how many spans stand at the start of `spans`, three numbers each,
/// and which row comes next.
pub fn find_page(plan: &PlanNumbers, asked: &Asked, spans: &mut [u32]) -> Reply<Page> {
    let room = spans.len() / PAGE_SPAN_NUMBERS;
    let Asked {
        section,
        table,
        rows,
        from,
        owner,
        column,
    } = *asked;
    let numbers = &plan.numbers;
    let reply = raw::find_page(numbers, section, table, rows, from, owner, column, spans);
    told(reply.decode(from..rows, room))
}

/// What a call answered, with the reading's types.
fn told<T, U: From<T>>(decoded: Result<Result<T, adtg::Error>, Malformed>) -> Reply<U> {
    match decoded {
        Ok(Ok(value)) => Ok(value.into()),
        Ok(Err(error)) => Err(Fault::Error(error.into())),
        Err(malformed) => Err(Fault::Malformed(malformed)),
    }
}

/// The plan of these numbers.
fn plan_of(plan: &PlanNumbers) -> adtg::Plan {
    adtg::Plan::from_numbers(plan.numbers)
}

impl From<adtg::Error> for Error {
    fn from(error: adtg::Error) -> Error {
        let code = ErrorCode::from_number(error.kind.code());
        let input = Input::from_number(error.input.code());
        Error {
            code: code.expect("the codes are the same"),
            offset: error.offset,
            input: input.expect("the inputs are the same"),
        }
    }
}

impl From<adtg::Header> for Header {
    fn from(header: adtg::Header) -> Header {
        Header {
            major: header.major,
            minor: header.minor,
            order: header.order,
            unicode: header.unicode,
            end: header.end,
        }
    }
}

impl From<adtg::Options> for Options {
    fn from(options: adtg::Options) -> Options {
        Options {
            update_type: options.update_type,
            strings: options.strings,
            async_option: options.async_option,
            end: options.end,
        }
    }
}

impl From<adtg::Counts> for Counts {
    fn from(counts: adtg::Counts) -> Counts {
        Counts {
            schemas: counts.schemas,
            columns: counts.columns,
        }
    }
}

impl From<adtg::Column> for Description {
    fn from(column: adtg::Column) -> Description {
        Description {
            code: column.code,
            flags: column.nullable.into(),
            maximum: column.maximum.unwrap_or(0),
            child_id: column.chapter.map_or(0, |chapter| chapter.child_id),
            nested: column.chapter.map_or(0, |chapter| chapter.schema),
        }
    }
}

impl From<adtg::Answer> for Answer {
    fn from(answer: adtg::Answer) -> Answer {
        match answer {
            adtg::Answer::Field {
                start,
                end,
                prefixes,
            } => Answer::Field {
                place: start..end,
                prefixes,
            },
            adtg::Answer::Null => Answer::Null,
            adtg::Answer::Chapter => Answer::Chapter,
        }
    }
}

impl From<adtg::Change> for Change {
    fn from(change: adtg::Change) -> Change {
        match change {
            adtg::Change::Field {
                start,
                end,
                prefixes,
            } => Change::Field {
                place: start..end,
                prefixes,
            },
            adtg::Change::Null => Change::Null,
            adtg::Change::Chapter => Change::Chapter,
            adtg::Change::Unchanged => Change::Unchanged,
        }
    }
}

impl From<adtg::Current> for Current {
    fn from(current: adtg::Current) -> Current {
        match current {
            adtg::Current::Original(answer) => Current::Original(answer.into()),
            adtg::Current::Updated {
                start,
                end,
                prefixes,
            } => Current::Updated {
                place: start..end,
                prefixes,
            },
            adtg::Current::Forced => Current::Forced,
        }
    }
}

impl From<adtg::Progress> for Progress {
    fn from(progress: adtg::Progress) -> Progress {
        match progress {
            adtg::Progress::Going(elements) => Progress::Going(elements),
            adtg::Progress::Complete(rows) => Progress::Complete(rows),
        }
    }
}

impl From<raw::Paged> for Page {
    fn from(paged: raw::Paged) -> Page {
        Page {
            spans: paged.spans,
            next: paged.next,
        }
    }
}

impl From<adtg::Plan> for PlanNumbers {
    fn from(plan: adtg::Plan) -> PlanNumbers {
        PlanNumbers {
            numbers: *plan.numbers(),
        }
    }
}

#[cfg(test)]
mod tests {
    use super::*;

    #[test]
    fn every_error_has_its_own_code_and_input() {
        for (kind, code) in adtg::ErrorKind::ALL.into_iter().zip(ErrorCode::ALL) {
            for (input, of_reading) in adtg::Input::ALL.into_iter().zip(Input::ALL) {
                let error = adtg::Error {
                    kind,
                    offset: 9,
                    input,
                };
                assert_eq!(Error::from(error), Error::new(code, 9, of_reading));
            }
        }
        assert_eq!(adtg::ErrorKind::ALL.len(), ErrorCode::ALL.len());
        assert_eq!(adtg::Input::ALL.len(), Input::ALL.len());
        assert_eq!(adtg::MAX_INPUT, crate::reading::MAX_INPUT);
    }

    #[test]
    fn a_reply_without_a_meaning_is_no_answer() {
        let malformed = Malformed {
            code: 21,
            numbers: Box::new([0; 16]),
        };
        let decoded: Result<Result<usize, adtg::Error>, Malformed> = Err(malformed.clone());
        let reply: Reply<usize> = told(decoded);
        assert_eq!(reply, Err(Fault::Malformed(malformed)));
    }
}
