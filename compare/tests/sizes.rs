//! The size limit comes before everything else, and names the first input that is over it.

use compare::archive::{self, Fault};
use compare::reading::arrival::{Arrival, Progress};
use compare::reading::batch::PARENTS;
use compare::reading::encode::{write_original, write_update};
use compare::reading::page::{Asked, Page};
use compare::reading::plan::make_plan;
use compare::reading::row::{field_count, look_up, row_end, Answer};
use compare::reading::schema::{
    read_schema, schema_column, schema_columns, schema_numbers, schema_of_child,
};
use compare::reading::section::{check_section, list_section, END, PARENT, ROW_NUMBERS};
use compare::reading::update::{current, look_update, update_end};
use compare::reading::{Error, ErrorCode, Input, MAX_INPUT};

/// One column of one byte that is not nullable.
const SCHEMA: [u8; 3] = [0x01, 0x11, 0x00];
/// One column of bytes that is not nullable, and the longest value that it can have.
const LONG: [u8; 7] = [0x01, 0x80, 0x01, 0x00, 0xFF, 0xFF, 0x01];
const LONGEST: usize = 32_767;
/// A schema that is refused for its count.
const BAD: [u8; 1] = [0x00];

fn over<T>(input: Input) -> Result<T, Error> {
    Err(Error::new(ErrorCode::Oversize, 0, input))
}

#[test]
fn an_input_over_the_limit_is_named() {
    let large = vec![0; MAX_INPUT + 1];
    assert_eq!(read_schema(&large), over(Input::Only));
    assert_eq!(schema_columns(&large, 9), over(Input::Schema));
    assert_eq!(schema_column(&large, 9, 9), over(Input::Schema));
    assert_eq!(schema_of_child(&large, 9), over(Input::Schema));
    assert_eq!(schema_numbers(&large, &mut []), over(Input::Schema));
    assert_eq!(make_plan(&large, 9), over(Input::Schema));
    assert_eq!(look_up(&large, 9, &large, 9), over(Input::Schema));
    assert_eq!(look_up(&BAD, 9, &large, 9), over(Input::Row));
    assert_eq!(field_count(&BAD, 9, &large), over(Input::Row));
    assert_eq!(row_end(&large, 9, &large, 9), over(Input::Schema));
    assert_eq!(row_end(&BAD, 9, &large, 9), over(Input::Row));
    assert_eq!(look_update(&large, 9, &large, 9), over(Input::Schema));
    assert_eq!(look_update(&BAD, 9, &large, 9), over(Input::Update));
    assert_eq!(update_end(&large, 9, &large, 9), over(Input::Schema));
    assert_eq!(update_end(&BAD, 9, &large, 9), over(Input::Update));
    assert_eq!(current(&large, 9, &large, &large, 9), over(Input::Schema));
    assert_eq!(current(&BAD, 9, &large, &large, 9), over(Input::Update));
    assert_eq!(current(&BAD, 9, &large, &[], 9), over(Input::Row));
    assert_eq!(check_section(&large, &large), over(Input::Schema));
    assert_eq!(check_section(&BAD, &large), over(Input::Section));
    assert_eq!(list_section(&large, &large, &mut []), over(Input::Schema));
    assert_eq!(list_section(&BAD, &large, &mut []), over(Input::Section));
    for writer in [write_original, write_update] {
        let schema = writer(&large, 9, &[], &large, &mut [], 9);
        assert_eq!(schema, over(Input::Schema));
        let values = writer(&BAD, 9, &[], &large, &mut [], 9);
        assert_eq!(values, over(Input::Values));
    }
    let plan = make_plan(&SCHEMA, 0).unwrap();
    assert_eq!(plan.look_up(&large, 9), over(Input::Row));
    assert_eq!(plan.open(&large).map(|_| ()), over(Input::Row));
}

#[test]
fn sections_and_their_files_are_measured_before_they_are_read() {
    let large = vec![0; MAX_INPUT + 1];
    let full = &large[..MAX_INPUT];
    for (schema, section, input) in [
        (&large[..], &large[..], Input::Schema),
        (&large, full, Input::Schema),
        (&large, &[], Input::Schema),
        (full, &large, Input::Section),
        (&BAD, &large, Input::Section),
        (&SCHEMA, &large, Input::Section),
    ] {
        let error = Error::new(ErrorCode::Oversize, 0, input);
        assert_eq!(check_section(schema, section), Err(error));
        let of_archive = archive::check_section(schema, section);
        assert_eq!(of_archive, Err(Fault::Error(error)));
        let mut table = [9; 5];
        assert_eq!(list_section(schema, section, &mut table), Err(error));
        let of_archive = archive::list_section(schema, section, &mut table);
        assert_eq!(of_archive, Err(Fault::Error(error)));
        assert_eq!(table, [9; 5]);
    }
}

#[test]
fn a_batch_measures_the_section_before_its_rows() {
    let large = vec![0; MAX_INPUT + 1];
    let plan = make_plan(&SCHEMA, 0).unwrap();
    let numbers = plan.numbers();
    // Rows at the start, at the last byte and at the end of a section at the limit.
    let end = MAX_INPUT as u32;
    let rows = [1, 0, 0, 0, 1, 0, end - 1, 0, 1, 0, end, 0];
    let find = |section: &[u8], rows: &[u32], column| {
        let (mut ours, mut theirs) = ([9; 5], [9; 5]);
        let reading = plan.find_column(section, rows, PARENTS, column, &mut ours);
        let archive = archive::find_column(&numbers, section, rows, PARENTS, column, &mut theirs);
        assert_eq!(archive, reading.map_err(Fault::Error));
        assert_eq!(theirs, ours);
        (reading, ours)
    };
    assert_eq!(find(&large, &rows, 9), (over(Input::Section), [9; 5]));
    assert_eq!(find(&large, &[], 9), (over(Input::Section), [9; 5]));
    let full = &large[..MAX_INPUT];
    let spans = [0, 1, end - 1, end, 9];
    assert_eq!(find(full, &rows[..8], 0), (Ok(2), spans));
    let behind = Error::new(ErrorCode::Truncated, MAX_INPUT, Input::Section);
    assert_eq!(find(full, &rows, 0), (Err(behind), [9; 5]));
}

/// What both sides answer to a page of the plan of `SCHEMA`, and the seven spans that they are lent.
fn find_page(asked: &Asked) -> (Result<Page, Error>, [u32; 7]) {
    let plan = make_plan(&SCHEMA, 0).unwrap();
    let (mut ours, mut theirs) = ([9; 7], [9; 7]);
    let reading = plan.find_page(asked, &mut ours);
    let archive = archive::find_page(&plan.numbers(), asked, &mut theirs);
    assert_eq!(archive, reading.map_err(Fault::Error));
    assert_eq!(theirs, ours);
    (reading, ours)
}

#[test]
fn a_page_measures_the_section_before_its_rows() {
    let large = vec![0; MAX_INPUT + 1];
    // Rows at the start, at the last byte and at the end of a section at the limit.
    let end = MAX_INPUT as u32;
    let table = [1, 0, 0, 0, 1, 0, end - 1, 0, 1, 0, end, 0];
    let find = |section: &[u8], rows, from, column| {
        find_page(&Asked {
            section,
            table: &table,
            rows,
            from,
            owner: PARENTS,
            column,
        })
    };
    assert_eq!(find(&large, 3, 0, 9), (over(Input::Section), [9; 7]));
    assert_eq!(find(&large, 9, 99, 9), (over(Input::Section), [9; 7]));
    assert_eq!(find(&large, 0, 0, 9), (over(Input::Section), [9; 7]));
    let full = &large[..MAX_INPUT];
    let spans = [0, 0, 1, 1, end - 1, end, 9];
    let page = |next| Ok(Page { spans: 2, next });
    assert_eq!(find(full, 2, 0, 0), (page(2), spans));
    assert_eq!(find(full, 3, 0, 0), (page(2), spans));
    let behind = Error::new(ErrorCode::Truncated, MAX_INPUT, Input::Section);
    assert_eq!(find(full, 3, 2, 0), (Err(behind), [9; 7]));
}

#[test]
fn a_page_has_no_more_rows_than_a_section_can_have() {
    let table = vec![0; ROW_NUMBERS * (MAX_INPUT + 1)];
    let find = |table: &[u32], rows, from| {
        find_page(&Asked {
            section: &[],
            table,
            rows,
            from,
            owner: PARENTS,
            column: 0,
        })
    };
    let missing = |input| (Err(Error::new(ErrorCode::NoSuch, 0, input)), [9; 7]);
    assert_eq!(find(&table, MAX_INPUT + 1, 0), missing(Input::Table));
    assert_eq!(find(&table, usize::MAX, 0), missing(Input::Table));
    let page = |next| (Ok(Page { spans: 0, next }), [9; 7]);
    assert_eq!(find(&table, MAX_INPUT, 0), page(MAX_INPUT));
    assert_eq!(find(&table, MAX_INPUT, MAX_INPUT), page(MAX_INPUT));
    let place = missing(Input::Place);
    assert_eq!(find(&table, MAX_INPUT, MAX_INPUT + 1), place);
    // Numbers that make no row are none.
    assert_eq!(find(&table[..7], 1, 0), page(1));
    assert_eq!(find(&table[..7], 2, 3), missing(Input::Table));
    // Four times this number is 4, if high bits are lost.
    assert_eq!(find(&table[..4], (1 << 62) + 1, 0), missing(Input::Table));
}

#[test]
fn a_section_at_the_limit_is_read() {
    // A chapter that is not nullable: rows have no bytes.
    let schema = [0x01, 0x88, 0x01, 0x00, 0x07, 0x01, 0x11, 0x00];
    let mut section = vec![PARENT; MAX_INPUT];
    section[MAX_INPUT - 1] = END;
    let rows = MAX_INPUT - 1;
    assert_eq!(check_section(&schema, &section), Ok(rows));
    assert_eq!(archive::check_section(&schema, &section), Ok(rows));
    let error = Error::new(ErrorCode::Capacity, rows, Input::Table);
    assert_eq!(list_section(&schema, &section, &mut [9; 7]), Err(error));
    let of_archive = archive::list_section(&schema, &section, &mut [9; 7]);
    assert_eq!(of_archive, Err(Fault::Error(error)));
}

/// What both sides answer to these fragments, one after the other, and then to the close.
fn fed(schema: &[u8], fragments: &[&[u8]]) -> Vec<Result<Progress, Error>> {
    let (mut arrival, mut reader) = (Arrival::default(), adtg::Reader::new());
    let mut answers = Vec::new();
    for fragment in fragments {
        let answer = arrival.feed(schema, fragment);
        let of_archive = archive::feed(schema, &mut reader, fragment);
        assert_eq!(of_archive, answer.map_err(Fault::Error));
        answers.push(answer);
    }
    let answer = arrival.close(schema);
    let of_archive = archive::close(schema, &mut reader);
    assert_eq!(of_archive, answer.map_err(Fault::Error));
    answers.push(answer);
    answers
}

/// Rows of one long column, of so many bytes together.
fn long_rows(size: usize) -> Vec<u8> {
    let mut bytes = Vec::with_capacity(size + 3);
    while bytes.len() < size {
        let length = LONGEST.min(size - bytes.len() - 5);
        bytes.push(PARENT);
        bytes.extend((length as u32).to_le_bytes());
        bytes.resize(bytes.len() + length, 0x2A);
    }
    bytes
}

#[test]
fn fragments_are_measured_together() {
    let of_section = |code, offset| Err(Error::new(code, offset, Input::Section));
    let over_limit = over(Input::Section);
    let rows = MAX_INPUT.div_ceil(5 + LONGEST);
    let (going, complete) = (Ok(Progress::Going(rows)), Ok(Progress::Complete(rows)));
    // Whole rows up to the limit, and no end.
    let short = long_rows(MAX_INPUT);
    let truncated = of_section(ErrorCode::Truncated, MAX_INPUT);
    assert_eq!(fed(&LONG, &[&short]), [going, truncated]);
    let answers = fed(&LONG, &[&short, &[], &[END]]);
    assert_eq!(answers, [going, going, over_limit, over_limit]);
    assert_eq!(fed(&LONG, &[&short.repeat(2)]), [over_limit; 2]);
    // The end is the last byte within the limit.
    let mut full = long_rows(MAX_INPUT - 1);
    full.push(END);
    assert_eq!(fed(&LONG, &[&full]), [complete; 2]);
    let answers = fed(&LONG, &[&full, &[], &[END]]);
    assert_eq!(answers, [complete, complete, over_limit, over_limit]);
    full.push(END);
    assert_eq!(fed(&LONG, &[&full]), [over_limit; 2]);
    // The byte behind the end is the last one within the limit.
    let mut behind = long_rows(MAX_INPUT - 2);
    behind.extend([END; 3]);
    let trailing = of_section(ErrorCode::Trailing, MAX_INPUT - 1);
    assert_eq!(fed(&LONG, &[&behind]), [trailing; 2]);
    let (first, rest) = behind.split_at(MAX_INPUT - 1);
    assert_eq!(fed(&LONG, &[first, rest]), [complete, trailing, trailing]);
    // The file has a limit of its own, and its other errors come first too.
    let range = Err(Error::new(ErrorCode::NumberRange, 0, Input::Schema));
    assert_eq!(fed(&BAD, &[&full]), [range; 2]);
    assert_eq!(fed(&full, &[&[]]), [over(Input::Schema); 2]);
    assert_eq!(fed(&full, &[&full]), [over(Input::Schema); 2]);
}

#[test]
fn an_input_at_the_limit_is_read() {
    let mut large = vec![0; MAX_INPUT];
    let field = Answer::Field {
        place: 0..1,
        prefixes: 0,
    };
    assert_eq!(look_up(&SCHEMA, 0, &large, 0), Ok(field));
    assert_eq!(row_end(&SCHEMA, 0, &large, MAX_INPUT - 1), Ok(MAX_INPUT));
    assert_eq!(update_end(&SCHEMA, 0, &large, 7), Ok(9));
    // A schema file of one column, then bytes that do not belong to it.
    large[..3].copy_from_slice(&SCHEMA);
    let trailing = Error::new(ErrorCode::Trailing, 3, Input::Only);
    assert_eq!(read_schema(&large), Err(trailing));
    // Rows of one byte each, and no end token.
    for pair in large.chunks_mut(2) {
        pair.copy_from_slice(&[0x07, 0x2A]);
    }
    let truncated = Error::new(ErrorCode::Truncated, MAX_INPUT, Input::Section);
    assert_eq!(check_section(&SCHEMA, &large), Err(truncated));
    assert_eq!(list_section(&SCHEMA, &large, &mut []), Err(truncated));
}
