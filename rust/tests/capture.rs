//! A tablegram that a server of Microsoft's sent, read through the functions of the crate.
//! `captures/README.md` says what it holds.

use adtg::{
    check_section, field_count, list_section, look_up, read_header, read_options, row_end, Answer,
    Error, ErrorKind, Header, Input, Options, Owner, Plan, Progress, Reader, Row, RowKind, Span,
};

const TABLEGRAM: &[u8; 744] = include_bytes!("../../captures/pubs.adtg");

/// Where the handler options start, and where the row section does.
const OPTIONS: usize = 9;
const ROWS: usize = 707;

/// Its columns: four bytes in place of a text of fixed length, a text up to 40 and one up to 20,
/// both nullable, two bytes, nullable, in place of a text of fixed length, a nullable text up to 30.
const SCHEMA: [u8; 17] = [
    0x05, 0x13, 0x00, 0x81, 0x01, 0x01, 0x28, 0x81, 0x01, 0x01, 0x14, 0x12, 0x01, 0x81, 0x01, 0x01,
    0x1E,
];

/// The fields of its row, with the start of each in the row and the prefixes up to it.
const FIELDS: [(&[u8], usize, usize); 5] = [
    (b"0736", 1, 0),
    (b"New Moon Books", 6, 1),
    (b"New York", 21, 2),
    (b"MA", 29, 2),
    (b"USA", 32, 3),
];

/// The row section, which is all from its first token on.
fn section() -> &'static [u8] {
    &TABLEGRAM[ROWS..]
}

/// The row: what stands between its token and the done token.
fn row() -> &'static [u8] {
    &section()[1..36]
}

/// What a look-up of a column of the row answers.
fn answer(column: usize) -> Answer {
    let (bytes, start, prefixes) = FIELDS[column];
    Answer::Field {
        start,
        end: start + bytes.len(),
        prefixes,
    }
}

#[test]
fn the_header_is_read() {
    let header = Header {
        major: 0,
        minor: 0,
        order: 0,
        unicode: 0,
        end: OPTIONS,
    };
    assert_eq!(read_header(TABLEGRAM), Ok(header));
}

#[test]
fn the_handler_options_are_read() {
    // Places are counted from where the options start.
    let options = Options {
        update_type: 1,
        strings: [22..22, 24..24, 26..26],
        async_option: 3,
        end: 28,
    };
    assert_eq!(read_options(&TABLEGRAM[OPTIONS..]), Ok(options));
}

#[test]
fn the_section_has_one_parent_row() {
    assert_eq!(check_section(&SCHEMA, section()), Ok(1));
    let mut table = [9; 6];
    let rows = list_section(&SCHEMA, section(), &mut table).unwrap();
    let parent = Row {
        kind: RowKind::Parent,
        child_id: None,
        original: 1,
        update: None,
    };
    assert_eq!(rows.iter().collect::<Vec<Row>>(), [parent]);
    assert_eq!(table, [1, 0, 1, 0, 9, 9]);
    assert_eq!(row_end(&SCHEMA, 0, section(), 1), Ok(36));
    assert_eq!(field_count(&SCHEMA, 0, row()), Ok(5));
}

#[test]
fn reserved_bits_are_set_and_ignored() {
    // Four bits of the map are those of nullable columns. The others are reserved.
    let mut cleared = section().to_vec();
    assert_eq!(cleared[1], 0xFF);
    cleared[1] = 0xF0;
    let (mut table, mut other) = ([0; 4], [0; 4]);
    let rows = list_section(&SCHEMA, section(), &mut table);
    assert_eq!(list_section(&SCHEMA, &cleared, &mut other), rows);
    assert_eq!(check_section(&SCHEMA, &cleared), Ok(1));
    assert_eq!(field_count(&SCHEMA, 0, &cleared[1..]), Ok(5));
    let plan = Plan::make(&SCHEMA, 0).unwrap();
    for column in 0..FIELDS.len() {
        let found = look_up(&SCHEMA, 0, &cleared[1..], column);
        assert_eq!(found, Ok(answer(column)));
        assert_eq!(plan.look_up(&cleared[1..], column), found);
    }
}

#[test]
fn the_walk_finds_the_five_fields() {
    for (column, (bytes, ..)) in FIELDS.iter().enumerate() {
        let found = look_up(&SCHEMA, 0, row(), column);
        assert_eq!(found, Ok(answer(column)));
        assert_eq!(found.unwrap().part(row()), Some(*bytes));
    }
}

#[test]
fn the_plan_finds_the_five_fields() {
    let plan = Plan::make(&SCHEMA, 0).unwrap();
    let handle = plan.open(row()).unwrap();
    for (column, (bytes, ..)) in FIELDS.iter().enumerate() {
        let found = plan.look_up(row(), column);
        assert_eq!(found, Ok(answer(column)));
        assert_eq!(found.unwrap().part(row()), Some(*bytes));
        assert_eq!(handle.look_up(column), found);
    }
}

#[test]
fn the_batch_finds_the_five_fields() {
    let plan = Plan::make(&SCHEMA, 0).unwrap();
    let mut table = [0; 4];
    let rows = list_section(&SCHEMA, section(), &mut table).unwrap();
    for (column, (bytes, start, _)) in FIELDS.iter().enumerate() {
        let mut numbers = [0; 2];
        let spans = plan.find_column(
            section(),
            rows.numbers(),
            Owner::Parents,
            column,
            &mut numbers,
        );
        // In the section the row's token stands before the row.
        let (start, end) = (1 + start, 1 + start + bytes.len());
        let spans: Vec<Span> = spans.unwrap().iter().collect();
        assert_eq!(spans, [Span::Field { start, end }]);
        assert_eq!(spans[0].part(section()), Some(*bytes));
    }
}

#[test]
fn the_iterator_finds_the_five_fields() {
    let plan = Plan::make(&SCHEMA, 0).unwrap();
    let mut table = [0; 4];
    let rows = list_section(&SCHEMA, section(), &mut table).unwrap();
    for (column, (bytes, start, _)) in FIELDS.iter().enumerate() {
        let found = plan.column_spans(section(), rows, Owner::Parents, column);
        // In the section the row's token stands before the row.
        let (start, end) = (1 + start, 1 + start + bytes.len());
        let found: Vec<(usize, Span)> = found.map(Result::unwrap).collect();
        assert_eq!(found, [(0, Span::Field { start, end })]);
        assert_eq!(found[0].1.part(section()), Some(*bytes));
    }
}

#[test]
fn the_section_may_arrive_byte_by_byte() {
    let mut reader = Reader::new();
    for (at, byte) in section().iter().enumerate() {
        // The row ends with its last field, and the section with the token behind it.
        let wanted = match at {
            0..35 => Progress::Going(0),
            35 => Progress::Going(1),
            _ => Progress::Complete(1),
        };
        assert_eq!(reader.feed(&SCHEMA, &[*byte]), Ok(wanted), "{at}");
    }
    assert_eq!(reader.close(&SCHEMA), Ok(1));
}

#[test]
fn a_capture_that_is_cut_off_is_refused_at_its_end() {
    let short = |offset, input| Error {
        kind: ErrorKind::Short,
        offset,
        input,
    };
    for end in 0..OPTIONS {
        let cut = &TABLEGRAM[..end];
        assert_eq!(read_header(cut), Err(short(end, Input::Single)));
    }
    for end in 0..28 {
        let cut = &TABLEGRAM[OPTIONS..OPTIONS + end];
        assert_eq!(read_options(cut), Err(short(end, Input::Single)));
    }
    for end in 0..section().len() {
        let cut = &section()[..end];
        let refused = short(end, Input::Section);
        assert_eq!(check_section(&SCHEMA, cut), Err(refused));
        assert_eq!(list_section(&SCHEMA, cut, &mut [0; 4]), Err(refused));
        let mut reader = Reader::new();
        assert!(reader.feed(&SCHEMA, cut).is_ok());
        assert_eq!(reader.close(&SCHEMA), Err(refused));
    }
}
