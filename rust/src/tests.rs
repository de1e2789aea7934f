//! Examples that the tests of all modules share, and what holds of every call.

use crate::raw::{self, Numbers, Reply, Value, UNTOUCHED};
use crate::{ErrorKind, Input, Plan, MAX_INPUT};

/// A four-byte integer, nullable wide text up to 10, a nullable byte.
pub(crate) const S: [u8; 9] = [0x03, 0x03, 0x00, 0x82, 0x01, 0x01, 0x0A, 0x11, 0x01];

/// A row of S.
pub(crate) const ROW: [u8; 11] = [0xC0, 5, 0, 0, 0, 4, 0x68, 0, 0x69, 0, 0x2A];

/// A four-byte integer, and a chapter with child id 7 whose rows have one byte.
pub(crate) const T: [u8; 10] = [0x02, 0x03, 0x00, 0x88, 0x01, 0x00, 0x07, 0x01, 0x11, 0x00];

/// A section of T: a parent row, and a child row with its change.
pub(crate) const SECTION: [u8; 20] = [
    0x07, 5, 0, 0, 0, 0x87, 7, 0, 0, 0, 0x2A, 0x8A, 7, 0, 0, 0, 0x80, 0x00, 0x2B, 0x0F,
];

/// These numbers, and zeros behind them.
pub(crate) fn numbers(first: &[u64]) -> Numbers {
    let mut numbers = [0; 16];
    numbers[..first.len()].copy_from_slice(first);
    numbers
}

/// A reply has this code, and the call wrote all its numbers: the zeros too.
fn filled<T: Value>(reply: &Reply<T>, code: u32) {
    assert_eq!(reply.code, code);
    assert!(!reply.numbers.contains(&UNTOUCHED), "{:?}", reply.numbers);
    assert!(reply.decode().is_ok(), "{:?}", reply.numbers);
}

#[test]
fn every_call_writes_all_sixteen_numbers() {
    let (header, options) = (*b"\x01\x07TG!\x01\x00\x00\x00", {
        let mut options = [0; 28];
        filled(&raw::write_options([&[]; 3], 1, &mut options), 0);
        options
    });
    let (room, table) = (&mut [0; 40][..], &mut [0; 40][..]);
    filled(&raw::read_header(&header), 0);
    filled(&raw::read_header(&[]), 1);
    filled(&raw::write_header(1, 0, 0, 0, room), 0);
    filled(&raw::write_header(1, 0, 0, 2, room), 3);
    filled(&raw::write_header_short(1, 0, room), 0);
    filled(&raw::write_header_short(1, 0, &mut []), 16);
    filled(&raw::read_options(&options), 0);
    filled(&raw::read_options(&[]), 1);
    filled(&raw::write_options([&[]; 3], 4, room), 3);
    filled(&raw::read_schema(&T), 0);
    filled(&raw::read_schema(&[]), 1);
    filled(&raw::schema_columns(&T, 1), 0);
    filled(&raw::schema_columns(&T, 2), 18);
    filled(&raw::schema_column(&T, 0, 1), 0);
    filled(&raw::schema_column(&T, 0, 2), 18);
    filled(&raw::schema_of_child(&T, 7), 0);
    filled(&raw::schema_of_child(&T, 8), 18);
    filled(&raw::write_schema(&[1, 3, 0], room), 0);
    filled(&raw::write_schema(&[], room), 1);
    filled(&raw::schema_numbers(&T, table), 0);
    filled(&raw::schema_numbers(&T, &mut []), 16);
    filled(&raw::check_section(&T, &SECTION), 0);
    filled(&raw::check_section(&T, &[]), 1);
    filled(&raw::list_section(&T, &SECTION, table), 0);
    filled(&raw::list_section(&T, &[], table), 1);
    filled(&raw::list_section(&T, &SECTION, &mut []), 16);
    filled(&raw::look_up(&S, 0, &ROW, 1), 0);
    filled(&raw::look_up(&S, 0, &ROW, 3), 18);
    filled(&raw::field_count(&S, 0, &ROW), 0);
    filled(&raw::field_count(&S, 0, &[]), 1);
    filled(&raw::row_end(&S, 0, &ROW, 0), 0);
    filled(&raw::row_end(&S, 0, &ROW, 11), 1);
    filled(&raw::look_update(&S, 0, &[0, 0], 1), 0);
    filled(&raw::look_update(&S, 0, &[0, 0], 3), 18);
    filled(&raw::update_end(&S, 0, &[0, 0], 0), 0);
    filled(&raw::update_end(&S, 0, &[0, 0], 1), 1);
    filled(&raw::current(&S, 0, &ROW, &[0, 0], 1), 0);
    filled(&raw::current(&S, 0, &ROW, &[0], 1), 1);
    let entries = [1, 0, 4, 0, 0, 0, 0, 0, 0];
    filled(&raw::write_original(&S, 0, &entries, &[0; 4], 0, room), 0);
    filled(&raw::write_original(&S, 0, &entries, &[0; 4], 41, room), 18);
    filled(&raw::write_update(&S, 0, &entries, &[0; 4], 0, room), 0);
    filled(&raw::write_update(&S, 0, &[3; 9], &[0; 4], 0, room), 18);
    let plan = Plan::make(&S, 0).unwrap();
    filled(&raw::check_plan(&plan, &S, 0), 0);
    filled(&raw::check_plan(&plan, &T, 0), 17);
    filled(&raw::fixed_place(&plan, 1), 0);
    filled(&raw::fixed_place(&plan, 3), 18);
    filled(&raw::open_row(&plan, &ROW), 0);
    filled(&raw::open_row(&plan, &[]), 1);
    let numbers = plan.numbers();
    let find = |row: &[u8], rows: &[u32], column, spans: &mut [u32]| {
        raw::find_column(numbers, row, rows, usize::MAX, column, spans)
    };
    filled(&find(&ROW, &[1, 0, 0, 0], 1, table), 0);
    filled(&find(&ROW, &[1, 0, 11, 0], 1, table), 1);
    filled(&find(&ROW, &[1, 0, 0, 0], 3, table), 18);
    filled(&find(&ROW, &[1, 0, 0, 0], 1, &mut []), 16);
    filled(&raw::version(), 0);
}

#[test]
fn the_largest_input_is_read_and_a_larger_one_refused() {
    let bytes = vec![0; MAX_INPUT + 1];
    let short = crate::read_header(&bytes[..MAX_INPUT]).unwrap_err();
    assert_eq!(short.kind, ErrorKind::Constant);
    let large = crate::read_header(&bytes).unwrap_err();
    assert_eq!(
        (large.kind, large.input),
        (ErrorKind::TooLarge, Input::Single)
    );
}
