//! Prints two columns of a few orders, and keeps its plan for the next run.
//!
//!     column [FOLDER]         keeps the plan in FOLDER/orders.plan
//!
//! The orders stand in the program. `tests/column.rs` compares what it prints.

use std::error::Error;
use std::fs;
use std::io::{self, Write};
use std::path::{Path, PathBuf};

use adtg::{
    check_section, list_section, write_schema, Owner, Plan, Rows, Span, PLAN_LAYOUT, ROW_NUMBERS,
};

/// The columns of an order, as the numbers that a schema file is made of: a count, then type, flags
/// and maximum of each column.
const COLUMNS: [u32; 8] = [
    3, // columns
    3, 0, // id: an integer of four bytes
    130, 1, 40, // customer: nullable wide text of up to 40 characters
    18, 0, // quantity: an unsigned integer of two bytes
];
const CUSTOMER: usize = 1;
const QUANTITY: usize = 2;

/// With one more column, a nullable byte.
const COLUMNS_GAINED: [u32; 10] = [4, 3, 0, 130, 1, 40, 18, 0, 17, 1];

/// Five orders: 1001, Anna, 12; 1002, null, 3; 1003, Zoë, 300; 1004, an empty text, 1; 1005, Li, 40.
/// A row is its token, its presence map, the id, the customer with the length in bytes before it, and
/// the quantity. The done token stands last.
const SECTION: &[u8] = b"\
    \x07\x80\xE9\x03\0\0\x08A\0n\0n\0a\0\x0C\0\
    \x07\x00\xEA\x03\0\0\x03\0\
    \x07\x80\xEB\x03\0\0\x06Z\0o\0\xEB\0\x2C\x01\
    \x07\x80\xEC\x03\0\0\x00\x01\0\
    \x07\x80\xED\x03\0\0\x04L\0i\0\x28\0\
    \x0F";

fn main() -> Result<(), Box<dyn Error>> {
    let folder = std::env::args_os()
        .nth(1)
        .map_or(PathBuf::from("."), PathBuf::from);
    run(&folder, &mut io::stdout())
}

/// Prints the columns, and then two refusals.
pub fn run(folder: &Path, out: &mut impl Write) -> Result<(), Box<dyn Error>> {
    let schema = make_schema(&COLUMNS)?;
    let plan = find_plan(&schema, &folder.join("orders.plan"), out)?;

    // Check the whole section, which counts its rows, and list these in a table that has the room.
    let count = check_section(&schema, SECTION)?;
    let mut table = vec![0; count * ROW_NUMBERS];
    let rows = list_section(&schema, SECTION, &mut table)?;
    writeln!(out, "orders: {}", rows.len())?;
    print_column(&plan, rows, "customer", CUSTOMER, wide_text, out)?;
    print_column(&plan, rows, "quantity", QUANTITY, integer, out)?;

    // A section that is cut short, and a schema that gained a column.
    if let Err(error) = check_section(&schema, &SECTION[..SECTION.len() - 3]) {
        writeln!(out, "a section cut short: {}", error.describe())?;
    }
    if let Err(error) = plan.check(&make_schema(&COLUMNS_GAINED)?, 0) {
        writeln!(
            out,
            "the plan against a schema that gained a column: {}",
            error.describe()
        )?;
    }
    Ok(())
}

fn make_schema(numbers: &[u32]) -> Result<Vec<u8>, adtg::Error> {
    let mut file = vec![0; 64];
    let length = write_schema(numbers, &mut file)?;
    file.truncate(length);
    Ok(file)
}

/// The plan of the schema: the kept one where it is still right, else a new one. Whatever the file
/// holds, the check accepts only the plan that would be made.
fn find_plan(schema: &[u8], path: &Path, out: &mut impl Write) -> Result<Plan, Box<dyn Error>> {
    match load_plan(path) {
        None => writeln!(out, "plan: none of this layout was kept")?,
        Some(plan) => match plan.check(schema, 0) {
            Ok(()) => {
                writeln!(out, "plan: the kept one is right")?;
                return Ok(plan);
            }
            Err(error) => writeln!(out, "plan: the kept one is refused: {}", error.describe())?,
        },
    }
    writeln!(out, "plan: a new one is made")?;
    let plan = Plan::make(schema, 0)?;
    keep_plan(&plan, path)?;
    Ok(plan)
}

/// A file has the layout of the plan in front, and then the plan's numbers.
fn keep_plan(plan: &Plan, path: &Path) -> io::Result<()> {
    let numbers = [u64::from(PLAN_LAYOUT)].into_iter().chain(*plan.numbers());
    let bytes: Vec<u8> = numbers.flat_map(u64::to_le_bytes).collect();
    fs::write(path, bytes)
}

/// The plan that was kept, if there is one and its layout is still in use.
fn load_plan(path: &Path) -> Option<Plan> {
    let bytes = fs::read(path).ok()?;
    let eights = bytes.chunks_exact(8).map(|eight| eight.try_into().unwrap());
    let mut numbers = eights.map(u64::from_le_bytes);
    if numbers.next()? != u64::from(PLAN_LAYOUT) {
        return None;
    }
    let numbers: Vec<u64> = numbers.collect();
    numbers.try_into().ok().map(Plan::from_kept)
}

/// Prints a column of every row.
fn print_column(
    plan: &Plan,
    rows: Rows,
    name: &str,
    column: usize,
    text: fn(&[u8]) -> String,
    out: &mut impl Write,
) -> Result<(), Box<dyn Error>> {
    writeln!(out, "{name}")?;
    for found in plan.column_spans(SECTION, rows, Owner::Parents, column) {
        let (row, span) = found?;
        match span {
            Span::Field { start, end } => {
                writeln!(out, "  row {row}: {}", text(&SECTION[start..end]))?;
            }
            Span::Null => writeln!(out, "  row {row}: null")?,
            Span::Chapter => writeln!(out, "  row {row}: a chapter")?,
        }
    }
    Ok(())
}

/// Wide text: units of two bytes, the low byte first.
fn wide_text(field: &[u8]) -> String {
    let units = field
        .chunks_exact(2)
        .map(|two| u16::from_le_bytes([two[0], two[1]]));
    let units: Vec<u16> = units.collect();
    format!("{:?}", String::from_utf16_lossy(&units))
}

/// An unsigned integer, the low byte first.
fn integer(field: &[u8]) -> String {
    let bytes = field.iter().rev();
    let value = bytes.fold(0, |value: u64, byte| value << 8 | u64::from(*byte));
    value.to_string()
}
