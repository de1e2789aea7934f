//! Safe calls of the proved reader and writer of ADTG tablegrams: slices in, enums out.
//!
//! `docs/FORMAT.md` of the project describes the format: the header and the options, schema files, row
//! data and row sections. `adtg.h` declares the calls. The functions here have the same names, without
//! the prefix. A plan is a value with methods.
//!
//! Every call takes any bytes and any values. If it refuses them, it says why as an [`Error`]. No call
//! panics on any input. The crate panics only if an archive of another version is linked.
//!
//! ```
//! use adtg::{
//!     check_section, list_section, ErrorKind, Owner, Plan, Reader, RowKind, ROW_NUMBERS,
//! };
//!
//! # fn main() -> Result<(), adtg::Error> {
//! // A four-byte integer, and a chapter whose rows have one byte.
//! let schema = [0x02, 0x03, 0x00, 0x88, 0x01, 0x00, 0x07, 0x01, 0x11, 0x00];
//! // A parent row, and a child row with its change.
//! let section = [
//!     0x07, 0x05, 0x00, 0x00, 0x00, // parent
//!     0x87, 0x07, 0x00, 0x00, 0x00, 0x2A, // child
//!     0x8A, 0x07, 0x00, 0x00, 0x00, 0x80, 0x00, 0x2B, // its change
//!     0x0F,
//! ];
//! // Make the plan once and keep it. Check it where the schema comes anew.
//! let plan = Plan::make(&schema, 0)?;
//! plan.check(&schema, 0)?;
//!
//! // Check the whole section, and list its rows in a table with room for them.
//! let count = check_section(&schema, &section)?;
//! let mut table = vec![0; count * ROW_NUMBERS];
//! let rows = list_section(&schema, &section, &mut table)?;
//! assert_eq!(rows.len(), 2);
//! for row in rows.iter().filter(|row| row.kind == RowKind::Parent) {
//!     let data = &section[row.original..];
//!     let field = plan.look_up(data, 0)?.part(data);
//!     assert_eq!(field, Some(&[5, 0, 0, 0][..]));
//! }
//!
//! // The same column of all parent rows in one call.
//! let mut spans = [0; 16];
//! let spans = plan.find_column(&section, rows.numbers(), Owner::Parents, 0, &mut spans)?;
//! for span in spans.iter() {
//!     assert_eq!(span.part(&section), Some(&[5, 0, 0, 0][..]));
//! }
//!
//! // The same with the row of each, as an iterator that needs no room for all rows.
//! for found in plan.column_spans(&section, rows, Owner::Parents, 0) {
//!     let (row, span) = found?;
//!     assert_eq!((row, span.part(&section)), (0, Some(&[5, 0, 0, 0][..])));
//! }
//!
//! // Check the section as it arrives, in fragments that you need not keep.
//! let mut reader = Reader::new();
//! for fragment in section.chunks(7) {
//!     reader.feed(&schema, fragment)?;
//! }
//! assert_eq!(reader.close(&schema), Ok(count));
//!
//! // An error says what is wrong, where and in which input.
//! let error = plan.look_up(&[5, 0], 0).unwrap_err();
//! assert_eq!((error.kind, error.offset), (ErrorKind::Short, 2));
//! let text = "error 1 at 2 of the row: the input ends too soon";
//! assert_eq!(error.describe().to_string(), text);
//! # Ok(())
//! # }
//! ```
//!
//! | module | what |
//! |---|---|
//! | [`head`] | header and handler options |
//! | [`schema`] | schema files |
//! | [`row`], [`update`] | look-ups in rows, update data and changed rows, with the schema file |
//! | [`mod@write`] | the writers of rows and update data |
//! | [`section`] | row sections and the table of their rows |
//! | [`arrival`] | row sections that arrive in fragments |
//! | [`plan`], [`find`] | plans, and look-ups through them |
//! | [`batch`] | one column of all rows of one owner, through a plan |
//! | [`page`] | the same page by page, or as an iterator |
//! | [`mod@version`] | the version of the archive, and the layout of its plans |
//! | [`raw`] | the calls and their replies as they are |

#![deny(missing_docs)]
#![deny(unsafe_code)]

pub mod arrival;
pub mod batch;
pub mod error;
pub mod find;
pub mod head;
pub mod page;
pub mod plan;
pub mod raw;
pub mod row;
pub mod schema;
pub mod section;
pub mod update;
pub mod version;
pub mod write;

pub use arrival::{Progress, Reader};
pub use batch::{Owner, Span, Spans, SPAN_NUMBERS};
pub use error::{Described, Error, ErrorKind, Input};
pub use find::{Found, RowHandle};
pub use head::{
    read_header, read_options, write_header, write_header_short, write_options, Header, Options,
};
pub use page::{ColumnSpans, Page, PageSpans, PAGE_SPAN_NUMBERS};
pub use plan::Plan;
pub use row::{field_count, look_up, row_end, Answer};
pub use schema::{
    read_schema, schema_column, schema_columns, schema_numbers, schema_of_child, write_schema,
    Chapter, Column, Counts,
};
pub use section::{check_section, list_section, Row, RowKind, Rows, ROW_NUMBERS};
pub use update::{current, look_update, update_end, Change, Current};
pub use version::{version, Version, PLAN_LAYOUT, VERSION};
pub use write::{write_original, write_update, Entry};

/// The largest input that a call accepts, in bytes.
pub const MAX_INPUT: usize = 16_777_216;

#[cfg(test)]
mod tests;
