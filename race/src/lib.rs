//! The same rules by hand, as quick as it could be made: the mark for speed. Schema files, plans, look-ups and row
//! sections in safe Rust; [`capi`] lays the race's C interface over them.

pub mod capi;
mod error;
mod layout;
mod plan;
mod section;
mod sheet;
mod walk;

pub use error::{Input, LIMIT, Refusal};
pub use layout::{Format, Head, Layout, Step};
pub use plan::{Handle, Plan, Side};
pub use section::{Row, read_rows, read_rows_journal, read_section};
pub use sheet::{Column, ColumnType, Sheet, SheetFile, write_sheet};
pub use walk::{Found, current_value, field_count, look_up, part, walk_columns};
