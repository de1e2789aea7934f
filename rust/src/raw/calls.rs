//! The calls of the archive behind safe functions. All unsafe code is here.
//!
//! Each of these blocks is sound for the same reasons. A pointer and a length are those of one
//! slice, and a slice's pointer is never null. What is lent for writing is lent mutably, so
//! nothing else overlaps it. `out` has sixteen numbers. Structs are laid out as in `adtg.h`. The
//! archive takes any bytes and any values, and keeps nothing.
//!
//! Each call first checks that the archive is of this crate's version, but for `version` and the
//! look-ups through a plan.

use super::reply::{FedReply, Numbers, PageReply, PlanReply, Reply};
use crate::arrival::Reader;
use crate::find::Found;
use crate::plan::Plan;
use crate::row::Answer;
use crate::schema::{Column, Counts};
use crate::update::{Change, Current};
use crate::version::{self, Version};
use crate::{Header, Options};

extern "C" {
    fn adtg_version(out: *mut Numbers) -> u32;
    fn adtg_read_header(bytes: *const u8, length: usize, out: *mut Numbers) -> u32;
    fn adtg_write_header(
        major: u8,
        minor: u8,
        order: u8,
        unicode: u8,
        output: *mut u8,
        capacity: usize,
        out: *mut Numbers,
    ) -> u32;
    fn adtg_write_header_short(
        major: u8,
        minor: u8,
        output: *mut u8,
        capacity: usize,
        out: *mut Numbers,
    ) -> u32;
    fn adtg_read_options(bytes: *const u8, length: usize, out: *mut Numbers) -> u32;
    fn adtg_write_options(
        first: *const u8,
        first_length: usize,
        second: *const u8,
        second_length: usize,
        third: *const u8,
        third_length: usize,
        async_option: u16,
        output: *mut u8,
        capacity: usize,
        out: *mut Numbers,
    ) -> u32;
    fn adtg_read_schema(file: *const u8, length: usize, out: *mut Numbers) -> u32;
    fn adtg_schema_columns(file: *const u8, length: usize, number: usize, out: *mut Numbers)
        -> u32;
    fn adtg_schema_column(
        file: *const u8,
        length: usize,
        number: usize,
        column: usize,
        out: *mut Numbers,
    ) -> u32;
    fn adtg_schema_of_child(file: *const u8, length: usize, id: u32, out: *mut Numbers) -> u32;
    fn adtg_write_schema(
        numbers: *const u32,
        count: usize,
        output: *mut u8,
        capacity: usize,
        out: *mut Numbers,
    ) -> u32;
    fn adtg_schema_numbers(
        file: *const u8,
        length: usize,
        table: *mut u32,
        capacity: usize,
        out: *mut Numbers,
    ) -> u32;
    fn adtg_check_section(
        file: *const u8,
        file_length: usize,
        section: *const u8,
        section_length: usize,
        out: *mut Numbers,
    ) -> u32;
    fn adtg_list_section(
        file: *const u8,
        file_length: usize,
        section: *const u8,
        section_length: usize,
        table: *mut u32,
        table_length: usize,
        out: *mut Numbers,
    ) -> u32;
    fn adtg_first_reader() -> Reader;
    fn adtg_feed(
        file: *const u8,
        file_length: usize,
        reader: *mut Reader,
        fragment: *const u8,
        fragment_length: usize,
    ) -> FedReply;
    fn adtg_close(file: *const u8, file_length: usize, reader: *mut Reader) -> FedReply;
    fn adtg_look_up(
        file: *const u8,
        file_length: usize,
        number: usize,
        row: *const u8,
        row_length: usize,
        column: usize,
        out: *mut Numbers,
    ) -> u32;
    fn adtg_field_count(
        file: *const u8,
        file_length: usize,
        number: usize,
        row: *const u8,
        row_length: usize,
        out: *mut Numbers,
    ) -> u32;
    fn adtg_row_end(
        file: *const u8,
        file_length: usize,
        number: usize,
        row: *const u8,
        row_length: usize,
        at: usize,
        out: *mut Numbers,
    ) -> u32;
    fn adtg_look_update(
        file: *const u8,
        file_length: usize,
        number: usize,
        update: *const u8,
        update_length: usize,
        column: usize,
        out: *mut Numbers,
    ) -> u32;
    fn adtg_update_end(
        file: *const u8,
        file_length: usize,
        number: usize,
        update: *const u8,
        update_length: usize,
        at: usize,
        out: *mut Numbers,
    ) -> u32;
    fn adtg_current(
        file: *const u8,
        file_length: usize,
        number: usize,
        row: *const u8,
        row_length: usize,
        update: *const u8,
        update_length: usize,
        column: usize,
        out: *mut Numbers,
    ) -> u32;
    fn adtg_write_original(
        file: *const u8,
        file_length: usize,
        number: usize,
        entries: *const u32,
        count: usize,
        values: *const u8,
        values_length: usize,
        place: usize,
        output: *mut u8,
        capacity: usize,
        out: *mut Numbers,
    ) -> u32;
    fn adtg_write_update(
        file: *const u8,
        file_length: usize,
        number: usize,
        entries: *const u32,
        count: usize,
        values: *const u8,
        values_length: usize,
        place: usize,
        output: *mut u8,
        capacity: usize,
        out: *mut Numbers,
    ) -> u32;
    fn adtg_make_plan(file: *const u8, file_length: usize, number: usize) -> PlanReply;
    fn adtg_check_plan(
        plan: Plan,
        file: *const u8,
        file_length: usize,
        number: usize,
        out: *mut Numbers,
    ) -> u32;
    fn adtg_fixed_place(plan: Plan, column: usize, out: *mut Numbers) -> u32;
    fn adtg_open_row(plan: Plan, row: *const u8, row_length: usize, out: *mut Numbers) -> u32;
    fn adtg_planned_look_up(
        numbers: *const [u64; Plan::NUMBERS],
        row: *const u8,
        row_length: usize,
        column: usize,
    ) -> Found;
    fn adtg_find_column(
        numbers: *const [u64; Plan::NUMBERS],
        section: *const u8,
        section_length: usize,
        rows: *const u32,
        rows_length: usize,
        owner: usize,
        column: usize,
        spans: *mut u32,
        spans_length: usize,
        out: *mut Numbers,
    ) -> u32;
    fn adtg_find_page(
        numbers: *const [u64; Plan::NUMBERS],
        section: *const u8,
        section_length: usize,
        table: *const u32,
        table_length: usize,
        rows: usize,
        from: usize,
        owner: usize,
        column: usize,
        spans: *mut u32,
        spans_length: usize,
    ) -> PageReply;
}

/// Calls `adtg_version`, which any archive answers.
pub fn version() -> Reply<Version> {
    Reply::unchecked(|out| unsafe { adtg_version(out) })
}

/// Calls `adtg_read_header`.
pub fn read_header(bytes: &[u8]) -> Reply<Header> {
    Reply::of(|out| unsafe { adtg_read_header(bytes.as_ptr(), bytes.len(), out) })
}

/// Calls `adtg_write_header`.
pub fn write_header(
    major: u8,
    minor: u8,
    order: u8,
    unicode: u8,
    output: &mut [u8],
) -> Reply<usize> {
    Reply::of(|out| unsafe {
        adtg_write_header(
            major,
            minor,
            order,
            unicode,
            output.as_mut_ptr(),
            output.len(),
            out,
        )
    })
}

/// Calls `adtg_write_header_short`.
pub fn write_header_short(major: u8, minor: u8, output: &mut [u8]) -> Reply<usize> {
    Reply::of(|out| unsafe {
        adtg_write_header_short(major, minor, output.as_mut_ptr(), output.len(), out)
    })
}

/// Calls `adtg_read_options`.
pub fn read_options(bytes: &[u8]) -> Reply<Options> {
    Reply::of(|out| unsafe { adtg_read_options(bytes.as_ptr(), bytes.len(), out) })
}

/// Calls `adtg_write_options`.
pub fn write_options(strings: [&[u8]; 3], async_option: u16, output: &mut [u8]) -> Reply<usize> {
    let [first, second, third] = strings;
    Reply::of(|out| unsafe {
        adtg_write_options(
            first.as_ptr(),
            first.len(),
            second.as_ptr(),
            second.len(),
            third.as_ptr(),
            third.len(),
            async_option,
            output.as_mut_ptr(),
            output.len(),
            out,
        )
    })
}

/// Calls `adtg_read_schema`.
pub fn read_schema(file: &[u8]) -> Reply<Counts> {
    Reply::of(|out| unsafe { adtg_read_schema(file.as_ptr(), file.len(), out) })
}

/// Calls `adtg_schema_columns`.
pub fn schema_columns(file: &[u8], number: usize) -> Reply<usize> {
    Reply::of(|out| unsafe { adtg_schema_columns(file.as_ptr(), file.len(), number, out) })
}

/// Calls `adtg_schema_column`.
pub fn schema_column(file: &[u8], number: usize, column: usize) -> Reply<Column> {
    Reply::of(|out| unsafe { adtg_schema_column(file.as_ptr(), file.len(), number, column, out) })
}

/// Calls `adtg_schema_of_child`.
pub fn schema_of_child(file: &[u8], id: u32) -> Reply<usize> {
    Reply::of(|out| unsafe { adtg_schema_of_child(file.as_ptr(), file.len(), id, out) })
}

/// Calls `adtg_write_schema`.
pub fn write_schema(numbers: &[u32], output: &mut [u8]) -> Reply<usize> {
    Reply::of(|out| unsafe {
        adtg_write_schema(
            numbers.as_ptr(),
            numbers.len(),
            output.as_mut_ptr(),
            output.len(),
            out,
        )
    })
}

/// Calls `adtg_schema_numbers`.
pub fn schema_numbers(file: &[u8], table: &mut [u32]) -> Reply<usize> {
    Reply::of(|out| unsafe {
        adtg_schema_numbers(
            file.as_ptr(),
            file.len(),
            table.as_mut_ptr(),
            table.len(),
            out,
        )
    })
}

/// Calls `adtg_check_section`.
pub fn check_section(file: &[u8], section: &[u8]) -> Reply<usize> {
    Reply::of(|out| unsafe {
        adtg_check_section(
            file.as_ptr(),
            file.len(),
            section.as_ptr(),
            section.len(),
            out,
        )
    })
}

/// Calls `adtg_list_section`.
pub fn list_section(file: &[u8], section: &[u8], table: &mut [u32]) -> Reply<usize> {
    Reply::of(|out| unsafe {
        adtg_list_section(
            file.as_ptr(),
            file.len(),
            section.as_ptr(),
            section.len(),
            table.as_mut_ptr(),
            table.len(),
            out,
        )
    })
}

/// Calls `adtg_first_reader`.
pub fn first_reader() -> Reader {
    version::check();
    unsafe { adtg_first_reader() }
}

/// Calls `adtg_feed`.
pub fn feed(file: &[u8], reader: &mut Reader, fragment: &[u8]) -> FedReply {
    version::check();
    unsafe {
        adtg_feed(
            file.as_ptr(),
            file.len(),
            reader,
            fragment.as_ptr(),
            fragment.len(),
        )
    }
}

/// Calls `adtg_close`.
pub fn close(file: &[u8], reader: &mut Reader) -> FedReply {
    version::check();
    unsafe { adtg_close(file.as_ptr(), file.len(), reader) }
}

/// Calls `adtg_look_up`.
pub fn look_up(file: &[u8], number: usize, row: &[u8], column: usize) -> Reply<Answer> {
    Reply::of(|out| unsafe {
        adtg_look_up(
            file.as_ptr(),
            file.len(),
            number,
            row.as_ptr(),
            row.len(),
            column,
            out,
        )
    })
}

/// Calls `adtg_field_count`.
pub fn field_count(file: &[u8], number: usize, row: &[u8]) -> Reply<usize> {
    Reply::of(|out| unsafe {
        adtg_field_count(
            file.as_ptr(),
            file.len(),
            number,
            row.as_ptr(),
            row.len(),
            out,
        )
    })
}

/// Calls `adtg_row_end`.
pub fn row_end(file: &[u8], number: usize, row: &[u8], at: usize) -> Reply<usize> {
    Reply::of(|out| unsafe {
        adtg_row_end(
            file.as_ptr(),
            file.len(),
            number,
            row.as_ptr(),
            row.len(),
            at,
            out,
        )
    })
}

/// Calls `adtg_look_update`.
pub fn look_update(file: &[u8], number: usize, update: &[u8], column: usize) -> Reply<Change> {
    Reply::of(|out| unsafe {
        adtg_look_update(
            file.as_ptr(),
            file.len(),
            number,
            update.as_ptr(),
            update.len(),
            column,
            out,
        )
    })
}

/// Calls `adtg_update_end`.
pub fn update_end(file: &[u8], number: usize, update: &[u8], at: usize) -> Reply<usize> {
    Reply::of(|out| unsafe {
        adtg_update_end(
            file.as_ptr(),
            file.len(),
            number,
            update.as_ptr(),
            update.len(),
            at,
            out,
        )
    })
}

/// Calls `adtg_current`.
pub fn current(
    file: &[u8],
    number: usize,
    row: &[u8],
    update: &[u8],
    column: usize,
) -> Reply<Current> {
    Reply::of(|out| unsafe {
        adtg_current(
            file.as_ptr(),
            file.len(),
            number,
            row.as_ptr(),
            row.len(),
            update.as_ptr(),
            update.len(),
            column,
            out,
        )
    })
}

/// Calls `adtg_write_original`.
pub fn write_original(
    file: &[u8],
    number: usize,
    entries: &[u32],
    values: &[u8],
    place: usize,
    output: &mut [u8],
) -> Reply<usize> {
    Reply::of(|out| unsafe {
        adtg_write_original(
            file.as_ptr(),
            file.len(),
            number,
            entries.as_ptr(),
            entries.len(),
            values.as_ptr(),
            values.len(),
            place,
            output.as_mut_ptr(),
            output.len(),
            out,
        )
    })
}

/// Calls `adtg_write_update`.
pub fn write_update(
    file: &[u8],
    number: usize,
    entries: &[u32],
    values: &[u8],
    place: usize,
    output: &mut [u8],
) -> Reply<usize> {
    Reply::of(|out| unsafe {
        adtg_write_update(
            file.as_ptr(),
            file.len(),
            number,
            entries.as_ptr(),
            entries.len(),
            values.as_ptr(),
            values.len(),
            place,
            output.as_mut_ptr(),
            output.len(),
            out,
        )
    })
}

/// Calls `adtg_make_plan`.
pub fn make_plan(file: &[u8], number: usize) -> PlanReply {
    version::check();
    unsafe { adtg_make_plan(file.as_ptr(), file.len(), number) }
}

/// Calls `adtg_check_plan`.
pub fn check_plan(plan: &Plan, file: &[u8], number: usize) -> Reply<()> {
    Reply::of(|out| unsafe {
        adtg_check_plan(plan.clone(), file.as_ptr(), file.len(), number, out)
    })
}

/// Calls `adtg_fixed_place`.
pub fn fixed_place(plan: &Plan, column: usize) -> Reply<Option<usize>> {
    Reply::of(|out| unsafe { adtg_fixed_place(plan.clone(), column, out) })
}

/// Calls `adtg_open_row`.
pub fn open_row(plan: &Plan, row: &[u8]) -> Reply<usize> {
    Reply::of(|out| unsafe { adtg_open_row(plan.clone(), row.as_ptr(), row.len(), out) })
}

/// Calls `adtg_planned_look_up`.
#[inline]
pub fn planned_look_up(numbers: &[u64; Plan::NUMBERS], row: &[u8], column: usize) -> Found {
    unsafe { adtg_planned_look_up(numbers, row.as_ptr(), row.len(), column) }
}

/// Calls `adtg_find_column`.
pub fn find_column(
    numbers: &[u64; Plan::NUMBERS],
    section: &[u8],
    rows: &[u32],
    owner: usize,
    column: usize,
    spans: &mut [u32],
) -> Reply<usize> {
    Reply::of(|out| unsafe {
        adtg_find_column(
            numbers,
            section.as_ptr(),
            section.len(),
            rows.as_ptr(),
            rows.len(),
            owner,
            column,
            spans.as_mut_ptr(),
            spans.len(),
            out,
        )
    })
}

/// Calls `adtg_find_page`.
#[allow(clippy::too_many_arguments)]
#[inline]
pub fn find_page(
    numbers: &[u64; Plan::NUMBERS],
    section: &[u8],
    table: &[u32],
    rows: usize,
    from: usize,
    owner: usize,
    column: usize,
    spans: &mut [u32],
) -> PageReply {
    unsafe {
        adtg_find_page(
            numbers,
            section.as_ptr(),
            section.len(),
            table.as_ptr(),
            table.len(),
            rows,
            from,
            owner,
            column,
            spans.as_mut_ptr(),
            spans.len(),
        )
    }
}
