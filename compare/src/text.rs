//! Answers and bytes in the words of the vector files.

use std::fmt::Write;
use std::ops::Range;

use crate::archive::{Fault, Reply};
use crate::reading::arrival::Progress;
use crate::reading::header::Header;
use crate::reading::numbers::{Part, PlanNumbers, COUNTS};
use crate::reading::options::Options;
use crate::reading::page::Page;
use crate::reading::plan::Plan;
use crate::reading::row;
use crate::reading::schema::{Counts, Description};
use crate::reading::update::{Change, Current};
use crate::reading::Error;

/// The longest run of bytes that a message shows whole.
const SHOWN: usize = 256;

/// What a call can answer, as text.
pub trait Text {
    fn text(&self) -> String;
}

impl Text for Header {
    fn text(&self) -> String {
        format!(
            "header {} {} {} {} {}",
            self.major, self.minor, self.order, self.unicode, self.end
        )
    }
}

impl Text for Options {
    fn text(&self) -> String {
        let [first, second, third] = &self.strings;
        format!(
            "options {} {} {} {} {} {} {} {} {}",
            self.update_type,
            first.start,
            first.end,
            second.start,
            second.end,
            third.start,
            third.end,
            self.async_option,
            self.end
        )
    }
}

impl Text for Counts {
    fn text(&self) -> String {
        format!("sheets {} columns {}", self.schemas, self.columns)
    }
}

impl Text for Description {
    fn text(&self) -> String {
        format!(
            "column {} {} {} {} {}",
            self.code, self.flags, self.maximum, self.child_id, self.nested
        )
    }
}

impl Text for Plan {
    fn text(&self) -> String {
        let mut text = format!("plan {}", self.columns().len());
        for planned in self.columns() {
            let column = &planned.column;
            let nullable = u8::from(column.nullable);
            text += &format!(
                " {}:{nullable}:{}:{}",
                column.code, column.maximum, planned.gap
            );
        }
        text
    }
}

/// The part of a plan's numbers that vector files show.
impl Text for PlanNumbers {
    fn text(&self) -> String {
        let mut text = format!("plan {}", self.get(COUNTS, Part::COUNT));
        for at in 0..self.count() {
            let shown = [Part::CODE, Part::FLAGS, Part::MAXIMUM, Part::GAP];
            let [code, flags, maximum, gap] = shown.map(|part| self.get(at, part));
            text += &format!(" {code}:{flags}:{maximum}:{gap}");
        }
        text
    }
}

/// The plan that is checked is the schema's.
impl Text for () {
    fn text(&self) -> String {
        "accepted".to_string()
    }
}

/// A place that a plan fixes, or not.
impl Text for Option<usize> {
    fn text(&self) -> String {
        self.map_or("no fixed place".to_string(), |place| place.to_string())
    }
}

impl Text for row::Answer {
    fn text(&self) -> String {
        match self {
            row::Answer::Field { place, prefixes } => field("row", place, *prefixes),
            row::Answer::Null => "null".to_string(),
            row::Answer::Chapter => "chapter".to_string(),
        }
    }
}

impl Text for Change {
    fn text(&self) -> String {
        match self {
            Change::Field { place, prefixes } => field("update", place, *prefixes),
            Change::Null => "null".to_string(),
            Change::Chapter => "chapter".to_string(),
            Change::Unchanged => "unchanged".to_string(),
        }
    }
}

impl Text for Current {
    fn text(&self) -> String {
        match self {
            Current::Updated { place, prefixes } => field("update", place, *prefixes),
            Current::Forced => "null".to_string(),
            Current::Original(answer) => answer.text(),
        }
    }
}

impl Text for Progress {
    fn text(&self) -> String {
        match self {
            Progress::Going(elements) => format!("going {elements}"),
            Progress::Complete(rows) => format!("rows {rows}"),
        }
    }
}

impl Text for Page {
    fn text(&self) -> String {
        format!("spans {} next {}", self.spans, self.next)
    }
}

/// A count, of fields or of bytes written, or where data end.
impl Text for usize {
    fn text(&self) -> String {
        self.to_string()
    }
}

/// A field found in the input of this name.
fn field(input: &str, place: &Range<usize>, prefixes: usize) -> String {
    format!("field {input} {} {} {prefixes}", place.start, place.end)
}

impl Text for Error {
    fn text(&self) -> String {
        format!(
            "refused {} {} {}",
            self.code.number(),
            self.offset,
            self.input.name()
        )
    }
}

impl Text for Fault {
    fn text(&self) -> String {
        match self {
            Fault::Error(error) => error.text(),
            Fault::Malformed(malformed) => malformed.to_string(),
        }
    }
}

impl<T: Text, E: Text> Text for Result<T, E> {
    fn text(&self) -> String {
        match self {
            Ok(value) => value.text(),
            Err(error) => error.text(),
        }
    }
}

/// True if the archive's reply says the same as the reading's answer.
pub fn agree<T: PartialEq>(reading: &Result<T, Error>, archive: &Reply<T>) -> bool {
    match (reading, archive) {
        (Ok(ours), Ok(theirs)) => ours == theirs,
        (Err(ours), Err(Fault::Error(theirs))) => ours == theirs,
        _ => false,
    }
}

/// Bytes as upper-case hex, `-` if there are none.
pub fn hex(bytes: &[u8]) -> String {
    if bytes.is_empty() {
        return "-".to_string();
    }
    let mut text = String::with_capacity(2 * bytes.len());
    for byte in bytes {
        // Writing to a string cannot fail.
        let _ = write!(text, "{byte:02X}");
    }
    text
}

/// Bytes as hex for a message: a long run is cut, with its length.
pub fn shown(bytes: &[u8]) -> String {
    if bytes.len() <= SHOWN {
        return hex(bytes);
    }
    format!("{}.. ({} bytes)", hex(&bytes[..SHOWN]), bytes.len())
}

/// Numbers for a message, with commas between them: a long list is cut, with its length.
pub fn shown_numbers(numbers: &[u32]) -> String {
    let first: Vec<String> = numbers.iter().take(SHOWN).map(u32::to_string).collect();
    match numbers.len() {
        0 => "-".to_string(),
        1..=SHOWN => first.join(","),
        count => format!("{}.. ({count} numbers)", first.join(",")),
    }
}

/// The bytes of a hex text, or what is wrong with it.
pub fn parse_hex(text: &str) -> Result<Vec<u8>, String> {
    if text == "-" {
        return Ok(Vec::new());
    }
    if text.is_empty() || !text.len().is_multiple_of(2) {
        return Err(format!("not whole bytes: {text:?}"));
    }
    let digits: Option<Vec<u8>> = text
        .chars()
        .map(|digit| digit.to_digit(16).map(|value| value as u8))
        .collect();
    let digits = digits.ok_or_else(|| format!("not hex: {text:?}"))?;
    Ok(digits
        .chunks(2)
        .map(|pair| pair[0] << 4 | pair[1])
        .collect())
}

#[cfg(test)]
mod tests {
    use super::*;

    #[test]
    fn hex_goes_both_ways() {
        assert_eq!(parse_hex("-"), Ok(vec![]));
        assert_eq!(parse_hex("00ffA5"), Ok(vec![0x00, 0xFF, 0xA5]));
        assert_eq!(hex(&[0x00, 0xFF, 0xA5]), "00FFA5");
        for wrong in ["", "0", "0g", "é"] {
            assert!(parse_hex(wrong).is_err(), "{wrong:?}");
        }
    }
}
