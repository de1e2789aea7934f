//! Errors: a kind, an offset and the input that the error is about.

use std::fmt;

/// Why a call gave no answer.
#[derive(Clone, Copy, Debug, PartialEq, Eq, Hash)]
pub struct Error {
    /// What is wrong.
    pub kind: ErrorKind,
    /// The place in the input, or what the kind says.
    pub offset: usize,
    /// The input of the call that the error is about.
    pub input: Input,
}

/// What is wrong. The codes are those of `adtg.h`.
#[derive(Clone, Copy, Debug, PartialEq, Eq, PartialOrd, Ord, Hash)]
#[repr(u8)]
pub enum ErrorKind {
    /// The input ends inside what is read; offset: its length.
    Short = 1,
    /// A constant byte differs; offset: that byte.
    Constant = 2,
    /// The byte order, the unicode flag or the async option is not allowed; offset: the field.
    Value = 3,
    /// The size of the handler options is wrong; offset: 1.
    OptionsSize = 4,
    /// A number is too long or not in its shortest form; offset: its start.
    NumberForm = 5,
    /// A count, type, flags or maximum is out of range; offset: its start.
    Range = 6,
    /// Schemas nest to depth 5, or a file has a column 257; offset: the count.
    Limit = 7,
    /// A child id is repeated; offset: its start.
    RepeatedId = 8,
    /// No element has this token; offset: the token.
    UnknownToken = 9,
    /// A child row has an id that no schema has; offset: its token.
    UnknownId = 10,
    /// A change or deletion does not stand directly behind its child row; offset: its token.
    Unpaired = 11,
    /// The bit of a chapter is set in a map; offset: the byte of the first such bit.
    ChapterBit = 12,
    /// Null is forced without update, or in a column that is not nullable; offset: the byte of the
    /// bit.
    ForceNull = 13,
    /// A length is over the maximum, or odd in wide text; offset: its prefix.
    Length = 14,
    /// Bytes follow the end; offset: the first of them.
    Trailing = 15,
    /// The output or table is too small; offset: the bytes, numbers or rows that it needs room for.
    Capacity = 16,
    /// The plan is not that of the schema; offset: 0.
    PlanMismatch = 17,
    /// There is no such schema, column, child id, place, entry or reader, or the table has fewer
    /// rows; offset: 0.
    Missing = 18,
    /// An input has more than 16,777,216 bytes, or all fragments together have; offset: 0.
    TooLarge = 19,
    /// An entry does not fit its column; offset: the column.
    Entry = 20,
}

impl ErrorKind {
    /// All kinds, in the order of their codes.
    pub const ALL: [ErrorKind; 20] = [
        ErrorKind::Short,
        ErrorKind::Constant,
        ErrorKind::Value,
        ErrorKind::OptionsSize,
        ErrorKind::NumberForm,
        ErrorKind::Range,
        ErrorKind::Limit,
        ErrorKind::RepeatedId,
        ErrorKind::UnknownToken,
        ErrorKind::UnknownId,
        ErrorKind::Unpaired,
        ErrorKind::ChapterBit,
        ErrorKind::ForceNull,
        ErrorKind::Length,
        ErrorKind::Trailing,
        ErrorKind::Capacity,
        ErrorKind::PlanMismatch,
        ErrorKind::Missing,
        ErrorKind::TooLarge,
        ErrorKind::Entry,
    ];

    /// The code, 1 to 20.
    pub const fn code(self) -> u32 {
        self as u32
    }

    /// The kind with this code, if there is one.
    pub fn from_code(code: u32) -> Option<ErrorKind> {
        let index = usize::try_from(code.checked_sub(1)?).ok()?;
        ErrorKind::ALL.get(index).copied()
    }
}

/// An input of a call that an error can be about. The codes are those of `adtg.h`.
#[derive(Clone, Copy, Debug, PartialEq, Eq, PartialOrd, Ord, Hash)]
#[repr(u8)]
pub enum Input {
    /// The call's one input.
    Single = 0,
    /// The schema file.
    Schema = 1,
    /// The number of the schema.
    SchemaNumber = 2,
    /// The original row.
    Row = 3,
    /// The update data.
    Update = 4,
    /// The number of the column.
    Column = 5,
    /// The row section.
    Section = 6,
    /// The table that is lent.
    Table = 7,
    /// The output that is lent.
    Output = 8,
    /// The plan.
    Plan = 9,
    /// The entries of a row.
    Entries = 10,
    /// The values that the entries lie in.
    Values = 11,
    /// Where a row writer is to write, or where a page is to begin.
    Place = 12,
    /// The numbers of a schema file.
    Numbers = 13,
    /// The byte order.
    Order = 14,
    /// The unicode flag.
    Unicode = 15,
    /// The first string.
    FirstString = 16,
    /// The second string.
    SecondString = 17,
    /// The third string.
    ThirdString = 18,
    /// The async option.
    Async = 19,
    /// The child id.
    ChildId = 20,
    /// The record of a reader.
    Reader = 21,
}

impl Input {
    /// All inputs, in the order of their codes.
    pub const ALL: [Input; 22] = [
        Input::Single,
        Input::Schema,
        Input::SchemaNumber,
        Input::Row,
        Input::Update,
        Input::Column,
        Input::Section,
        Input::Table,
        Input::Output,
        Input::Plan,
        Input::Entries,
        Input::Values,
        Input::Place,
        Input::Numbers,
        Input::Order,
        Input::Unicode,
        Input::FirstString,
        Input::SecondString,
        Input::ThirdString,
        Input::Async,
        Input::ChildId,
        Input::Reader,
    ];

    /// The code, 0 to 21.
    pub const fn code(self) -> u64 {
        self as u64
    }

    /// The input with this code, if there is one.
    pub fn from_code(code: u64) -> Option<Input> {
        Input::ALL.get(usize::try_from(code).ok()?).copied()
    }
}

impl fmt::Display for Error {
    fn fmt(&self, f: &mut fmt::Formatter) -> fmt::Result {
        let Error {
            kind,
            offset,
            input,
        } = self;
        write!(f, "error {} at {offset} of {input}: {kind}", kind.code())
    }
}

impl std::error::Error for Error {}

impl fmt::Display for ErrorKind {
    fn fmt(&self, f: &mut fmt::Formatter) -> fmt::Result {
        f.write_str(match self {
            ErrorKind::Short => "the input is short",
            ErrorKind::Constant => "a constant byte differs",
            ErrorKind::Value => "a value that is not allowed",
            ErrorKind::OptionsSize => "the size of the handler options is wrong",
            ErrorKind::NumberForm => "a number is too long or not in its shortest form",
            ErrorKind::Range => "a number is out of range",
            ErrorKind::Limit => "too deep, or too many columns",
            ErrorKind::RepeatedId => "a child id is repeated",
            ErrorKind::UnknownToken => "an unknown token",
            ErrorKind::UnknownId => "an unknown child id",
            ErrorKind::Unpaired => "a change or deletion without its child row",
            ErrorKind::ChapterBit => "the bit of a chapter is set",
            ErrorKind::ForceNull => "null is forced where it may not be",
            ErrorKind::Length => "a length that is not allowed",
            ErrorKind::Trailing => "bytes after the end",
            ErrorKind::Capacity => "more room is needed",
            ErrorKind::PlanMismatch => "the plan is not that of the schema",
            ErrorKind::Missing => "there is none",
            ErrorKind::TooLarge => "the input is too large",
            ErrorKind::Entry => "an entry can't stand in its column",
        })
    }
}

impl fmt::Display for Input {
    fn fmt(&self, f: &mut fmt::Formatter) -> fmt::Result {
        f.write_str(match self {
            Input::Numbers => "the numbers",
            other => other.text(),
        })
    }
}

/// An error in the words of `adtg_text.h`. [`Error::describe`] makes it.
#[derive(Clone, Copy, Debug, PartialEq, Eq)]
pub struct Described {
    error: Error,
}

impl Error {
    /// The error in the words of `adtg_text.h`, which say what the offset counts, and what is missing.
    ///
    /// ```
    /// use adtg::{read_header, Plan};
    ///
    /// let error = read_header(&[0x01, 0x08]).unwrap_err();
    /// let text = "error 2 at 1 of the input: a constant byte differs";
    /// assert_eq!(error.describe().to_string(), text);
    /// let error = Plan::make(&[0x01, 0x11, 0x00], 1).unwrap_err();
    /// let text = "error 18 of the schema number: there is no such schema";
    /// assert_eq!(error.describe().to_string(), text);
    /// ```
    pub const fn describe(self) -> Described {
        Described { error: self }
    }
}

impl fmt::Display for Described {
    fn fmt(&self, f: &mut fmt::Formatter) -> fmt::Result {
        let Error {
            kind,
            offset,
            input,
        } = self.error;
        let (code, text) = (kind.code(), kind.text());
        let of = input.text();
        match kind {
            ErrorKind::Capacity => write!(
                f,
                "error {code} of {of}: it needs room for {offset} {}",
                input.room()
            ),
            ErrorKind::PlanMismatch | ErrorKind::TooLarge => {
                write!(f, "error {code} of {of}: {text}")
            }
            ErrorKind::Missing => write!(f, "error {code} of {of}: {}", input.missing()),
            ErrorKind::Entry => write!(f, "error {code} of {of}, column {offset}: {text}"),
            _ => write!(f, "error {code} at {offset} of {of}: {text}"),
        }
    }
}

impl ErrorKind {
    /// The kind in the words of `adtg_text.h`.
    pub const fn text(self) -> &'static str {
        match self {
            ErrorKind::Short => "the input ends too soon",
            ErrorKind::Constant => "a constant byte differs",
            ErrorKind::Value => "a value is not allowed",
            ErrorKind::OptionsSize => "the size of the handler options is wrong",
            ErrorKind::NumberForm => "a number is too long or not in its shortest form",
            ErrorKind::Range => "a number is out of range",
            ErrorKind::Limit => "the schema nests too deep or has too many columns",
            ErrorKind::RepeatedId => "a child id is repeated",
            ErrorKind::UnknownToken => "the token is unknown",
            ErrorKind::UnknownId => "no schema has this child id",
            ErrorKind::Unpaired => "a change or deletion does not follow its child row",
            ErrorKind::ChapterBit => "the bit of a chapter is set",
            ErrorKind::ForceNull => "null is forced where it may not be",
            ErrorKind::Length => "a length is not allowed",
            ErrorKind::Trailing => "bytes follow the end",
            ErrorKind::Capacity => "more room is needed",
            ErrorKind::PlanMismatch => "the plan is not that of the schema",
            ErrorKind::Missing => "it names nothing that exists",
            ErrorKind::TooLarge => "the input is too large",
            ErrorKind::Entry => "an entry does not fit its column",
        }
    }
}

impl Input {
    /// The input in the words of `adtg_text.h`.
    pub const fn text(self) -> &'static str {
        match self {
            Input::Single => "the input",
            Input::Schema => "the schema file",
            Input::SchemaNumber => "the schema number",
            Input::Row => "the row",
            Input::Update => "the update data",
            Input::Column => "the column number",
            Input::Section => "the row section",
            Input::Table => "the table",
            Input::Output => "the output",
            Input::Plan => "the plan",
            Input::Entries => "the entries",
            Input::Values => "the values",
            Input::Place => "the place",
            Input::Numbers => "the file of these numbers",
            Input::Order => "the byte order",
            Input::Unicode => "the unicode flag",
            Input::FirstString => "the first string",
            Input::SecondString => "the second string",
            Input::ThirdString => "the third string",
            Input::Async => "the async option",
            Input::ChildId => "the child id",
            Input::Reader => "the reader",
        }
    }

    /// What error 16 counts if it is about this input.
    const fn room(self) -> &'static str {
        match self {
            Input::Table => "rows, or numbers of a schema file",
            _ => "bytes",
        }
    }

    /// What is missing where an error of the kind `Missing` names this input.
    const fn missing(self) -> &'static str {
        match self {
            Input::SchemaNumber => "there is no such schema",
            Input::Column => "there is no such column",
            Input::Table => "the table has fewer rows",
            Input::Entries => "they are not one for each column, or one lies outside the values",
            Input::Place => "there is no such place",
            Input::ChildId => "no schema has this child id",
            Input::Reader => "no call makes such a reader",
            _ => ErrorKind::Missing.text(),
        }
    }
}

#[cfg(test)]
mod tests {
    use super::*;

    #[test]
    fn codes_lead_back_to_their_names() {
        for (index, kind) in ErrorKind::ALL.into_iter().enumerate() {
            assert_eq!(kind.code() as usize, index + 1);
            assert_eq!(ErrorKind::from_code(kind.code()), Some(kind));
        }
        for (index, input) in Input::ALL.into_iter().enumerate() {
            assert_eq!(input.code() as usize, index);
            assert_eq!(Input::from_code(input.code()), Some(input));
        }
        assert_eq!(ErrorKind::from_code(0), None);
        assert_eq!(ErrorKind::from_code(21), None);
        assert_eq!(Input::from_code(22), None);
    }

    #[test]
    fn an_error_says_all_that_it_is() {
        let error = Error {
            kind: ErrorKind::Length,
            offset: 5,
            input: Input::Row,
        };
        assert_eq!(
            error.to_string(),
            "error 14 at 5 of the row: a length that is not allowed"
        );
    }

    #[test]
    fn an_error_says_what_its_offset_counts() {
        let text = |kind, offset, input| {
            Error {
                kind,
                offset,
                input,
            }
            .describe()
            .to_string()
        };
        assert_eq!(
            text(ErrorKind::Length, 5, Input::Row),
            "error 14 at 5 of the row: a length is not allowed"
        );
        assert_eq!(
            text(ErrorKind::Capacity, 5, Input::Table),
            "error 16 of the table: it needs room for 5 rows, or numbers of a schema file"
        );
        assert_eq!(
            text(ErrorKind::PlanMismatch, 0, Input::Plan),
            "error 17 of the plan: the plan is not that of the schema"
        );
        assert_eq!(
            text(ErrorKind::Missing, 0, Input::Column),
            "error 18 of the column number: there is no such column"
        );
        assert_eq!(
            text(ErrorKind::TooLarge, 0, Input::Section),
            "error 19 of the row section: the input is too large"
        );
        assert_eq!(
            text(ErrorKind::Entry, 5, Input::Entries),
            "error 20 of the entries, column 5: an entry does not fit its column"
        );
    }
}
