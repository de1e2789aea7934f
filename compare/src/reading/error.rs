//! Errors: a code, an offset and the input that the error is about.

/// What went wrong. The numbers are those of the rules.
#[derive(Clone, Copy, Debug, PartialEq, Eq, PartialOrd, Ord)]
#[repr(u8)]
pub enum ErrorCode {
    Truncated = 1,
    Constant = 2,
    FieldValue = 3,
    OptionsSize = 4,
    NumberForm = 5,
    NumberRange = 6,
    SchemaLimit = 7,
    RepeatedId = 8,
    UnknownToken = 9,
    UnknownChild = 10,
    Unpaired = 11,
    ChapterBit = 12,
    ForceRule = 13,
    Length = 14,
    Trailing = 15,
    Capacity = 16,
    PlanMismatch = 17,
    NoSuch = 18,
    Oversize = 19,
    Entry = 20,
}

impl ErrorCode {
    /// All codes, in the order of their numbers.
    pub const ALL: [ErrorCode; 20] = [
        ErrorCode::Truncated,
        ErrorCode::Constant,
        ErrorCode::FieldValue,
        ErrorCode::OptionsSize,
        ErrorCode::NumberForm,
        ErrorCode::NumberRange,
        ErrorCode::SchemaLimit,
        ErrorCode::RepeatedId,
        ErrorCode::UnknownToken,
        ErrorCode::UnknownChild,
        ErrorCode::Unpaired,
        ErrorCode::ChapterBit,
        ErrorCode::ForceRule,
        ErrorCode::Length,
        ErrorCode::Trailing,
        ErrorCode::Capacity,
        ErrorCode::PlanMismatch,
        ErrorCode::NoSuch,
        ErrorCode::Oversize,
        ErrorCode::Entry,
    ];

    /// The code's number, 1 to 20.
    pub const fn number(self) -> u32 {
        self as u32
    }

    /// The code with this number, if there is one.
    pub fn from_number(number: u32) -> Option<ErrorCode> {
        let index = usize::try_from(number.checked_sub(1)?).ok()?;
        ErrorCode::ALL.get(index).copied()
    }
}

/// The input of a call that an error is about.
#[derive(Clone, Copy, Debug, PartialEq, Eq)]
#[repr(u8)]
pub enum Input {
    /// The one input of a call that takes no other.
    Only = 0,
    Schema = 1,
    SchemaNumber = 2,
    Row = 3,
    Update = 4,
    Column = 5,
    Section = 6,
    Table = 7,
    Output = 8,
    Plan = 9,
    Entries = 10,
    Values = 11,
    Place = 12,
    Numbers = 13,
    ByteOrder = 14,
    Unicode = 15,
    FirstString = 16,
    SecondString = 17,
    ThirdString = 18,
    AsyncOption = 19,
    ChildId = 20,
    Reader = 21,
}

impl Input {
    /// All inputs, in the order of their numbers.
    pub const ALL: [Input; 22] = [
        Input::Only,
        Input::Schema,
        Input::SchemaNumber,
        Input::Row,
        Input::Update,
        Input::Column,
        Input::Section,
        Input::Table,
        Input::Output,
        Input::Plan,
        Input::Entries,
        Input::Values,
        Input::Place,
        Input::Numbers,
        Input::ByteOrder,
        Input::Unicode,
        Input::FirstString,
        Input::SecondString,
        Input::ThirdString,
        Input::AsyncOption,
        Input::ChildId,
        Input::Reader,
    ];

    /// The three strings of the handler options, in order.
    pub const STRINGS: [Input; 3] = [Input::FirstString, Input::SecondString, Input::ThirdString];

    /// The input's number, 0 to 21.
    pub const fn number(self) -> u64 {
        self as u64
    }

    /// The input with this number, if there is one.
    pub fn from_number(number: u64) -> Option<Input> {
        Input::ALL.get(usize::try_from(number).ok()?).copied()
    }

    /// The name that vector files give it.
    pub fn name(self) -> &'static str {
        match self {
            Input::Only => ".",
            Input::Schema => "sheet",
            Input::SchemaNumber => "sheet number",
            Input::Row => "row",
            Input::Update => "update",
            Input::Column => "column",
            Input::Section => "rows",
            Input::Table => "table",
            Input::Output => "output",
            Input::Plan => "plan",
            Input::Entries => "entries",
            Input::Values => "values",
            Input::Place => "place",
            Input::Numbers => "numbers",
            Input::ByteOrder => "byte order",
            Input::Unicode => "unicode",
            Input::FirstString => "first string",
            Input::SecondString => "second string",
            Input::ThirdString => "third string",
            Input::AsyncOption => "async option",
            Input::ChildId => "child id",
            Input::Reader => "reader",
        }
    }
}

/// Why a call gave no answer.
#[derive(Clone, Copy, Debug, PartialEq, Eq)]
pub struct Error {
    pub code: ErrorCode,
    pub offset: usize,
    pub input: Input,
}

impl Error {
    pub const fn new(code: ErrorCode, offset: usize, input: Input) -> Error {
        Error {
            code,
            offset,
            input,
        }
    }

    /// The input ends inside what is read: its length is the offset.
    pub const fn truncated(bytes: &[u8], input: Input) -> Error {
        Error::new(ErrorCode::Truncated, bytes.len(), input)
    }
}

#[cfg(test)]
mod tests {
    use super::*;

    #[test]
    fn numbers_lead_back_to_their_names() {
        for (index, code) in ErrorCode::ALL.iter().enumerate() {
            assert_eq!(code.number() as usize, index + 1);
            assert_eq!(ErrorCode::from_number(code.number()), Some(*code));
        }
        for (index, input) in Input::ALL.iter().enumerate() {
            assert_eq!(input.number() as usize, index);
            assert_eq!(Input::from_number(input.number()), Some(*input));
        }
        assert_eq!(ErrorCode::from_number(0), None);
        assert_eq!(ErrorCode::from_number(21), None);
        assert_eq!(Input::from_number(22), None);
    }
}
