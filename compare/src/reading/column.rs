//! Columns: their types, and one field at a position.

use std::ops::Range;

use super::{Error, ErrorCode, Input};

/// Type codes of variable columns and of chapters.
pub const BYTES: u8 = 0x80;
pub const TEXT: u8 = 0x81;
pub const WIDE_TEXT: u8 = 0x82;
pub const CHAPTER: u8 = 0x88;

/// The codes of fixed types with their widths in bytes.
pub const FIXED: [(u8, u8); 18] = [
    (0x02, 2),
    (0x03, 4),
    (0x04, 4),
    (0x05, 8),
    (0x06, 8),
    (0x07, 8),
    (0x0A, 4),
    (0x0B, 2),
    (0x0E, 16),
    (0x10, 1),
    (0x11, 1),
    (0x12, 2),
    (0x13, 4),
    (0x14, 8),
    (0x15, 8),
    (0x48, 16),
    (0x85, 6),
    (0x86, 6),
];

/// Maxima from here on have a prefix of four bytes, those under it one of one byte.
const LONG_MAXIMUM: u16 = 256;
const SHORT_PREFIX: usize = 1;
const LONG_PREFIX: usize = 4;

/// What a type's fields are made of.
#[derive(Clone, Copy, Debug, PartialEq, Eq)]
pub enum Kind {
    /// Always this many bytes.
    Fixed(u8),
    /// A length, then as many bytes.
    Variable,
    /// No field of its own: the rows of a nested schema.
    Chapter,
}

/// The kind of each code under 256.
const KINDS: [Option<Kind>; 256] = kinds();

const fn kinds() -> [Option<Kind>; 256] {
    let mut kinds = [None; 256];
    let mut index = 0;
    while index < FIXED.len() {
        let (code, width) = FIXED[index];
        kinds[code as usize] = Some(Kind::Fixed(width));
        index += 1;
    }
    kinds[BYTES as usize] = Some(Kind::Variable);
    kinds[TEXT as usize] = Some(Kind::Variable);
    kinds[WIDE_TEXT as usize] = Some(Kind::Variable);
    kinds[CHAPTER as usize] = Some(Kind::Chapter);
    kinds
}

/// One column of a schema. The maximum is 0 where the type has none.
#[derive(Clone, Copy, Debug, PartialEq, Eq)]
pub struct Column {
    pub code: u8,
    pub kind: Kind,
    pub nullable: bool,
    pub maximum: u16,
}

impl Column {
    /// What stands in a slot that has no column, or none yet.
    pub(super) const NONE: Column = Column {
        code: 0,
        kind: Kind::Fixed(0),
        nullable: false,
        maximum: 0,
    };

    /// True for a column of nested rows.
    pub fn is_chapter(&self) -> bool {
        self.kind == Kind::Chapter
    }

    /// True if places behind it depend on the row.
    pub fn is_stop(&self) -> bool {
        match self.kind {
            Kind::Fixed(_) => self.nullable,
            Kind::Variable => true,
            Kind::Chapter => false,
        }
    }

    /// The bytes that say a field's length; 0 unless the column is variable.
    #[inline]
    pub fn prefix_size(&self) -> usize {
        match self.kind {
            Kind::Variable if self.maximum < LONG_MAXIMUM => SHORT_PREFIX,
            Kind::Variable => LONG_PREFIX,
            Kind::Fixed(_) | Kind::Chapter => 0,
        }
    }

    /// True if a variable column takes fields of this many bytes.
    #[inline]
    pub fn allows_length(&self, length: usize) -> bool {
        let is_even = length.is_multiple_of(2);
        length <= self.greatest_length() && (is_even || self.code != WIDE_TEXT)
    }

    /// The greatest length in bytes that a variable column takes.
    #[inline]
    pub fn greatest_length(&self) -> usize {
        let maximum = usize::from(self.maximum);
        if self.code == WIDE_TEXT {
            2 * maximum
        } else {
            maximum
        }
    }

    /// The field whose bytes, or whose prefix, stand at `at`. A chapter's field is empty.
    #[inline]
    pub fn field_at(&self, bytes: &[u8], at: usize, input: Input) -> Result<Range<usize>, Error> {
        let (start, length) = match self.kind {
            Kind::Fixed(width) => (at, usize::from(width)),
            Kind::Variable => self.length_at(bytes, at, input)?,
            Kind::Chapter => (at, 0),
        };
        let end = start + length;
        if end > bytes.len() {
            return Err(Error::truncated(bytes, input));
        }
        Ok(start..end)
    }

    /// Where a variable field starts, and its length, from the prefix at `at`.
    #[inline]
    fn length_at(&self, bytes: &[u8], at: usize, input: Input) -> Result<(usize, usize), Error> {
        let prefix = bytes.get(at..).unwrap_or_default();
        let (size, length) = if self.maximum < LONG_MAXIMUM {
            let byte = prefix.first().ok_or(Error::truncated(bytes, input))?;
            (SHORT_PREFIX, usize::from(*byte))
        } else {
            let four = prefix.first_chunk().ok_or(Error::truncated(bytes, input))?;
            (LONG_PREFIX, u32::from_le_bytes(*four) as usize)
        };
        if !self.allows_length(length) {
            return Err(Error::new(ErrorCode::Length, at, input));
        }
        Ok((at + size, length))
    }
}

/// The kind of the type with this code, if it is known.
pub fn kind_of(code: u32) -> Option<Kind> {
    KINDS.get(code as usize).copied().flatten()
}
