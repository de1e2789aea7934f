//! Row sections that arrive in fragments. You feed each fragment to a reader, and close it at the end.

use crate::raw;
use crate::Error;

/// A reader of a row section that arrives in fragments. It holds all that it remembers between calls:
/// 120 bytes, and never more. You need not keep the fragments. A clone goes on by itself. Pass the
/// same schema file to every call.
///
/// An error stands: all later calls answer it too. The answer of [`close`](Reader::close) stands in
/// the same way.
///
/// ```
/// use adtg::{ErrorKind, Progress, Reader};
///
/// # fn main() -> Result<(), adtg::Error> {
/// // One byte; then three rows of it, cut anywhere.
/// let schema = [0x01, 0x11, 0x00];
/// let mut reader = Reader::new();
/// assert_eq!(reader.feed(&schema, &[0x07, 0x2A, 0x07])?, Progress::Going(1));
/// assert_eq!(reader.feed(&schema, &[])?, Progress::Going(1));
/// assert_eq!(reader.feed(&schema, &[0x2B, 0x07, 0x2C])?, Progress::Going(3));
///
/// // Without its done token the section is short.
/// let error = reader.clone().close(&schema).unwrap_err();
/// assert_eq!((error.kind, error.offset), (ErrorKind::Short, 6));
///
/// assert_eq!(reader.feed(&schema, &[0x0F])?, Progress::Complete(3));
/// assert_eq!(reader.close(&schema), Ok(3));
/// # Ok(())
/// # }
/// ```
#[repr(C)]
#[derive(Clone, Debug, Default, PartialEq, Eq, Hash)]
pub struct Reader {
    // The record of `adtg.h`, which only the calls take apart: 120 bytes, laid out by eights.
    record: [u64; Reader::SIZE / 8],
}

/// How far a section has come.
#[derive(Clone, Copy, Debug, PartialEq, Eq, Hash)]
pub enum Progress {
    /// The section needs more bytes. So many parent and child rows are whole. A child row counts
    /// before its change or deletion, which may follow.
    Going(usize),
    /// The section ends in its done token and has so many rows.
    Complete(usize),
}

impl Reader {
    /// How many bytes a reader has.
    pub const SIZE: usize = 120;

    /// The first reader, which has seen no byte.
    pub const fn new() -> Reader {
        Reader {
            record: [0; Reader::SIZE / 8],
        }
    }

    /// Reads the next fragment, which may be empty. It answers what
    /// [`check_section`](crate::check_section) answers for all bytes so far. But where the section
    /// only lacks bytes, it answers how many rows are whole, and not the error `Short`. A byte behind
    /// the done token is an error of the kind `Trailing`.
    ///
    /// All fragments together may have [`MAX_INPUT`](crate::MAX_INPUT) bytes. With more the error is
    /// of the kind `TooLarge`, unless the bytes up to there or the schema file have another error.
    /// The call takes up to 32 KB of stack.
    pub fn feed(&mut self, file: &[u8], fragment: &[u8]) -> Result<Progress, Error> {
        raw::feed(file, self, fragment).result()
    }

    /// Says that no more bytes come. It answers what [`check_section`](crate::check_section) answers
    /// for all of them: how many rows there are.
    pub fn close(&mut self, file: &[u8]) -> Result<usize, Error> {
        raw::close(file, self).closed()
    }

    /// The bytes of the reader, for you to keep.
    pub fn to_bytes(&self) -> [u8; Reader::SIZE] {
        let mut bytes = [0; Reader::SIZE];
        for (eight, number) in bytes.chunks_exact_mut(8).zip(self.record) {
            eight.copy_from_slice(&number.to_ne_bytes());
        }
        bytes
    }

    /// The reader of bytes that you kept. Any bytes are allowed. Where no call makes them, a call
    /// answers an error of the kind `Missing` about the reader, or something else.
    pub fn from_bytes(bytes: [u8; Reader::SIZE]) -> Reader {
        let mut reader = Reader::new();
        for (number, eight) in reader.record.iter_mut().zip(bytes.as_chunks().0) {
            *number = u64::from_ne_bytes(*eight);
        }
        reader
    }
}

#[cfg(test)]
mod tests {
    use std::mem::{align_of, size_of};

    use super::*;
    use crate::tests::{S, SECTION, T};
    use crate::{check_section, ErrorKind, Input, MAX_INPUT};

    fn refused<T>(kind: ErrorKind, offset: usize, input: Input) -> Result<T, Error> {
        Err(Error {
            kind,
            offset,
            input,
        })
    }

    fn of_section<T>(kind: ErrorKind, offset: usize) -> Result<T, Error> {
        refused(kind, offset, Input::Section)
    }

    #[test]
    fn rows_are_counted_as_they_arrive() {
        let mut reader = Reader::new();
        for (at, byte) in SECTION.into_iter().enumerate() {
            // The parent is whole with its fifth byte, the child with its eleventh.
            let wanted = match at {
                0..4 => Progress::Going(0),
                4..10 => Progress::Going(1),
                10..19 => Progress::Going(2),
                _ => Progress::Complete(2),
            };
            assert_eq!(reader.feed(&T, &[byte]), Ok(wanted), "{at}");
            assert_eq!(reader.feed(&T, &[]), Ok(wanted), "{at}");
            let closed = check_section(&T, &SECTION[..=at]);
            assert_eq!(reader.clone().close(&T), closed, "{at}");
        }
    }

    #[test]
    fn a_section_may_be_cut_anywhere() {
        for first in 0..=SECTION.len() {
            for second in first..=SECTION.len() {
                let mut reader = Reader::new();
                let cut = [&SECTION[..first], &SECTION[first..second]];
                for fragment in cut {
                    assert!(reader.feed(&T, fragment).is_ok());
                }
                let last = reader.feed(&T, &SECTION[second..]);
                assert_eq!(last, Ok(Progress::Complete(2)));
                assert_eq!(reader.close(&T), Ok(2));
            }
        }
    }

    #[test]
    fn a_refusal_stands() {
        let mut reader = Reader::new();
        assert_eq!(reader.feed(&T, &SECTION[..5]), Ok(Progress::Going(1)));
        let unknown = of_section(ErrorKind::UnknownToken, 5);
        for fragment in [&[0x0A][..], &[], &[0x0F]] {
            assert_eq!(reader.feed(&T, fragment), unknown);
        }
        // Whatever the file is.
        for file in [&T[..], &S, &[]] {
            assert_eq!(reader.close(file), of_section(ErrorKind::UnknownToken, 5));
            assert_eq!(reader.feed(file, &[0x0F]), unknown);
        }
    }

    #[test]
    fn the_answer_of_a_close_stands() {
        for end in 0..=SECTION.len() {
            let mut reader = Reader::new();
            assert!(reader.feed(&T, &SECTION[..end]).is_ok());
            let closed = reader.close(&T);
            assert_eq!(closed, check_section(&T, &SECTION[..end]));
            for fragment in [&SECTION[end..], &[], &[0x0A]] {
                let fed = reader.feed(&T, fragment);
                assert_eq!(fed, closed.map(Progress::Complete));
                assert_eq!(reader.close(&T), closed);
            }
        }
    }

    #[test]
    fn a_byte_behind_the_end_is_refused_at_its_place() {
        let mut reader = Reader::new();
        let complete = Ok(Progress::Complete(2));
        assert_eq!(reader.feed(&T, &SECTION), complete);
        assert_eq!(reader.feed(&T, &[]), complete);
        let trailing = of_section(ErrorKind::Trailing, 20);
        assert_eq!(reader.feed(&T, &[0x0F, 0x0F]), trailing);
    }

    #[test]
    fn a_bad_file_is_refused_at_every_call() {
        let range = refused(ErrorKind::Range, 0, Input::Schema);
        assert_eq!(Reader::new().close(&[0]), range);
        let range = range.map(Progress::Complete);
        assert_eq!(Reader::new().feed(&[0], &[]), range);
        let mut reader = Reader::new();
        assert_eq!(reader.feed(&[0], &SECTION), range);
        assert_eq!(reader.feed(&[0], &[]), range);
    }

    #[test]
    fn all_fragments_together_keep_the_limit() {
        // A chapter that is not nullable: rows have no bytes.
        let file = [0x01, 0x88, 0x01, 0x00, 0x07, 0x01, 0x11, 0x00];
        let rows = vec![0x07; MAX_INPUT + 1];
        let mut full = Reader::new();
        let half = MAX_INPUT / 2;
        assert_eq!(full.feed(&file, &rows[..half]), Ok(Progress::Going(half)));
        let going = Ok(Progress::Going(MAX_INPUT));
        assert_eq!(full.feed(&file, &rows[half..MAX_INPUT]), going);
        assert_eq!(full.feed(&file, &[]), going);
        let short = of_section(ErrorKind::Short, MAX_INPUT);
        assert_eq!(full.clone().close(&file), short);
        let large = of_section(ErrorKind::TooLarge, 0);
        assert_eq!(full.feed(&file, &[0x0F]), large);
        assert_eq!(full.feed(&file, &[]), large);
        assert_eq!(Reader::new().feed(&file, &rows), large);
        // The schema file has a limit of its own, and comes first.
        let schema = refused(ErrorKind::TooLarge, 0, Input::Schema);
        assert_eq!(Reader::new().feed(&rows, &rows), schema);
    }

    #[test]
    fn a_reader_is_kept_as_its_bytes() {
        let mut reader = Reader::new();
        assert_eq!(reader.to_bytes(), [0; Reader::SIZE]);
        assert!(reader.feed(&T, &SECTION[..13]).is_ok());
        let mut kept = Reader::from_bytes(reader.to_bytes());
        assert_eq!(kept, reader);
        let complete = Ok(Progress::Complete(2));
        assert_eq!(kept.feed(&T, &SECTION[13..]), complete);
        assert_ne!(kept, reader);
        let bytes: [u8; Reader::SIZE] = std::array::from_fn(|at| at as u8);
        assert_eq!(Reader::from_bytes(bytes).to_bytes(), bytes);
    }

    #[test]
    fn a_record_that_no_call_makes_is_named() {
        let forged = Reader::from_bytes([0xFF; Reader::SIZE]);
        let missing = refused(ErrorKind::Missing, 0, Input::Reader);
        assert_eq!(forged.clone().close(&T), missing);
        let missing = missing.map(Progress::Complete);
        assert_eq!(forged.clone().feed(&T, &SECTION), missing);
    }

    #[test]
    fn the_first_reader_is_one_of_zeros() {
        assert_eq!(raw::first_reader(), Reader::new());
        assert_eq!(Reader::default(), Reader::new());
    }

    #[test]
    fn a_reader_is_laid_out_as_in_the_header() {
        assert_eq!((size_of::<Reader>(), align_of::<Reader>()), (120, 8));
    }
}
