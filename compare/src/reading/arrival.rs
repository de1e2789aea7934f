//! A row section that arrives in fragments. All bytes are kept, and each call asks the section
//! reader about all of them.

use super::section::{check_section, whole_elements};
use super::{check_size, Error, ErrorCode, Input, MAX_INPUT};

/// How far a section has come.
#[derive(Clone, Copy, Debug, PartialEq, Eq)]
pub enum Progress {
    /// More bytes are needed; so many 07 and 87 elements are whole.
    Going(usize),
    /// The end token is there, behind so many rows.
    Complete(usize),
}

/// A section on its way.
#[derive(Clone, Debug, Default)]
pub struct Arrival {
    bytes: Vec<u8>,
    /// The refusal or the answer of a close, once there is one.
    standing: Option<Result<Progress, Error>>,
}

impl Arrival {
    /// Takes the next fragment, and says what the bytes so far are.
    pub fn feed(&mut self, schema: &[u8], fragment: &[u8]) -> Result<Progress, Error> {
        if let Some(answer) = self.standing {
            return answer;
        }
        self.bytes.extend_from_slice(fragment);
        let answer = so_far(schema, &self.bytes);
        if answer.is_err() {
            self.standing = Some(answer);
        }
        answer
    }

    /// Takes it that no bytes come any more, and says what the whole section is.
    pub fn close(&mut self, schema: &[u8]) -> Result<Progress, Error> {
        let whole = || check_section(schema, &self.bytes).map(Progress::Complete);
        *self.standing.get_or_insert_with(whole)
    }
}

/// What the bytes of a section are that may go on. Over the limit those within it are judged first.
fn so_far(schema: &[u8], bytes: &[u8]) -> Result<Progress, Error> {
    check_size(schema, Input::Schema)?;
    let within = &bytes[..bytes.len().min(MAX_INPUT)];
    let progress = match check_section(schema, within) {
        Ok(rows) => Progress::Complete(rows),
        Err(error) if error.code == ErrorCode::Truncated && error.input == Input::Section => {
            Progress::Going(whole_elements(schema, within)?)
        }
        Err(error) => return Err(error),
    };
    check_size(bytes, Input::Section)?;
    Ok(progress)
}

#[cfg(test)]
mod tests {
    use super::Progress::{Complete, Going};
    use super::*;
    use crate::generate;
    use crate::random::Random;
    use crate::reading::section::{END, PARENT};

    const T: [u8; 10] = [0x02, 0x03, 0x00, 0x88, 0x01, 0x00, 0x07, 0x01, 0x11, 0x00];
    const ROWS: [u8; 20] = [
        0x07, 5, 0, 0, 0, 0x87, 7, 0, 0, 0, 0x2A, 0x8A, 7, 0, 0, 0, 0x80, 0x00, 0x2B, 0x0F,
    ];
    /// A chapter that is not nullable: parent rows have no bytes.
    const EMPTY_ROWS: [u8; 8] = [0x01, 0x88, 0x01, 0x00, 0x07, 0x01, 0x11, 0x00];

    fn wrong(code: ErrorCode, offset: usize) -> Result<Progress, Error> {
        Err(Error::new(code, offset, Input::Section))
    }

    fn wrong_file(code: ErrorCode, offset: usize) -> Result<Progress, Error> {
        Err(Error::new(code, offset, Input::Schema))
    }

    #[test]
    fn elements_are_counted_once_they_are_whole() {
        let mut arrival = Arrival::default();
        assert_eq!(arrival.feed(&T, &[]), Ok(Going(0)));
        for (at, byte) in ROWS.iter().enumerate() {
            let wanted = match at {
                0..4 => Going(0),
                4..10 => Going(1),
                // The change of the child adds nothing.
                10..19 => Going(2),
                _ => Complete(2),
            };
            assert_eq!(arrival.feed(&T, &[*byte]), Ok(wanted), "{at}");
            assert_eq!(arrival.feed(&T, &[]), Ok(wanted), "{at}");
        }
        assert_eq!(arrival.close(&T), Ok(Complete(2)));
    }

    #[test]
    fn a_close_says_what_the_section_is() {
        for end in 0..=ROWS.len() {
            let mut arrival = Arrival::default();
            let _ = arrival.feed(&T, &ROWS[..end]);
            let closed = arrival.close(&T);
            assert_eq!(closed, check_section(&T, &ROWS[..end]).map(Complete));
            // It stands, whatever comes.
            assert_eq!(arrival.feed(&T, &ROWS[end..]), closed);
            assert_eq!(arrival.feed(&T, &[0x00]), closed);
            assert_eq!(arrival.close(&T), closed);
        }
    }

    #[test]
    fn a_refusal_stands() {
        let mut arrival = Arrival::default();
        assert_eq!(arrival.feed(&T, &ROWS[..11]), Ok(Going(2)));
        let unpaired = wrong(ErrorCode::Unpaired, 11);
        assert_eq!(arrival.feed(&T, &[0x8A, 8, 0, 0]), Ok(Going(2)));
        assert_eq!(arrival.feed(&T, &[0]), unpaired);
        assert_eq!(arrival.feed(&T, &[]), unpaired);
        assert_eq!(arrival.feed(&T, &[END]), unpaired);
        assert_eq!(arrival.close(&T), unpaired);
        assert_eq!(arrival.feed(&[], &[END]), unpaired);
    }

    #[test]
    fn a_byte_behind_the_end_is_refused() {
        let mut arrival = Arrival::default();
        assert_eq!(arrival.feed(&T, &ROWS), Ok(Complete(2)));
        assert_eq!(arrival.feed(&T, &[]), Ok(Complete(2)));
        assert_eq!(arrival.feed(&T, &[END]), wrong(ErrorCode::Trailing, 20));
        let mut at_once = Arrival::default();
        assert_eq!(at_once.feed(&T, &[END, 0]), wrong(ErrorCode::Trailing, 1));
    }

    #[test]
    fn the_errors_of_a_file_are_given_at_once() {
        let short = wrong_file(ErrorCode::Truncated, 9);
        for fragment in [&[][..], &ROWS, &[0x00]] {
            let mut arrival = Arrival::default();
            assert_eq!(arrival.feed(&T[..9], fragment), short);
            assert_eq!(arrival.close(&T[..9]), short);
        }
        assert_eq!(Arrival::default().close(&T[..9]), short);
        let large = vec![0; MAX_INPUT + 1];
        let over = wrong_file(ErrorCode::Oversize, 0);
        assert_eq!(Arrival::default().feed(&large, &[]), over);
        assert_eq!(Arrival::default().feed(&large, &large), over);
        assert_eq!(Arrival::default().close(&large), over);
    }

    #[test]
    fn a_section_may_fill_the_limit() {
        let mut bytes = vec![PARENT; MAX_INPUT];
        bytes[MAX_INPUT - 1] = END;
        let mut arrival = Arrival::default();
        let half = MAX_INPUT / 2;
        assert_eq!(arrival.feed(&EMPTY_ROWS, &bytes[..half]), Ok(Going(half)));
        let complete = Ok(Complete(MAX_INPUT - 1));
        assert_eq!(arrival.feed(&EMPTY_ROWS, &bytes[half..]), complete);
        assert_eq!(arrival.feed(&EMPTY_ROWS, &[]), complete);
        assert_eq!(arrival.clone().close(&EMPTY_ROWS), complete);
        // A byte behind the end and over the limit.
        let over = wrong(ErrorCode::Oversize, 0);
        assert_eq!(arrival.feed(&EMPTY_ROWS, &[END]), over);
        assert_eq!(arrival.close(&EMPTY_ROWS), over);
        bytes.push(END);
        assert_eq!(Arrival::default().feed(&EMPTY_ROWS, &bytes), over);
    }

    #[test]
    fn a_byte_within_the_limit_comes_first() {
        let mut bytes = vec![PARENT; MAX_INPUT + 1];
        bytes[MAX_INPUT - 2] = END;
        let trailing = wrong(ErrorCode::Trailing, MAX_INPUT - 1);
        assert_eq!(Arrival::default().feed(&EMPTY_ROWS, &bytes), trailing);
        bytes[MAX_INPUT - 2] = PARENT;
        bytes[MAX_INPUT - 1] = 0x00;
        let unknown = wrong(ErrorCode::UnknownToken, MAX_INPUT - 1);
        assert_eq!(Arrival::default().feed(&EMPTY_ROWS, &bytes), unknown);
        // The first byte over it is not looked at.
        bytes[MAX_INPUT - 1] = PARENT;
        bytes[MAX_INPUT] = 0x00;
        let over = wrong(ErrorCode::Oversize, 0);
        assert_eq!(Arrival::default().feed(&EMPTY_ROWS, &bytes), over);
        assert_eq!(
            Arrival::default().feed(&[0], &bytes),
            wrong_file(ErrorCode::NumberRange, 0)
        );
    }

    #[test]
    fn a_section_may_be_short_at_the_limit() {
        let bytes = vec![PARENT; MAX_INPUT];
        let mut arrival = Arrival::default();
        assert_eq!(arrival.feed(&EMPTY_ROWS, &bytes), Ok(Going(MAX_INPUT)));
        let short = wrong(ErrorCode::Truncated, MAX_INPUT);
        assert_eq!(arrival.clone().close(&EMPTY_ROWS), short);
        let over = wrong(ErrorCode::Oversize, 0);
        assert_eq!(arrival.feed(&EMPTY_ROWS, &bytes), over);
        assert_eq!(arrival.feed(&EMPTY_ROWS, &[]), over);
    }

    /// Whole elements are a section once the end token stands behind them; so the count is the most
    /// rows of any part that the bytes begin with.
    #[test]
    fn whole_elements_are_the_rows_of_a_shorter_section() {
        let mut random = Random::new(1);
        for _ in 0..200 {
            let (file, schemas) = generate::schema_file(&mut random);
            let (mut section, _) = generate::section(&mut random, &file, &schemas);
            section.truncate(60);
            let mut most = 0;
            for end in 0..section.len() {
                let ended = [&section[..end], &[END]].concat();
                most = most.max(check_section(&file, &ended).unwrap_or(0));
                assert_eq!(whole_elements(&file, &section[..end]), Ok(most));
            }
        }
    }
}
