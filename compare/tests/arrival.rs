//! Sections that arrive in fragments, through the crate `adtg`: wherever a section is cut, every
//! call answers what the reading answers, and the close what the whole section is.

use adtg::Reader;
use compare::generate;
use compare::random::Random;
use compare::reading::arrival::{Arrival, Progress};
use compare::reading::section::check_section;
use compare::reading::Error;
use compare::trials::damage;

/// The longest section that is cut at all places.
const LONGEST: usize = 48;

/// A reader of each side.
#[derive(Clone, Default)]
struct Both {
    reader: Reader,
    arrival: Arrival,
}

impl Both {
    fn feed(&mut self, file: &[u8], fragment: &[u8]) -> Result<Progress, Error> {
        let fed = self.reader.feed(file, fragment);
        let fed = fed.map(Progress::from).map_err(Error::from);
        assert_eq!(fed, self.arrival.feed(file, fragment));
        fed
    }

    fn close(&mut self, file: &[u8]) -> Result<Progress, Error> {
        let closed = self.reader.close(file);
        let closed = closed.map(Progress::Complete).map_err(Error::from);
        assert_eq!(closed, self.arrival.close(file));
        closed
    }
}

/// What the whole section is.
fn whole(file: &[u8], section: &[u8]) -> Result<Progress, Error> {
    check_section(file, section).map(Progress::Complete)
}

/// Short sections with rows, every other one damaged, each under its file.
fn short_sections(seed: u64, count: usize) -> Vec<(Vec<u8>, Vec<u8>)> {
    let mut random = Random::new(seed);
    let mut made = Vec::new();
    while made.len() < count {
        let (file, schemas) = generate::schema_file(&mut random);
        let (mut section, table) = generate::section(&mut random, &file, &schemas);
        if made.len() % 2 == 1 {
            damage(&mut random, &mut section);
        }
        if !table.is_empty() && section.len() <= LONGEST {
            made.push((file, section));
        }
    }
    made
}

#[test]
fn a_section_may_be_cut_at_any_two_places() {
    for (file, section) in short_sections(1, 60) {
        for first in 0..=section.len() {
            let mut begun = Both::default();
            let _ = begun.feed(&file, &section[..first]);
            for second in first..=section.len() {
                let mut both = begun.clone();
                let _ = both.feed(&file, &section[first..second]);
                let _ = both.feed(&file, &section[second..]);
                assert_eq!(both.close(&file), whole(&file, &section));
            }
        }
    }
}

#[test]
fn a_section_may_come_byte_by_byte_and_end_anywhere() {
    for (file, section) in short_sections(2, 300) {
        let mut both = Both::default();
        for (at, byte) in section.iter().enumerate() {
            let so_far = both.feed(&file, &[*byte]);
            assert_eq!(both.feed(&file, &[]), so_far);
            let mut ended = both.clone();
            let closed = ended.close(&file);
            // A refusal stands, so it is that of the bytes up to it.
            if so_far.is_ok() {
                assert_eq!(closed, whole(&file, &section[..=at]));
            }
            assert_eq!(ended.feed(&file, &section), closed);
            assert_eq!(ended.close(&[]), closed);
        }
    }
}

#[test]
fn a_reader_is_all_that_is_remembered() {
    for (file, section) in short_sections(3, 100) {
        let mut kept = Reader::new().to_bytes();
        let mut both = Both::default();
        for byte in section {
            let mut reader = Reader::from_bytes(kept);
            let fed = reader.feed(&file, &[byte]);
            kept = reader.to_bytes();
            let fed = fed.map(Progress::from).map_err(Error::from);
            assert_eq!(fed, both.feed(&file, &[byte]));
        }
        assert_eq!(Reader::from_bytes(kept), both.reader);
    }
}
