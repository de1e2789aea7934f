//! The numbers of a plan, as `adtg.h` lays them out, and what is found through any such numbers,
//! whether a call made them or not. The papers have no such plans: that part goes by `planned_row`
//! of `crates/jump/specs/Jumps.antt`.

use super::column::{kind_of, Column, Kind};
use super::row::{first_byte, top_bit, Answer};
use super::schema::MAX_COLUMNS;
use super::{check_size, Error, ErrorCode, Input};

/// How many numbers a plan has: one for each column, one for each stop, then three.
pub const PLAN_NUMBERS: usize = 2 * MAX_COLUMNS + 3;

/// Where the numbers of stops begin, and the last three numbers.
pub const STOPS: usize = MAX_COLUMNS;
pub const COUNTS: usize = 2 * MAX_COLUMNS;
pub const MAP: usize = COUNTS + 1;
pub const CHAPTERS: usize = COUNTS + 2;

/// A part of a number: its lowest bit, and how many bits it has.
#[derive(Clone, Copy, Debug, PartialEq, Eq)]
pub struct Part {
    low: u32,
    pub bits: u32,
}

impl Part {
    /// All of a number: the bytes of the presence map, or the bits of the nullable chapters, the
    /// map's first bit on top.
    pub const WHOLE: Part = part(0, 64);

    /// The parts of a column.
    pub const CODE: Part = part(0, 8);
    pub const FLAGS: Part = part(8, 8);
    pub const MAXIMUM: Part = part(16, 16);
    pub const GAP: Part = part(32, 12);
    /// How many nullable columns come before it.
    pub const BIT: Part = part(44, 6);
    /// How many stops come before it.
    pub const BEFORE: Part = part(50, 6);
    /// The width of a fixed type.
    pub const WIDTH: Part = part(56, 8);

    /// The parts of a stop.
    pub const STOP_GAP: Part = part(0, 16);
    /// 63 less its bit in the presence map; 0 if it is not nullable.
    pub const STOP_BIT: Part = part(16, 6);
    pub const VARIABLE: Part = part(22, 1);
    /// The prefix has four bytes.
    pub const LONG: Part = part(23, 1);
    /// Lengths must be even.
    pub const EVEN: Part = part(24, 1);
    pub const NULLABLE: Part = part(25, 1);
    pub const UNUSED: Part = part(26, 1);
    /// The bytes of the prefix, or of a fixed field.
    pub const SIZE: Part = part(27, 5);
    /// The greatest length.
    pub const MOST: Part = part(32, 32);

    /// The parts of the counts: how many columns there are, and the column of the first stop.
    pub const COUNT: Part = part(0, 8);
    pub const FIRST: Part = part(8, 56);

    /// All parts of one of a plan's numbers.
    pub fn all(number: usize) -> &'static [Part] {
        match number {
            0..STOPS => &[
                Part::CODE,
                Part::FLAGS,
                Part::MAXIMUM,
                Part::GAP,
                Part::BIT,
                Part::BEFORE,
                Part::WIDTH,
            ],
            STOPS..COUNTS => &[
                Part::STOP_GAP,
                Part::STOP_BIT,
                Part::VARIABLE,
                Part::LONG,
                Part::EVEN,
                Part::NULLABLE,
                Part::UNUSED,
                Part::SIZE,
                Part::MOST,
            ],
            COUNTS => &[Part::COUNT, Part::FIRST],
            _ => &[Part::WHOLE],
        }
    }

    /// The greatest number that has room in it.
    const fn greatest(self) -> u64 {
        u64::MAX >> (64 - self.bits)
    }
}

const fn part(low: u32, bits: u32) -> Part {
    Part { low, bits }
}

/// The numbers of a plan.
#[derive(Clone, Copy, Debug, PartialEq, Eq)]
pub struct PlanNumbers {
    pub numbers: [u64; PLAN_NUMBERS],
}

impl PlanNumbers {
    /// The plan of nothing.
    pub const BLANK: PlanNumbers = PlanNumbers {
        numbers: [0; PLAN_NUMBERS],
    };

    /// One part of one number.
    pub fn get(&self, number: usize, part: Part) -> u64 {
        self.numbers[number] >> part.low & part.greatest()
    }

    /// Gives it the low bits of a value.
    pub fn set(&mut self, number: usize, part: Part, value: u64) {
        let number = &mut self.numbers[number];
        *number &= !(part.greatest() << part.low);
        *number |= (value & part.greatest()) << part.low;
    }

    /// How many columns can be asked for.
    pub fn count(&self) -> usize {
        MAX_COLUMNS.min(self.get(COUNTS, Part::COUNT) as usize)
    }

    /// A column, which must be under 64. A type that is not known is a fixed one, and every fixed
    /// type has the width that is held.
    fn column(&self, index: usize) -> Column {
        let code = self.get(index, Part::CODE) as u8;
        let kind = match kind_of(code.into()) {
            Some(Kind::Variable) => Kind::Variable,
            Some(Kind::Chapter) => Kind::Chapter,
            Some(Kind::Fixed(_)) | None => Kind::Fixed(self.get(index, Part::WIDTH) as u8),
        };
        Column {
            code,
            kind,
            nullable: self.get(index, Part::FLAGS) == 1,
            maximum: self.get(index, Part::MAXIMUM) as u16,
        }
    }

    /// The column that the caller names, or error 18.
    fn asked(&self, index: usize) -> Result<Column, Error> {
        if index >= self.count() {
            return Err(Error::new(ErrorCode::NoSuch, 0, Input::Column));
        }
        Ok(self.column(index))
    }

    /// The place of a column by the codes, flags, maxima and gaps alone.
    pub fn fixed_place(&self, index: usize) -> Result<Option<usize>, Error> {
        let asked = self.asked(index)?;
        if asked.is_chapter() || (0..index).any(|before| self.column(before).is_stop()) {
            return Ok(None);
        }
        let gap = self.get(index, Part::GAP) as usize;
        Ok(Some(gap + asked.prefix_size()))
    }

    /// Where the data of a row start.
    pub fn open(&self, row: &[u8]) -> Result<usize, Error> {
        check_size(row, Input::Row)?;
        self.opened(row)
    }

    /// The same in a row whose size is checked already.
    fn opened(&self, row: &[u8]) -> Result<usize, Error> {
        let map = self.get(MAP, Part::WHOLE);
        if map > row.len() as u64 {
            return Err(Error::truncated(row, Input::Row));
        }
        let wrong = first_bits(row) & self.get(CHAPTERS, Part::WHOLE);
        if wrong != 0 {
            let byte = first_byte(wrong);
            return Err(Error::new(ErrorCode::ChapterBit, byte, Input::Row));
        }
        Ok(map as usize)
    }

    /// The field of one column in a row.
    pub fn look_up(&self, row: &[u8], index: usize) -> Result<Answer, Error> {
        check_size(row, Input::Row)?;
        let asked = self.asked(index)?;
        self.opened(row)?;
        let bits = first_bits(row);
        if asked.is_chapter() {
            return Ok(Answer::Chapter);
        }
        if asked.nullable && bits & top_bit(self.get(index, Part::BIT) as usize) == 0 {
            return Ok(Answer::Null);
        }
        let (mut at, mut prefixes) = (0, 0);
        for stop in 0..self.stops_to(index) {
            at += self.get(STOPS + stop, Part::STOP_GAP) as usize;
            if self.has(bits, stop) {
                at += self.span(row, at, stop)?;
                prefixes += self.get(STOPS + stop, Part::VARIABLE) as usize;
            }
        }
        at += self.get(index, Part::GAP) as usize;
        let place = asked.field_at(row, at, Input::Row)?;
        prefixes += usize::from(asked.kind == Kind::Variable);
        Ok(Answer::Field { place, prefixes })
    }

    /// How many stops a look-up goes over: none, if the first is not before the column or is no
    /// stop by its code and flags.
    fn stops_to(&self, index: usize) -> usize {
        let first = self.get(COUNTS, Part::FIRST);
        if first < index as u64 && self.column(first as usize).is_stop() {
            self.get(index, Part::BEFORE) as usize
        } else {
            0
        }
    }

    /// True if a row has a field of a stop. One of fixed width goes by its bit in any case.
    fn has(&self, bits: u64, stop: usize) -> bool {
        let flag = |part| self.get(STOPS + stop, part) == 1;
        flag(Part::VARIABLE) && !flag(Part::NULLABLE)
            || bits >> self.get(STOPS + stop, Part::STOP_BIT) & 1 == 1
    }

    /// The bytes that the field of a stop at `at` takes. A prefix that is not whole says 0.
    fn span(&self, row: &[u8], at: usize, stop: usize) -> Result<usize, Error> {
        let part = |part| self.get(STOPS + stop, part);
        if part(Part::VARIABLE) == 0 {
            return Ok(part(Part::SIZE) as usize);
        }
        let rest = row.get(at..).unwrap_or_default();
        let (prefix, length) = if part(Part::LONG) == 1 {
            (4, rest.first_chunk().map(|four| u32::from_le_bytes(*four)))
        } else {
            (1, rest.first().map(|byte| u32::from(*byte)))
        };
        let length = length.unwrap_or(0);
        let is_odd = !length.is_multiple_of(2);
        if u64::from(length) > part(Part::MOST) || part(Part::EVEN) == 1 && is_odd {
            return Err(Error::new(ErrorCode::Length, at, Input::Row));
        }
        Ok(prefix + length as usize)
    }
}

/// The first 64 bits of a row, the first on top; 0 past its end.
fn first_bits(row: &[u8]) -> u64 {
    let mut bytes = [0; 8];
    let length = row.len().min(bytes.len());
    bytes[..length].copy_from_slice(&row[..length]);
    u64::from_be_bytes(bytes)
}

#[cfg(test)]
mod tests {
    use super::super::plan::make_plan;
    use super::*;

    const S: [u8; 9] = [0x03, 0x03, 0x00, 0x82, 0x01, 0x01, 0x0A, 0x11, 0x01];
    const ROW: [u8; 11] = [0xC0, 5, 0, 0, 0, 4, 0x68, 0, 0x69, 0, 0x2A];

    fn plan() -> PlanNumbers {
        make_plan(&S, 0).expect("the schema is sound").numbers()
    }

    fn changed(number: usize, part: Part, value: u64) -> PlanNumbers {
        let mut plan = plan();
        plan.set(number, part, value);
        plan
    }

    #[test]
    fn parts_make_up_every_number() {
        let mut plan = PlanNumbers::BLANK;
        for number in 0..PLAN_NUMBERS {
            let mut bits = 0;
            for part in Part::all(number) {
                assert_eq!(plan.get(number, *part), 0);
                plan.set(number, *part, u64::MAX);
                bits += part.bits;
            }
            assert_eq!((plan.numbers[number], bits), (u64::MAX, 64));
        }
    }

    #[test]
    fn a_wrong_part_says_where_a_field_is() {
        let found = |plan: PlanNumbers| plan.look_up(&ROW, 2);
        let field = |place, prefixes| Ok(Answer::Field { place, prefixes });
        let wrong = |code, offset| Err(Error::new(code, offset, Input::Row));
        assert_eq!(found(plan()), field(10..11, 1));
        // No stop before it.
        assert_eq!(found(changed(2, Part::BEFORE, 0)), field(0..1, 0));
        for first in [0, 2, 3, 1 << 32] {
            assert_eq!(found(changed(COUNTS, Part::FIRST, first)), field(0..1, 0));
        }
        let twice = found(changed(2, Part::BEFORE, 2));
        assert_eq!(twice, wrong(ErrorCode::Truncated, 11));
        // Stops that say something else than their columns.
        let stop = |part, value| found(changed(STOPS, part, value));
        assert_eq!(stop(Part::STOP_GAP, 0), wrong(ErrorCode::Length, 0));
        assert_eq!(stop(Part::STOP_BIT, 61), field(5..6, 0));
        assert_eq!(stop(Part::NULLABLE, 0), field(10..11, 1));
        assert_eq!(stop(Part::VARIABLE, 0), field(6..7, 0));
        assert_eq!(stop(Part::LONG, 1), wrong(ErrorCode::Length, 5));
        assert_eq!(stop(Part::MOST, 3), wrong(ErrorCode::Length, 5));
        assert_eq!(stop(Part::UNUSED, 1), field(10..11, 1));
        assert_eq!(stop(Part::SIZE, 9), field(10..11, 1));
        let column = |part, value| found(changed(2, part, value));
        assert_eq!(column(Part::GAP, 1), wrong(ErrorCode::Truncated, 11));
        assert_eq!(column(Part::WIDTH, 0), field(10..10, 1));
        assert_eq!(column(Part::BIT, 2), Ok(Answer::Null));
        let missing = Error::new(ErrorCode::NoSuch, 0, Input::Column);
        assert_eq!(found(changed(COUNTS, Part::COUNT, 2)), Err(missing));
        let map = found(changed(MAP, Part::WHOLE, 12));
        assert_eq!(map, wrong(ErrorCode::Truncated, 11));
        let mask = changed(CHAPTERS, Part::WHOLE, top_bit(13));
        assert_eq!(found(mask), wrong(ErrorCode::ChapterBit, 1));
    }
}
