//! Column plans: what a schema's columns are and how far apart their fields lie. A look-up
//! through a plan jumps from stop to stop: the columns after which places depend on the row.

use super::column::{Column, Kind, WIDE_TEXT};
use super::numbers::{Part, PlanNumbers, CHAPTERS, COUNTS, MAP, STOPS};
use super::row::{Answer, PresenceMap, Walk};
use super::schema::{SchemaFile, MAX_COLUMNS};
use super::{check_size, Error, ErrorCode, Input};

/// A plan of one schema. Slots past the last column are all alike.
#[derive(Clone, Debug, PartialEq, Eq)]
pub struct Plan {
    columns: [PlanColumn; MAX_COLUMNS],
    count: usize,
    presence: PresenceMap,
    /// The indexes of all stops, in order; 0 past the last.
    stops: [u8; MAX_COLUMNS],
    stop_count: usize,
}

/// One column of a plan.
#[derive(Clone, Copy, Debug, PartialEq, Eq)]
pub struct PlanColumn {
    pub column: Column,
    /// The bytes from the end of the last earlier stop, or from the row's start if there is
    /// none, up to this column's prefix or field; 0 for a chapter.
    pub gap: u16,
    /// How many stops come before it.
    stops_before: u8,
    /// How many nullable columns come before it.
    bit: u8,
}

/// A row whose presence map is checked, for look-ups through the plan it was opened with.
#[derive(Clone, Copy, Debug)]
pub struct OpenRow<'a> {
    row: &'a [u8],
    presence: u64,
}

/// The plan of one schema of a file.
pub fn make_plan(schema: &[u8], number: usize) -> Result<Plan, Error> {
    check_size(schema, Input::Schema)?;
    let file = SchemaFile::read(schema, Input::Schema)?;
    Ok(Plan::of(file.columns(number)?))
}

/// Error 17 unless the plan is the one that this schema would have.
pub fn check_plan(plan: &Plan, schema: &[u8], number: usize) -> Result<(), Error> {
    if *plan != make_plan(schema, number)? {
        return Err(Error::new(ErrorCode::PlanMismatch, 0, Input::Plan));
    }
    Ok(())
}

impl Plan {
    /// The plan of these columns, 64 at most.
    fn of(columns: &[Column]) -> Plan {
        let unused = PlanColumn {
            column: Column::NONE,
            gap: 0,
            stops_before: 0,
            bit: 0,
        };
        let mut plan = Plan {
            columns: [unused; MAX_COLUMNS],
            count: columns.len(),
            presence: PresenceMap::of(columns),
            stops: [0; MAX_COLUMNS],
            stop_count: 0,
        };
        let mut since_stop = plan.presence.size();
        let mut bit = 0;
        for (index, column) in columns.iter().enumerate() {
            // A gap is at most 64 fields of 16 bytes and a map of eight; counts are under 65.
            plan.columns[index] = PlanColumn {
                column: *column,
                gap: if column.is_chapter() {
                    0
                } else {
                    since_stop as u16
                },
                stops_before: plan.stop_count as u8,
                bit,
            };
            bit += u8::from(column.nullable);
            if column.is_stop() {
                plan.stops[plan.stop_count] = index as u8;
                plan.stop_count += 1;
                since_stop = 0;
            } else if let Kind::Fixed(width) = column.kind {
                since_stop += usize::from(width);
            }
        }
        plan
    }

    /// The plan's columns.
    pub fn columns(&self) -> &[PlanColumn] {
        &self.columns[..self.count]
    }

    /// The size of the presence map of a row, which is where its fields start.
    pub fn map_size(&self) -> usize {
        self.presence.size()
    }

    /// All that the plan holds, as the numbers of the C interface.
    pub fn numbers(&self) -> PlanNumbers {
        let mut plan = PlanNumbers::BLANK;
        for (index, planned) in self.columns().iter().enumerate() {
            planned.fill(index, &mut plan);
        }
        for (stop, index) in self.stops[..self.stop_count].iter().enumerate() {
            self.columns[usize::from(*index)].fill_stop(STOPS + stop, &mut plan);
        }
        plan.set(COUNTS, Part::COUNT, self.count as u64);
        plan.set(COUNTS, Part::FIRST, self.stops[0].into());
        plan.set(MAP, Part::WHOLE, self.map_size() as u64);
        plan.set(CHAPTERS, Part::WHOLE, self.presence.chapters());
        plan
    }

    /// Where the field of a column starts in every row that has it; `None` if that depends on
    /// the row.
    pub fn fixed_place(&self, column: usize) -> Result<Option<usize>, Error> {
        let planned = self.column(column)?;
        if planned.column.is_chapter() || planned.stops_before > 0 {
            return Ok(None);
        }
        let place = usize::from(planned.gap) + planned.column.prefix_size();
        Ok(Some(place))
    }

    /// The field of one column in a row, found by the plan.
    pub fn look_up(&self, row: &[u8], column: usize) -> Result<Answer, Error> {
        check_size(row, Input::Row)?;
        let planned = self.column(column)?;
        self.opened(row)?.find(self, planned)
    }

    /// Checks the row's presence map and keeps it for later look-ups.
    pub fn open<'a>(&self, row: &'a [u8]) -> Result<OpenRow<'a>, Error> {
        check_size(row, Input::Row)?;
        self.opened(row)
    }

    /// Opens a row whose size is checked already.
    fn opened<'a>(&self, row: &'a [u8]) -> Result<OpenRow<'a>, Error> {
        let presence = self.presence.read(row, 0, Input::Row)?;
        Ok(OpenRow { row, presence })
    }

    /// The column that the caller names, or error 18.
    fn column(&self, column: usize) -> Result<&PlanColumn, Error> {
        self.columns()
            .get(column)
            .ok_or(Error::new(ErrorCode::NoSuch, 0, Input::Column))
    }
}

impl PlanColumn {
    /// Fills in the number of a column.
    fn fill(&self, number: usize, plan: &mut PlanNumbers) {
        let mut set = |part, value: u64| plan.set(number, part, value);
        set(Part::CODE, self.column.code.into());
        set(Part::FLAGS, self.column.nullable.into());
        set(Part::MAXIMUM, self.column.maximum.into());
        set(Part::GAP, self.gap.into());
        set(Part::BIT, self.bit.into());
        set(Part::BEFORE, self.stops_before.into());
        if let Kind::Fixed(width) = self.column.kind {
            set(Part::WIDTH, width.into());
        }
    }

    /// Fills in the number of a stop.
    fn fill_stop(&self, number: usize, plan: &mut PlanNumbers) {
        let mut set = |part, value: u64| plan.set(number, part, value);
        let prefix = self.column.prefix_size();
        set(Part::STOP_GAP, self.gap.into());
        if self.column.nullable {
            set(Part::NULLABLE, 1);
            set(Part::STOP_BIT, 63 - u64::from(self.bit));
        }
        if let Kind::Fixed(width) = self.column.kind {
            set(Part::SIZE, width.into());
        } else {
            set(Part::VARIABLE, 1);
            set(Part::LONG, (prefix == 4).into());
            set(Part::EVEN, (self.column.code == WIDE_TEXT).into());
            set(Part::SIZE, prefix as u64);
            set(Part::MOST, self.column.greatest_length() as u64);
        }
    }
}

impl OpenRow<'_> {
    /// The field of one column, found by the plan that the row was opened with.
    pub fn look_up(&self, plan: &Plan, column: usize) -> Result<Answer, Error> {
        self.find(plan, plan.column(column)?)
    }

    /// Jumps from stop to stop up to the column. Bytes that a jump leaves out need no check:
    /// if they are missing, so is every field after them.
    fn find(&self, plan: &Plan, asked: &PlanColumn) -> Result<Answer, Error> {
        if asked.column.is_chapter() {
            return Ok(Answer::Chapter);
        }
        if !self.has(asked) {
            return Ok(Answer::Null);
        }
        let mut walk = Walk::new(self.row, 0, Input::Row);
        for index in &plan.stops[..usize::from(asked.stops_before)] {
            let stop = &plan.columns[usize::from(*index)];
            walk.skip(usize::from(stop.gap));
            if self.has(stop) {
                walk.pass_field(&stop.column)?;
            }
        }
        walk.skip(usize::from(asked.gap));
        walk.find(&asked.column)
    }

    /// True if the row has a field for a column that is no chapter.
    fn has(&self, planned: &PlanColumn) -> bool {
        !planned.column.nullable || self.presence << planned.bit >> 63 != 0
    }
}

#[cfg(test)]
mod tests {
    use super::*;

    const S: [u8; 9] = [0x03, 0x03, 0x00, 0x82, 0x01, 0x01, 0x0A, 0x11, 0x01];

    fn plan_of(schema: &[u8]) -> Plan {
        make_plan(schema, 0).expect("the schema is sound")
    }

    fn wrong(code: ErrorCode, offset: usize) -> Result<Answer, Error> {
        Err(Error::new(code, offset, Input::Row))
    }

    #[test]
    fn gaps_leave_the_own_prefix_aside_and_places_do_not() {
        let plan = plan_of(&S);
        let gaps: Vec<u16> = plan.columns().iter().map(|column| column.gap).collect();
        assert_eq!(gaps, [1, 5, 0]);
        assert_eq!(plan.fixed_place(0), Ok(Some(1)));
        assert_eq!(plan.fixed_place(1), Ok(Some(6)));
        assert_eq!(plan.fixed_place(2), Ok(None));
        let error = Error::new(ErrorCode::NoSuch, 0, Input::Column);
        assert_eq!(plan.fixed_place(3), Err(error));
    }

    #[test]
    fn numbers_hold_all_of_a_plan() {
        let numbers = plan_of(&S).numbers().numbers;
        let columns = [
            0x0400_0001_0000_0003,
            0x0000_0005_000A_0182,
            0x0104_1000_0000_0111,
        ];
        assert_eq!(numbers[..4], [&columns[..], &[0]].concat());
        // Wide text with a prefix of one byte, 20 bytes at most, and one byte.
        let stops = [0x0000_0014_0B7F_0005, 0x0000_0000_0A3E_0000];
        assert_eq!(numbers[64..67], [&stops[..], &[0]].concat());
        assert_eq!(numbers[128..], [0x0103, 1, 0]);
        // A nullable byte, a chapter, a nullable chapter, a four-byte integer.
        let schema = [
            4, 0x11, 1, 0x88, 1, 0, 7, 1, 0x11, 0, 0x88, 1, 1, 8, 1, 0x11, 0, 3, 0,
        ];
        let numbers = plan_of(&schema).numbers().numbers;
        let columns = [
            0x0100_0001_0000_0111,
            0x0004_1000_0000_0088,
            0x0004_1000_0000_0188,
            0x0404_2000_0000_0003,
        ];
        assert_eq!(numbers[..5], [&columns[..], &[0]].concat());
        assert_eq!(numbers[64..66], [0x0000_0000_0A3F_0001, 0]);
        assert_eq!(numbers[128..], [4, 1, 1 << 62]);
        // Long text that every row has, behind an integer.
        let numbers = plan_of(&[2, 3, 0, 0x81, 1, 0, 0x80, 2]).numbers().numbers;
        assert_eq!(numbers[64], 0x0000_0100_20C0_0004);
        assert_eq!(numbers[128..], [0x0102, 0, 0]);
    }

    #[test]
    fn a_jump_past_the_end_is_a_missing_byte() {
        let plan = plan_of(&[3, 3, 0, 0x11, 1, 0x11, 0]);
        let row = [0, 5, 0];
        assert_eq!(plan.look_up(&row, 1), Ok(Answer::Null));
        assert_eq!(plan.look_up(&row, 2), wrong(ErrorCode::Truncated, 3));
        let plan = plan_of(&[2, 3, 0, 0x81, 1, 0, 10]);
        assert_eq!(plan.look_up(&[5, 0, 0], 1), wrong(ErrorCode::Truncated, 3));
    }

    #[test]
    fn plans_differ_with_any_column() {
        let plan = plan_of(&S);
        assert_eq!(check_plan(&plan, &S, 0), Ok(()));
        let error = Error::new(ErrorCode::PlanMismatch, 0, Input::Plan);
        for (at, byte) in [(1, 0x04), (5, 0x00), (6, 0x0B), (7, 0x10)] {
            let mut other = S;
            other[at] = byte;
            assert_eq!(check_plan(&plan, &other, 0), Err(error));
        }
    }

    #[test]
    fn nested_schemas_with_equal_columns_have_equal_plans() {
        // A byte column and a chapter, twice, with other ids and other schemas below.
        let first = [2, 0x11, 0, 0x88, 1, 0, 7, 1, 0x11, 0];
        let second = [2, 0x11, 0, 0x88, 1, 0, 9, 1, 0x03, 1];
        assert_eq!(plan_of(&first), plan_of(&second));
    }
}
