//! Column plans. Make a plan once from a schema, keep it, and check it against the schema before use.
//! Look-ups through a plan are in [`find`](crate::find), [`batch`](crate::batch) and
//! [`page`](crate::page).

use crate::raw::{self, size, Numbers, Value};
use crate::{version, Error};

/// A plan of one schema. It holds the columns and how far apart their fields lie. So a look-up visits
/// only the columns behind which places depend on the row. A plan is a value of 131 numbers. Two
/// schemas have equal plans exactly where they agree in the count of columns and in type, flags
/// and maximum of each.
#[repr(C)]
#[derive(Clone, Debug, PartialEq, Eq, Hash)]
pub struct Plan {
    numbers: [u64; Plan::NUMBERS],
}

impl Plan {
    /// How many numbers a plan has.
    pub const NUMBERS: usize = 131;

    /// The plan of no columns.
    pub const BLANK: Plan = Plan::from_numbers([0; Plan::NUMBERS]);

    const FIXED: u64 = 1;
    const NOT_FIXED: u64 = 2;

    /// Makes the plan of a schema.
    pub fn make(file: &[u8], number: usize) -> Result<Plan, Error> {
        raw::make_plan(file, number).result()
    }

    /// Checks the plan against a schema. If it is not the plan that [`make`](Plan::make) makes, the
    /// error is of the kind `PlanMismatch`.
    pub fn check(&self, file: &[u8], number: usize) -> Result<(), Error> {
        raw::check_plan(self, file, number).result()
    }

    /// The place of a column's field in every row that has the field, counted from the start of the
    /// row. `None` if the place depends on the row, and for a chapter.
    pub fn place(&self, column: usize) -> Result<Option<usize>, Error> {
        raw::fixed_place(self, column).result()
    }

    /// The numbers of the plan, for you to keep. `adtg.h` says what each is. Keep
    /// [`PLAN_LAYOUT`](crate::PLAN_LAYOUT) beside them.
    pub const fn numbers(&self) -> &[u64; Plan::NUMBERS] {
        &self.numbers
    }

    /// The plan of numbers that you kept. [`check`](Plan::check) it against the schema before use.
    /// Any numbers are allowed: a look-up still answers, and a field that it finds lies in the row.
    pub const fn from_numbers(numbers: [u64; Plan::NUMBERS]) -> Plan {
        Plan { numbers }
    }

    /// The same, and the archive must be of this crate's version.
    pub fn from_kept(numbers: [u64; Plan::NUMBERS]) -> Plan {
        version::check();
        Plan::from_numbers(numbers)
    }
}

/// A place that is fixed, or not.
impl Value for Option<usize> {
    const COUNT: usize = 2;

    fn of(numbers: &Numbers) -> Option<Option<usize>> {
        match *numbers {
            [Plan::FIXED, place, ..] => Some(Some(size(place))),
            [Plan::NOT_FIXED, 0, ..] => Some(None),
            _ => None,
        }
    }
}

#[cfg(test)]
mod tests {
    use super::*;
    use crate::tests::{numbers, S, T};
    use crate::{ErrorKind, Input};

    fn error(kind: ErrorKind, input: Input) -> Error {
        Error {
            kind,
            offset: 0,
            input,
        }
    }

    #[test]
    fn a_plan_is_that_of_its_schema_alone() {
        let plan = Plan::make(&S, 0).unwrap();
        assert_eq!(plan.check(&S, 0), Ok(()));
        let mismatch = error(ErrorKind::PlanMismatch, Input::Plan);
        for (at, byte) in [(1, 0x04), (5, 0x00), (6, 0x0B), (7, 0x10)] {
            let mut other = S;
            other[at] = byte;
            assert_eq!(plan.check(&other, 0), Err(mismatch));
            assert_ne!(Plan::make(&other, 0), Ok(plan.clone()));
        }
        let number = error(ErrorKind::Missing, Input::SchemaNumber);
        assert_eq!(plan.check(&S, 1), Err(number));
        assert_eq!(Plan::make(&S, 1), Err(number));
        assert_eq!(Plan::BLANK.check(&T, 0), Err(mismatch));
    }

    #[test]
    fn a_plan_is_kept_as_its_numbers() {
        let plan = Plan::make(&T, 0).unwrap();
        let kept = Plan::from_numbers(*plan.numbers());
        assert_eq!(kept, plan);
        assert_eq!(kept.check(&T, 0), Ok(()));
    }

    #[test]
    fn a_plan_says_which_places_are_fixed() {
        let plan = Plan::make(&S, 0).unwrap();
        assert_eq!(plan.place(0), Ok(Some(1)));
        assert_eq!(plan.place(1), Ok(Some(6)));
        assert_eq!(plan.place(2), Ok(None));
        let missing = error(ErrorKind::Missing, Input::Column);
        assert_eq!(plan.place(3), Err(missing));
        assert_eq!(plan.place(usize::MAX), Err(missing));
    }

    #[test]
    fn a_place_is_fixed_or_zero() {
        assert_eq!(<Option<usize>>::of(&numbers(&[1, 9])), Some(Some(9)));
        assert_eq!(<Option<usize>>::of(&numbers(&[2])), Some(None));
        for wrong in [[0, 0], [2, 1], [3, 0]] {
            assert_eq!(<Option<usize>>::of(&numbers(&wrong)), None, "{wrong:?}");
        }
    }
}
