//! Which archive is linked: its version, and the layout of its plans.
//!
//! The crate asks the archive once, at the first call or where the first plan is made or taken from
//! numbers. It panics if the archive is not of its own version and layout. Look-ups through a plan
//! do not ask.

use std::fmt;
use std::sync::atomic::{AtomicBool, Ordering};

use crate::raw::{self, Numbers, Value};

/// The version of this crate and of the archive that it needs: 10,000 times the major number, 100
/// times the minor number, and the patch. 200 is 0.2.0.
pub const VERSION: u32 = 200;

/// The layout of plans: it changes with what their numbers mean. Keep it beside the numbers of a
/// plan. Under another layout the numbers are of no use, and the plan must be made anew.
pub const PLAN_LAYOUT: u32 = 1;

/// What an archive says about itself.
#[derive(Clone, Copy, Debug, PartialEq, Eq, Hash)]
pub struct Version {
    /// Its version, counted as [`VERSION`] is.
    pub number: u32,
    /// The layout of its plans.
    pub plan_layout: u32,
}

impl Version {
    /// What the archive of this crate says.
    pub const OWN: Version = Version {
        number: VERSION,
        plan_layout: PLAN_LAYOUT,
    };
}

/// Asks the linked archive for its version. An archive of another version answers too.
///
/// ```
/// assert_eq!(adtg::version().number, adtg::VERSION);
/// assert_eq!(adtg::version().plan_layout, adtg::PLAN_LAYOUT);
/// ```
pub fn version() -> Version {
    let answer = raw::version().result();
    answer.unwrap_or_else(|error| panic!("the archive does not say its version: {error}"))
}

/// True once the archive has been asked and is the right one.
static CHECKED: AtomicBool = AtomicBool::new(false);

/// Panics unless the archive is that of this crate. Only the first call asks.
#[inline]
pub(crate) fn check() {
    if !CHECKED.load(Ordering::Relaxed) {
        ask();
    }
}

#[cold]
fn ask() {
    require(version());
    CHECKED.store(true, Ordering::Relaxed);
}

/// Panics unless this is the archive of this crate.
fn require(found: Version) {
    let own = Version::OWN;
    assert!(
        found == own,
        "the linked archive is {found}, but the crate adtg needs {own}: build libadtg_c.a of that \
         version and name its folder in ADTG_ARCHIVE_DIR"
    );
}

impl fmt::Display for Version {
    fn fmt(&self, f: &mut fmt::Formatter) -> fmt::Result {
        let Version {
            number,
            plan_layout,
        } = self;
        let (major, minor, patch) = (number / 10_000, number / 100 % 100, number % 100);
        write!(f, "{major}.{minor}.{patch} with plan layout {plan_layout}")
    }
}

impl Value for Version {
    const COUNT: usize = 2;

    fn of(numbers: &Numbers) -> Option<Version> {
        Some(Version {
            number: u32::try_from(numbers[0]).ok()?,
            plan_layout: u32::try_from(numbers[1]).ok()?,
        })
    }
}

#[cfg(test)]
mod tests {
    use super::*;
    use crate::tests::numbers;

    #[test]
    fn the_archive_is_of_this_version() {
        assert_eq!(version(), Version::OWN);
        check();
        assert!(CHECKED.load(Ordering::Relaxed));
    }

    #[test]
    fn a_version_is_written_with_points() {
        let text = |number| {
            let plan_layout = 1;
            Version {
                number,
                plan_layout,
            }
            .to_string()
        };
        assert_eq!(text(200), "0.2.0 with plan layout 1");
        assert_eq!(text(123_456), "12.34.56 with plan layout 1");
    }

    #[test]
    fn the_numbers_of_a_version_are_small() {
        assert_eq!(Version::of(&numbers(&[200, 1])), Some(Version::OWN));
        assert_eq!(Version::of(&numbers(&[1 << 32, 1])), None);
        assert_eq!(Version::of(&numbers(&[200, 1 << 32])), None);
    }

    #[test]
    #[should_panic(
        expected = "the linked archive is 0.2.1 with plan layout 1, but the crate adtg needs 0.2.0"
    )]
    fn another_version_is_no_archive_of_this_crate() {
        require(Version {
            number: 201,
            ..Version::OWN
        });
    }

    #[test]
    #[should_panic(
        expected = "with plan layout 2, but the crate adtg needs 0.2.0 with plan layout 1"
    )]
    fn another_layout_is_no_archive_of_this_crate() {
        require(Version {
            plan_layout: 2,
            ..Version::OWN
        });
    }
}
