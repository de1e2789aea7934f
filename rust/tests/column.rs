//! What the example `column` prints, at its first run, at its second, and where the kept plan is
//! none of its own.

use std::fs;
use std::path::{Path, PathBuf};

use adtg::{Plan, PLAN_LAYOUT};

#[allow(dead_code)]
#[path = "../examples/column.rs"]
mod column;

const MADE: &str = "\
plan: none of this layout was kept
plan: a new one is made
";
const KEPT: &str = "\
plan: the kept one is right
";
const REFUSED: &str = "\
plan: the kept one is refused: error 17 of the plan: the plan is not that of the schema
plan: a new one is made
";
const COLUMNS: &str = "\
orders: 5
customer
  row 0: \"Anna\"
  row 1: null
  row 2: \"Zoë\"
  row 3: \"\"
  row 4: \"Li\"
quantity
  row 0: 12
  row 1: 3
  row 2: 300
  row 3: 1
  row 4: 40
a section cut short: error 1 at 60 of the row section: the input ends too soon
the plan against a schema that gained a column: error 17 of the plan: the plan is not that of the schema
";

/// An empty folder of this name, for a plan to be kept in.
fn folder(name: &str) -> PathBuf {
    let folder = Path::new(env!("CARGO_TARGET_TMPDIR")).join(name);
    let _ = fs::remove_dir_all(&folder);
    fs::create_dir_all(&folder).unwrap();
    folder
}

/// Runs the example, which prints this about its plan and then the columns.
fn prints(folder: &Path, about_plan: &str) {
    let mut out = Vec::new();
    column::run(folder, &mut out).unwrap();
    let printed = String::from_utf8(out).unwrap();
    assert_eq!(printed, format!("{about_plan}{COLUMNS}"));
}

#[test]
fn a_plan_is_made_once_and_kept() {
    let folder = folder("kept");
    prints(&folder, MADE);
    let kept = fs::read(folder.join("orders.plan")).unwrap();
    assert_eq!(kept.len(), 8 * (1 + Plan::NUMBERS));
    assert_eq!(kept[..8], u64::from(PLAN_LAYOUT).to_le_bytes());
    prints(&folder, KEPT);
    prints(&folder, KEPT);
}

#[test]
fn a_kept_plan_that_is_not_the_schemas_is_made_anew() {
    let folder = folder("refused");
    prints(&folder, MADE);
    let path = folder.join("orders.plan");
    let good = fs::read(&path).unwrap();
    // Any byte of the numbers.
    for at in [8, 500, good.len() - 1] {
        let mut kept = good.clone();
        kept[at] ^= 1;
        fs::write(&path, kept).unwrap();
        prints(&folder, REFUSED);
        prints(&folder, KEPT);
    }
    // Another layout, and a file that is cut short or too long.
    let mut other = good.clone();
    other[0] += 1;
    let long = [&good[..], &[0; 8]].concat();
    for kept in [&other, &good[..7], &good[..good.len() - 1], &[], &long] {
        fs::write(&path, kept).unwrap();
        prints(&folder, MADE);
        prints(&folder, KEPT);
    }
}
