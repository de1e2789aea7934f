//! Trials of sections that arrive in fragments. Both sides are fed the same and closed at the same
//! time, and every answer is compared.

use super::rows::REFUSED;
use super::sections::{long_rows, sections, LONGEST};
use super::{complaints, Call, Run};
use crate::archive;
use crate::generate;
use crate::random::Random;
use crate::reading::arrival::Arrival;
use crate::reading::column::{BYTES, CHAPTER, TEXT};
use crate::reading::section::{END, PARENT};
use crate::reading::{ErrorCode, MAX_INPUT};
use crate::text::shown;

/// The errors of a section and of its file.
const CODES: [ErrorCode; 13] = [
    ErrorCode::Truncated,
    ErrorCode::NumberForm,
    ErrorCode::NumberRange,
    ErrorCode::SchemaLimit,
    ErrorCode::RepeatedId,
    ErrorCode::UnknownToken,
    ErrorCode::UnknownChild,
    ErrorCode::Unpaired,
    ErrorCode::ChapterBit,
    ErrorCode::ForceRule,
    ErrorCode::Length,
    ErrorCode::Trailing,
    ErrorCode::Oversize,
];

static FEED: Call = Call {
    name: "feed",
    codes: &CODES,
};
static CLOSE: Call = Call {
    name: "close",
    codes: &CODES,
};

/// About how many fragments a section is cut into at most: the reading goes over all bytes for each.
const FRAGMENTS: usize = 100;

/// A call on both sides.
#[derive(Clone, Copy)]
enum Step<'a> {
    Feed(&'a [u8]),
    Close,
}

/// Sections that are cut anywhere.
pub(super) fn feed_case(random: &mut Random, run: &mut Run) {
    for (file, section) in sections(random) {
        let steps = steps(random, &section);
        feed(&file, &steps, run);
    }
}

/// The calls that a section is fed by, and at times some more behind the close.
fn steps<'a>(random: &mut Random, section: &'a [u8]) -> Vec<Step<'a>> {
    let longest = match random.below(4) {
        0 => 1,
        1 => random.between(2, 5),
        2 => random.between(2, 60),
        _ => section.len().max(1),
    };
    let longest = longest.max(section.len() / FRAGMENTS);
    let mut steps = Vec::new();
    let mut rest = section;
    while !rest.is_empty() {
        match random.below(300) {
            0 => steps.push(Step::Close),
            1..=30 => steps.push(Step::Feed(&[])),
            _ => {
                let (fragment, behind) = rest.split_at(random.between(1, longest).min(rest.len()));
                steps.push(Step::Feed(fragment));
                rest = behind;
            }
        }
    }
    if !random.one_in(8) {
        steps.push(Step::Close);
    }
    let part = &section[..random.below(section.len() + 1)];
    let more = [
        Step::Close,
        Step::Feed(&[]),
        Step::Feed(&[END]),
        Step::Feed(part),
    ];
    steps.extend((0..random.below(4)).map(|_| random.pick(&more)));
    steps
}

/// Sections at the limit and over it, and files over it.
pub(super) fn oversized(zeros: &[u8], run: &mut Run) {
    use Step::{Close, Feed};
    let file = generate::groups(&[1, BYTES.into(), 0, LONGEST as u32]);
    let below = MAX_INPUT - 2;
    let mut rows = long_rows(below);
    // The last two bytes within the limit, and the first one over it.
    for last in [
        [PARENT, 0x00, 0x00],
        [PARENT, 0x00, END],
        [PARENT, END, PARENT],
        [END, PARENT, PARENT],
        [END, END, END],
        [0x00, END, END],
    ] {
        rows.truncate(below);
        rows.extend(last);
        let (within, over) = rows.split_at(MAX_INPUT);
        let (first, second) = rows.split_at(MAX_INPUT - 1);
        for steps in [
            &[Feed(&rows), Close, Feed(&[])][..],
            &[Feed(first), Feed(second), Feed(&[]), Close],
            &[Feed(within), Feed(&[]), Feed(over), Close],
            &[Feed(within), Close, Feed(over)],
        ] {
            feed(&file, steps, run);
        }
    }
    // The end is the last byte within the limit. Far over it, in two fragments and in one.
    let mut full = long_rows(MAX_INPUT - 1);
    full.push(END);
    let (first, second) = full.split_at(MAX_INPUT / 2);
    let twice = full.repeat(2);
    for steps in [
        &[Feed(first), Feed(second), Feed(&[]), Close][..],
        &[Feed(first), Feed(second), Feed(&[END]), Close],
        &[Feed(&full), Close, Feed(&[END])],
        &[Feed(first), Feed(&full), Close],
        &[Feed(&twice), Close],
    ] {
        feed(&file, steps, run);
    }
    // Rows of no bytes, as many as there can be.
    let chapter = generate::groups(&[1, CHAPTER.into(), 0, 7, 1, TEXT.into(), 0, 1]);
    let tokens = vec![PARENT; MAX_INPUT];
    feed(&chapter, &[Feed(&tokens), Feed(&[END]), Close], run);
    for file in [&REFUSED[..], &zeros[..MAX_INPUT], zeros] {
        for steps in [
            &[Close, Feed(zeros)][..],
            &[Feed(&[]), Close],
            &[Feed(zeros), Close],
        ] {
            feed(file, steps, run);
        }
    }
}

/// Makes the calls on both sides. Once an answer stands the file does not matter.
fn feed(file: &[u8], steps: &[Step], run: &mut Run) {
    let (mut arrival, mut reader) = (Arrival::default(), adtg::Reader::new());
    let mut stands = false;
    for (at, step) in steps.iter().enumerate() {
        let file = if stands && at % 2 == 0 { &[] } else { file };
        let (call, reading, archive) = match step {
            Step::Feed(fragment) => {
                let reading = arrival.feed(file, fragment);
                (&FEED, reading, archive::feed(file, &mut reader, fragment))
            }
            Step::Close => {
                let reading = arrival.close(file);
                (&CLOSE, reading, archive::close(file, &mut reader))
            }
        };
        stands |= reading.is_err() || matches!(step, Step::Close);
        run.judge(call, &reading, &complaints(&reading, &archive), || {
            format!("{} {}", shown(file), text(&steps[..=at]))
        });
    }
}

/// Calls as in a vector file.
fn text(steps: &[Step]) -> String {
    let one = |step: &Step| match step {
        Step::Feed(fragment) => shown(fragment),
        Step::Close => "close".to_string(),
    };
    steps.iter().map(one).collect::<Vec<String>>().join(",")
}

#[cfg(test)]
mod tests {
    use super::*;

    #[test]
    fn steps_feed_the_whole_section() {
        let mut random = Random::new(1);
        let section: Vec<u8> = (0..100).collect();
        for _ in 0..200 {
            let mut fed = Vec::new();
            let steps = steps(&mut random, &section);
            for step in &steps {
                if let Step::Feed(fragment) = step {
                    fed.extend_from_slice(fragment);
                }
            }
            assert_eq!(fed[..100], section, "{}", text(&steps));
        }
        let none = steps(&mut random, &[]);
        assert!(none.len() <= 4, "{}", text(&none));
    }
}
