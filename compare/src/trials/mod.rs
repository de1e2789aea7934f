//! Randomised comparison: valid, damaged and random inputs for every call of the archive,
//! each held against the reading.

mod arrivals;
mod batches;
mod forged;
mod header;
mod options;
mod pages;
mod plans;
mod row_data;
mod row_writers;
mod rows;
mod schema;
mod sections;

use std::thread;
use std::time::{Duration, Instant};

use crate::archive::Reply;
use crate::random::Random;
use crate::reading::{Error, ErrorCode, MAX_INPUT};
use crate::text::{agree, shown, Text};
use crate::Totals;

/// How long a run goes on.
#[derive(Clone, Copy, Debug)]
pub enum Limit {
    Time(Duration),
    Cases(u64),
}

/// How many differences are printed in full; all are counted.
const PRINTED: u64 = 20;

/// How many cases run between two looks at the clock.
const BETWEEN_LOOKS: u64 = 64;

/// Some cases of one call: makes the inputs, runs both sides, reports to the run.
type Trial = fn(&mut Random, &mut Run);

/// Trials of one case each, or few.
const SHORT: [Trial; 15] = [
    header::read_case,
    header::write_case,
    header::write_short_case,
    options::read_case,
    options::write_case,
    schema::read_case,
    schema::write_case,
    schema::numbers_case,
    rows::field_count_case,
    rows::row_end_case,
    rows::update_end_case,
    row_writers::original_case,
    row_writers::update_case,
    plans::check_case,
    sections::read_case,
];

/// Trials that ask one row, or the rows of one section, for all columns, once in `BETWEEN_ROWS`.
const ROWS: [Trial; 10] = [
    rows::look_up_case,
    rows::look_update_case,
    rows::current_case,
    plans::look_up_case,
    forged::look_up_case,
    batches::find_case,
    batches::forged_case,
    pages::find_case,
    pages::forged_case,
    forged::reader_case,
];
const BETWEEN_ROWS: usize = 8;

/// Trials that ask one file for all that it holds, or feed sections in many fragments. They take
/// their turn once in `BETWEEN_LONG`, so that the time is not all theirs.
const LONG: [Trial; 5] = [
    schema::columns_case,
    schema::column_case,
    schema::child_case,
    plans::make_case,
    arrivals::feed_case,
];
const BETWEEN_LONG: usize = 32;

/// A call under trial, with the error codes that it can answer.
pub(crate) struct Call {
    name: &'static str,
    codes: &'static [ErrorCode],
}

/// What one call answered so far.
struct Tally {
    call: &'static Call,
    accepted: u64,
    /// How often each code was answered, by its number.
    refused: [u64; ErrorCode::ALL.len() + 1],
}

/// The counts of a run.
#[derive(Default)]
pub(crate) struct Run {
    totals: Totals,
    tallies: Vec<Tally>,
}

/// Compares reading and archive on inputs that the seed determines.
pub fn run(seed: u64, limit: Limit) -> Totals {
    let mut run = Run::default();
    run_large(seed, &mut run);
    run.go_on(seed, limit);
    println!("seed {seed}");
    run.report()
}

/// The same in several threads at a time. The first has this seed, each other one the next.
pub fn soak(seed: u64, time: Duration, threads: usize) -> Totals {
    let mut all = Run::default();
    run_large(seed, &mut all);
    let in_thread = |number: usize| {
        let mut run = Run::default();
        run.go_on(seed.wrapping_add(number as u64), Limit::Time(time));
        run
    };
    thread::scope(|scope| {
        let runs: Vec<_> = (0..threads)
            .map(|number| scope.spawn(move || in_thread(number)))
            .collect();
        for run in runs {
            all.add(run.join().expect("the trials end"));
        }
    });
    println!("seed {seed}, {threads} threads");
    all.report()
}

/// Inputs around the size limit, sections at the borders of what is noted of them, long runs.
fn run_large(seed: u64, run: &mut Run) {
    run_oversized(run);
    sections::noted(&mut Random::new(seed), run);
}

fn any_trial(random: &mut Random) -> Trial {
    if random.one_in(BETWEEN_LONG) {
        random.pick(&LONG)
    } else if random.one_in(BETWEEN_ROWS) {
        random.pick(&ROWS)
    } else {
        random.pick(&SHORT)
    }
}

/// Inputs at the size limit and over it, once each.
fn run_oversized(run: &mut Run) {
    let mut bytes = vec![0; MAX_INPUT + 1];
    header::oversized(&mut bytes, run);
    options::oversized(&mut bytes, run);
    schema::oversized(&mut bytes, run);
    rows::oversized(&bytes, run);
    plans::oversized(&bytes, run);
    forged::oversized(&bytes, run);
    row_writers::oversized(&bytes, run);
    sections::oversized(&bytes, run);
    batches::oversized(&bytes, run);
    pages::oversized(&bytes, run);
    arrivals::oversized(&bytes, run);
}

impl Limit {
    fn reached(self, turn: u64, cases: u64, started: Instant) -> bool {
        match self {
            Limit::Cases(wanted) => cases >= wanted,
            Limit::Time(wanted) => {
                turn.is_multiple_of(BETWEEN_LOOKS) && started.elapsed() >= wanted
            }
        }
    }
}

impl Run {
    /// Makes trials up to the limit, on inputs that the seed determines.
    fn go_on(&mut self, seed: u64, limit: Limit) {
        let started = Instant::now();
        let mut random = Random::new(seed);
        let mut turn = 0;
        while !limit.reached(turn, self.totals.cases, started) {
            let trial = any_trial(&mut random);
            trial(&mut random, self);
            turn += 1;
        }
    }

    /// Adds the counts of another run.
    fn add(&mut self, other: Run) {
        self.totals.cases += other.totals.cases;
        self.totals.differ += other.totals.differ;
        for tally in other.tallies {
            self.tally(tally.call).add(&tally);
        }
    }

    /// Prints what each call answered.
    fn report(&self) -> Totals {
        for tally in &self.tallies {
            println!("{}", tally.text());
        }
        self.totals
    }

    /// Counts one case of `call` by the reading's answer. It differs if there are complaints.
    fn judge<T>(
        &mut self,
        call: &'static Call,
        reading: &Result<T, Error>,
        complaints: &[String],
        inputs: impl FnOnce() -> String,
    ) {
        self.totals.cases += 1;
        self.tally(call).count(reading);
        if complaints.is_empty() {
            return;
        }
        self.totals.differ += 1;
        if self.totals.differ <= PRINTED {
            // At once, so that threads do not mix their lines.
            println!("{} {}\n  {}", call.name, inputs(), complaints.join("\n  "));
        }
    }

    /// The tally of `call`, begun if there is none.
    fn tally(&mut self, call: &'static Call) -> &mut Tally {
        let known = self
            .tallies
            .iter()
            .position(|tally| tally.call.name == call.name);
        let index = known.unwrap_or_else(|| {
            self.tallies.push(Tally {
                call,
                accepted: 0,
                refused: [0; ErrorCode::ALL.len() + 1],
            });
            self.tallies.len() - 1
        });
        &mut self.tallies[index]
    }
}

impl Tally {
    fn count<T>(&mut self, reading: &Result<T, Error>) {
        match reading {
            Ok(_) => self.accepted += 1,
            Err(error) => self.refused[error.code.number() as usize] += 1,
        }
    }

    fn add(&mut self, other: &Tally) {
        self.accepted += other.accepted;
        for (count, more) in self.refused.iter_mut().zip(other.refused) {
            *count += more;
        }
    }

    /// The counts, with a 0 for each code that the call can answer and did not.
    fn text(&self) -> String {
        let mut text = format!("{}: accepted {}", self.call.name, self.accepted);
        for code in ErrorCode::ALL {
            let count = self.refused[code.number() as usize];
            if count > 0 || self.call.codes.contains(&code) {
                text += &format!(", code {}: {count}", code.number());
            }
        }
        text
    }
}

/// Leaves a piece as it is, or changes some bytes, cuts it short or lengthens it.
pub fn damage(random: &mut Random, bytes: &mut Vec<u8>) {
    match random.below(8) {
        0 | 1 => {}
        2..=4 => {
            for _ in 0..random.between(1, 3) {
                change_byte(random, bytes);
            }
        }
        5 => bytes.truncate(random.below(bytes.len() + 1)),
        6 => {
            let length = random.between(1, 16);
            bytes.extend(random.bytes(length));
        }
        _ => {
            change_byte(random, bytes);
            bytes.truncate(random.below(bytes.len() + 1));
        }
    }
}

/// Gives one byte another value: a near one, one bit turned, an end of the range, any.
fn change_byte(random: &mut Random, bytes: &mut [u8]) {
    if bytes.is_empty() {
        return;
    }
    let at = random.below(bytes.len());
    let byte = bytes[at];
    let any = random.byte();
    let turned = byte ^ 1 << random.below(8);
    let near = [byte.wrapping_add(1), byte.wrapping_sub(1)];
    bytes[at] = random.pick(&[near[0], near[1], turned, 0x00, 0xFF, any]);
}

/// A capacity for a piece of this size: often around it, at times anything.
fn capacity(random: &mut Random, need: usize) -> usize {
    match random.below(8) {
        0 => 0,
        1 => random.below(need + 1),
        2..=4 => random.between(need.saturating_sub(2), need + 2),
        _ => need + random.below(40),
    }
}

/// All numbers under a count of at least 1, then the count itself and one past it.
fn all_and_past(random: &mut Random, count: usize) -> Vec<usize> {
    let under = random.below(count);
    let past = number_past(random, under, count);
    (0..=count).chain([past]).collect()
}

/// A number past a count of at least 1; it may be `under`, which is under the count, if high
/// bits are lost.
fn number_past(random: &mut Random, under: usize, count: usize) -> usize {
    let near = count + random.between(1, 300);
    let lost = random.pick(&[1 << 32, 1 << 33, 1 << 63]);
    let past = [
        count + 1,
        near,
        under + (1 << 8),
        under + (1 << 16),
        under + lost,
        usize::MAX,
    ];
    random.pick(&past).max(count)
}

/// What both sides say, if that is not the same.
fn complaints<T: PartialEq + Text>(reading: &Result<T, Error>, archive: &Reply<T>) -> Vec<String> {
    if agree(reading, archive) {
        return Vec::new();
    }
    vec![
        format!("reading: {}", reading.text()),
        format!("archive: {}", archive.text()),
    ]
}

/// Complaints about the outputs of two writers that both began with `before`.
fn output_complaints<T>(
    before: &[u8],
    ours: &[u8],
    theirs: &[u8],
    written: &Result<usize, T>,
) -> Vec<String> {
    filled_complaints(before, ours, theirs, 0, written, shown)
}

/// Complaints about what two sides filled from `place` on, which both began as `before`.
fn filled_complaints<N: PartialEq, T>(
    before: &[N],
    ours: &[N],
    theirs: &[N],
    place: usize,
    written: &Result<usize, T>,
    shown: fn(&[N]) -> String,
) -> Vec<String> {
    let mut complaints = Vec::new();
    if ours != theirs {
        complaints.push(format!("output of the reading: {}", shown(ours)));
        complaints.push(format!("output of the archive: {}", shown(theirs)));
    }
    let piece = written
        .as_ref()
        .map_or(0..0, |size| place..place.saturating_add(*size));
    for (side, output) in [("reading", ours), ("archive", theirs)] {
        let is_kept = output.get(..piece.start) == before.get(..piece.start)
            && output.get(piece.end..) == before.get(piece.end..);
        if !is_kept {
            complaints.push(format!("the {side} changed what lies outside the piece"));
        }
    }
    complaints
}

#[cfg(test)]
mod tests {
    use super::*;

    #[test]
    fn output_checks_notice_each_kind_of_change() {
        let before = [1, 2, 3];
        let check = |ours: [u8; 3], theirs: [u8; 3], written: Result<usize, ()>| {
            !output_complaints(&before, &ours, &theirs, &written).is_empty()
        };
        assert!(!check([9, 2, 3], [9, 2, 3], Ok(1)));
        assert!(!check([1, 2, 3], [1, 2, 3], Err(())));
        assert!(check([9, 2, 3], [8, 2, 3], Ok(1)));
        assert!(check([9, 9, 3], [9, 9, 3], Ok(1)));
        assert!(check([9, 2, 3], [9, 2, 3], Err(())));
        assert!(check([1, 2, 3], [1, 2, 4], Err(())));
    }

    #[test]
    fn what_lies_before_a_place_is_kept_too() {
        let before = [1, 2, 3];
        let check = |ours: [u8; 3], written: Result<usize, ()>| {
            !filled_complaints(&before, &ours, &ours, 1, &written, shown).is_empty()
        };
        assert!(!check([1, 9, 3], Ok(1)));
        assert!(check([9, 2, 3], Ok(1)));
        assert!(check([1, 2, 9], Ok(1)));
        assert!(check([1, 9, 3], Err(())));
    }

    #[test]
    fn numbers_past_a_count_are_past_it() {
        let mut random = Random::new(1);
        for _ in 0..200 {
            let count = random.between(1, 300);
            let numbers = all_and_past(&mut random, count);
            assert_eq!(numbers.len(), count + 2);
            assert!(numbers[count..].iter().all(|number| *number >= count));
        }
    }
}
