//! `compare vectors FOLDER`, `compare random` and `compare soak`: holds the reading, the vectors
//! and the archive against each other. `compare bench` measures look-ups, sections and batches of
//! both, and sections that are fed in fragments.

use std::env;
use std::num::NonZero;
use std::path::Path;
use std::process::ExitCode;
use std::thread::available_parallelism;
use std::time::Duration;

use compare::bench::{batches, feeds, look_ups, pages, sections};
use compare::trials::{self, Limit};
use compare::vectors;
use compare::Totals;

const USAGE: &str = "usage: compare vectors FOLDER
       compare random [--seed S] [--seconds N | --cases N]
       compare soak [--seed S] [--minutes N] [--threads N]
       compare bench [--count [fixed|nullable|eight|variable COLUMN]]
       compare bench sections [--count [short|wide|nested|page]]
       compare bench batch [--count [short|wide|nested|page]]
       compare bench page [--count [short|wide|nested|page|short ROWS|wide ROWS|nested ROWS]]
       compare bench feed [--count [short|wide|nested|page]]";

const DEFAULT_SEED: u64 = 1;
const DEFAULT_CASES: u64 = 200_000;
const DEFAULT_MINUTES: u64 = 10;

fn main() -> ExitCode {
    let arguments: Vec<String> = env::args().skip(1).collect();
    let words: Vec<&str> = arguments.iter().map(String::as_str).collect();
    match run(&words) {
        Ok(Totals { cases, differ }) => {
            println!("{cases} cases, {differ} differ");
            ExitCode::from(u8::from(differ != 0))
        }
        Err(message) => {
            eprintln!("{message}");
            ExitCode::from(2)
        }
    }
}

/// Runs the command that the words name.
fn run(words: &[&str]) -> Result<Totals, String> {
    match words {
        ["vectors", folder] => vectors::run_folder(Path::new(folder)),
        ["random", options @ ..] => random(options),
        ["soak", options @ ..] => soak(options),
        ["bench"] => look_ups::run(),
        ["bench", "sections"] => sections::run(),
        ["bench", "sections", "--count"] => sections::count(None),
        ["bench", "sections", "--count", rows] => sections::count(Some(rows)),
        ["bench", "batch"] => batches::run(),
        ["bench", "batch", "--count"] => batches::count(None),
        ["bench", "batch", "--count", rows] => batches::count(Some(rows)),
        ["bench", "page"] => pages::run(),
        ["bench", "page", "--count"] => pages::count(None),
        ["bench", "page", "--count", rows] => pages::count(Some(rows)),
        ["bench", "page", "--count", rows, count] => pages::count(Some(&format!("{rows} {count}"))),
        ["bench", "feed"] => feeds::run(),
        ["bench", "feed", "--count"] => feeds::count(None),
        ["bench", "feed", "--count", rows] => feeds::count(Some(rows)),
        ["bench", "--count"] => look_ups::count(None),
        ["bench", "--count", table, column] => {
            let column = column
                .parse()
                .map_err(|_| format!("not a column: {column}"))?;
            look_ups::count(Some((table, column)))
        }
        _ => Err(USAGE.to_string()),
    }
}

/// Runs trials for some time, or some of them.
fn random(words: &[&str]) -> Result<Totals, String> {
    let [seed, seconds, cases] = options(words, ["--seed", "--seconds", "--cases"])?;
    let limit = match (seconds, cases) {
        (Some(seconds), None) => Limit::Time(Duration::from_secs(seconds)),
        (None, cases) => Limit::Cases(cases.unwrap_or(DEFAULT_CASES)),
        (Some(_), Some(_)) => return Err(USAGE.to_string()),
    };
    Ok(trials::run(seed.unwrap_or(DEFAULT_SEED), limit))
}

/// Runs trials on all processors, or in as many threads as are named.
fn soak(words: &[&str]) -> Result<Totals, String> {
    let [seed, minutes, threads] = options(words, ["--seed", "--minutes", "--threads"])?;
    let time = Duration::from_secs(60 * minutes.unwrap_or(DEFAULT_MINUTES));
    let threads = match threads {
        Some(threads) => threads.max(1) as usize,
        None => available_parallelism().map_or(1, NonZero::get),
    };
    Ok(trials::soak(seed.unwrap_or(DEFAULT_SEED), time, threads))
}

/// The numbers that follow these names, each at most once and in any order.
fn options<const N: usize>(
    mut words: &[&str],
    names: [&str; N],
) -> Result<[Option<u64>; N], String> {
    let mut numbers = [None; N];
    while let [name, value, rest @ ..] = words {
        let number: u64 = value
            .parse()
            .map_err(|_| format!("{name} takes a number, not {value}"))?;
        let at = names.iter().position(|known| known == name);
        match at.map(|at| &mut numbers[at]) {
            Some(slot @ None) => *slot = Some(number),
            _ => return Err(USAGE.to_string()),
        }
        words = rest;
    }
    if !words.is_empty() {
        return Err(USAGE.to_string());
    }
    Ok(numbers)
}
