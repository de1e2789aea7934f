//! Errors in words are those of `include/adtg_text.h`: what `c/texts.c` prints.

use adtg::{Error, ErrorKind, Input};

const EXPECTED: &str = include_str!("../../c/texts.expected");

fn text(kind: ErrorKind, offset: usize, input: Input) -> String {
    Error {
        kind,
        offset,
        input,
    }
    .describe()
    .to_string()
}

#[test]
fn errors_say_what_c_says() {
    let kinds = ErrorKind::ALL.map(|kind| format!("code {}: {}", kind.code(), kind.text()));
    let inputs = Input::ALL.map(|input| format!("input {}: {}", input.code(), input.text()));
    let errors = ErrorKind::ALL.map(|kind| text(kind, 5, Input::Single));
    let missing = Input::ALL.map(|input| text(ErrorKind::Missing, 0, input));
    let room = [Input::Table, Input::Output].map(|input| text(ErrorKind::Capacity, 8, input));
    let ours: Vec<String> = kinds
        .into_iter()
        .chain(inputs)
        .chain(errors)
        .chain(missing)
        .chain(room)
        .collect();
    let theirs: Vec<&str> = EXPECTED.lines().collect();
    assert_eq!(ours, theirs);
}
