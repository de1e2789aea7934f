//! Trials of the header's calls.

use super::{capacity, damage, output_complaints, Call, Run};
use crate::archive;
use crate::random::Random;
use crate::reading::header::{read_header, write_header, write_header_short, Header};
use crate::reading::{ErrorCode, MAX_INPUT};
use crate::text::{agree, shown, Text};

const START: [u8; 5] = [0x01, 0x07, 0x54, 0x47, 0x21];
const SIZE: usize = 9;

static READ: Call = Call {
    name: "read_header",
    codes: &[
        ErrorCode::Truncated,
        ErrorCode::Constant,
        ErrorCode::FieldValue,
        ErrorCode::Oversize,
    ],
};
static WRITE: Call = Call {
    name: "write_header",
    codes: &[ErrorCode::FieldValue, ErrorCode::Capacity],
};
static WRITE_SHORT: Call = Call {
    name: "write_header_short",
    codes: &[ErrorCode::Capacity],
};

/// One input for the header reader.
pub(super) fn read_case(random: &mut Random, run: &mut Run) {
    let bytes = input(random);
    read(&bytes, run);
}

/// One set of values for the header writer.
pub(super) fn write_case(random: &mut Random, run: &mut Run) {
    let (major, minor) = (random.byte(), random.byte());
    let order = mostly(random, &[0]);
    let unicode = mostly(random, &[0, 1]);
    let space = capacity(random, SIZE);
    let before = random.bytes(space);
    let (mut ours, mut theirs) = (before.clone(), before.clone());
    let reading = write_header(major, minor, order, unicode, &mut ours);
    let archive = archive::write_header(major, minor, order, unicode, &mut theirs);
    let mut complaints = output_complaints(&before, &ours, &theirs, &reading);
    if !agree(&reading, &archive) {
        complaints.push(format!("reading: {}", reading.text()));
        complaints.push(format!("archive: {}", archive.text()));
    }
    if reading.is_ok() {
        let given = Header {
            major,
            minor,
            order,
            unicode,
            end: SIZE,
        };
        read_back(given, &ours, &theirs, &mut complaints);
    }
    run.judge(&WRITE, &reading, &complaints, || {
        format!("{major} {minor} {order} {unicode}, output of {space} bytes")
    });
}

/// One set of values for the short header writer.
pub(super) fn write_short_case(random: &mut Random, run: &mut Run) {
    let (major, minor) = (random.byte(), random.byte());
    let space = capacity(random, SIZE);
    let before = random.bytes(space);
    let (mut ours, mut theirs) = (before.clone(), before.clone());
    let reading = write_header_short(major, minor, &mut ours);
    let archive = archive::write_header_short(major, minor, &mut theirs);
    let mut complaints = output_complaints(&before, &ours, &theirs, &reading);
    if !agree(&reading, &archive) {
        complaints.push(format!("reading: {}", reading.text()));
        complaints.push(format!("archive: {}", archive.text()));
    }
    if reading.is_ok() {
        let given = Header {
            major,
            minor,
            order: 0,
            unicode: 0,
            end: SIZE,
        };
        read_back(given, &ours, &theirs, &mut complaints);
    }
    run.judge(&WRITE_SHORT, &reading, &complaints, || {
        format!("{major} {minor}, output of {space} bytes")
    });
}

/// Inputs at the size limit and over it, with and without a header in front.
pub(super) fn oversized(bytes: &mut [u8], run: &mut Run) {
    for token in [START[0], 0xFF] {
        bytes[..SIZE].fill(0);
        bytes[..START.len()].copy_from_slice(&START);
        bytes[0] = token;
        read(&bytes[..MAX_INPUT], run);
        read(bytes, run);
    }
    bytes[..SIZE].fill(0);
}

/// Reads with both sides; what they accept they must also write back.
fn read(bytes: &[u8], run: &mut Run) {
    let reading = read_header(bytes);
    let archive = archive::read_header(bytes);
    let mut complaints = Vec::new();
    if !agree(&reading, &archive) {
        complaints.push(format!("reading: {}", reading.text()));
        complaints.push(format!("archive: {}", archive.text()));
    }
    if let Ok(header) = reading {
        write_back(header, bytes, &mut complaints);
    }
    run.judge(&READ, &reading, &complaints, || shown(bytes));
}

/// Complains if either reader does not find the header given in its writer's output.
fn read_back(given: Header, ours: &[u8], theirs: &[u8], complaints: &mut Vec<String>) {
    let reading = read_header(ours);
    if reading != Ok(given) {
        complaints.push(format!("the reading reads back {}", reading.text()));
    }
    let archive = archive::read_header(theirs);
    if archive != Ok(given) {
        complaints.push(format!("the archive reads back {}", archive.text()));
    }
}

/// Complains if either writer does not make the bytes that were read.
fn write_back(header: Header, bytes: &[u8], complaints: &mut Vec<String>) {
    let Header {
        major,
        minor,
        order,
        unicode,
        ..
    } = header;
    let (mut ours, mut theirs) = ([0; SIZE], [0; SIZE]);
    let reading = write_header(major, minor, order, unicode, &mut ours);
    if reading != Ok(SIZE) || ours != bytes[..SIZE] {
        complaints.push("the reading does not write it back".to_string());
    }
    let archive = archive::write_header(major, minor, order, unicode, &mut theirs);
    if archive != Ok(SIZE) || theirs != bytes[..SIZE] {
        complaints.push("the archive does not write it back".to_string());
    }
}

/// Bytes for the reader: a header, sound or damaged, or any bytes.
fn input(random: &mut Random) -> Vec<u8> {
    if random.one_in(8) {
        let length = random.below(21);
        return random.bytes(length);
    }
    let mut bytes = START.to_vec();
    bytes.extend([random.byte(), random.byte()]);
    bytes.push(mostly(random, &[0]));
    bytes.push(mostly(random, &[0, 1]));
    damage(random, &mut bytes);
    bytes
}

/// Mostly one of the values allowed, at times any byte.
fn mostly(random: &mut Random, allowed: &[u8]) -> u8 {
    match random.below(16) {
        0 => random.byte(),
        1 => random.pick(&[1, 2, 0x80, 0xFF]),
        _ => random.pick(allowed),
    }
}
