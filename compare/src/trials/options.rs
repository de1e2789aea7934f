//! Trials of the handler options' calls.

use super::{capacity, damage, output_complaints, Call, Run};
use crate::archive;
use crate::random::Random;
use crate::reading::options::{read_options, write_options, Options};
use crate::reading::{ErrorCode, MAX_INPUT};
use crate::text::{agree, shown, Text};

const GUID: [u8; 16] = [
    0xB6, 0x92, 0xF2, 0x3F, 0x04, 0xB2, 0xCF, 0x11, 0x8D, 0x23, 0x00, 0xAA, 0x00, 0x5F, 0xFE, 0x58,
];
const UPDATE_TYPE_AT: usize = 19;
const FIRST_STRING_AT: usize = 22;
/// The bytes of a piece whose strings are empty.
const EMPTY: usize = 28;
/// The most bytes that the three strings can have together.
const MAX_STRINGS: usize = 65_510;

static READ: Call = Call {
    name: "read_options",
    codes: &[
        ErrorCode::Truncated,
        ErrorCode::Constant,
        ErrorCode::FieldValue,
        ErrorCode::OptionsSize,
        ErrorCode::Oversize,
    ],
};
static WRITE: Call = Call {
    name: "write_options",
    codes: &[
        ErrorCode::FieldValue,
        ErrorCode::OptionsSize,
        ErrorCode::Capacity,
        ErrorCode::Oversize,
    ],
};

/// One input for the options reader.
pub(super) fn read_case(random: &mut Random, run: &mut Run) {
    let bytes = input(random);
    read(&bytes, run);
}

/// One set of values for the options writer.
pub(super) fn write_case(random: &mut Random, run: &mut Run) {
    let lengths = string_lengths(random);
    let strings = lengths.map(|length| random.bytes(length));
    let async_option = async_value(random);
    let space = capacity(random, EMPTY + lengths.iter().sum::<usize>());
    let before = random.bytes(space);
    let [first, second, third] = &strings;
    write([first, second, third], async_option, &before, run);
}

/// Inputs at the size limit and over it, in every place and with other faults besides.
pub(super) fn oversized(bytes: &mut [u8], run: &mut Run) {
    for token in [0x02, 0xFF] {
        let sound = piece(1, [&[], &[], &[]], 1);
        bytes[..sound.len()].copy_from_slice(&sound);
        bytes[0] = token;
        read(&bytes[..MAX_INPUT], run);
        read(bytes, run);
    }
    let sizes = [0, MAX_INPUT, MAX_INPUT + 1];
    for first in sizes {
        for second in sizes {
            for third in sizes {
                let strings = [&bytes[..first], &bytes[..second], &bytes[..third]];
                write(strings, 0, &[0xAA; 8], run);
                write(strings, 1, &[0xAA; 40], run);
            }
        }
    }
    bytes[..EMPTY].fill(0);
}

/// Reads with both sides; what they accept they must also write back.
fn read(bytes: &[u8], run: &mut Run) {
    let reading = read_options(bytes);
    let archive = archive::read_options(bytes);
    let mut complaints = Vec::new();
    if !agree(&reading, &archive) {
        complaints.push(format!("reading: {}", reading.text()));
        complaints.push(format!("archive: {}", archive.text()));
    }
    if let Ok(options) = &reading {
        write_back(options, bytes, &mut complaints);
    }
    run.judge(&READ, &reading, &complaints, || shown(bytes));
}

/// Writes with both sides into outputs that begin as `before`, and reads back.
fn write(strings: [&[u8]; 3], async_option: u16, before: &[u8], run: &mut Run) {
    let (mut ours, mut theirs) = (before.to_vec(), before.to_vec());
    let reading = write_options(strings, async_option, &mut ours);
    let archive = archive::write_options(strings, async_option, &mut theirs);
    let mut complaints = output_complaints(before, &ours, &theirs, &reading);
    if !agree(&reading, &archive) {
        complaints.push(format!("reading: {}", reading.text()));
        complaints.push(format!("archive: {}", archive.text()));
    }
    if reading.is_ok() {
        read_back(strings, async_option, &ours, &theirs, &mut complaints);
    }
    run.judge(&WRITE, &reading, &complaints, || {
        let [first, second, third] = strings.map(shown);
        let space = before.len();
        format!("{first} {second} {third} {async_option}, output of {space} bytes")
    });
}

/// Complains if either reader does not find the values given in its writer's output.
fn read_back(
    strings: [&[u8]; 3],
    async_option: u16,
    ours: &[u8],
    theirs: &[u8],
    complaints: &mut Vec<String>,
) {
    let mut at = FIRST_STRING_AT;
    let ranges = strings.map(|string| {
        let range = at..at + string.len();
        at = range.end + 2;
        range
    });
    let given = Options {
        update_type: 1,
        strings: ranges,
        async_option,
        end: at,
    };
    let reading = read_options(ours);
    let archive = archive::read_options(theirs);
    if reading.as_ref() != Ok(&given) || !holds(ours, &given, strings) {
        complaints.push(format!("the reading reads back {}", reading.text()));
    }
    if archive.as_ref() != Ok(&given) || !holds(theirs, &given, strings) {
        complaints.push(format!("the archive reads back {}", archive.text()));
    }
}

/// True if the strings stand in `bytes` where the options say.
fn holds(bytes: &[u8], options: &Options, strings: [&[u8]; 3]) -> bool {
    strings
        .iter()
        .zip(&options.strings)
        .all(|(string, range)| bytes.get(range.clone()) == Some(string))
}

/// Complains if either writer does not make the bytes that were read, the update type aside.
fn write_back(options: &Options, bytes: &[u8], complaints: &mut Vec<String>) {
    let strings = options.strings.clone().map(|range| &bytes[range]);
    let mut wanted = bytes[..options.end].to_vec();
    wanted[UPDATE_TYPE_AT] = 1;
    let (mut ours, mut theirs) = (vec![0; options.end], vec![0; options.end]);
    let reading = write_options(strings, options.async_option, &mut ours);
    if reading != Ok(options.end) || ours != wanted {
        complaints.push("the reading does not write it back".to_string());
    }
    let archive = archive::write_options(strings, options.async_option, &mut theirs);
    if archive != Ok(options.end) || theirs != wanted {
        complaints.push("the archive does not write it back".to_string());
    }
}

/// Bytes for the reader: a piece, sound or damaged, or any bytes.
fn input(random: &mut Random) -> Vec<u8> {
    match random.below(32) {
        0 | 1 => {
            let length = random.below(60);
            return random.bytes(length);
        }
        2 => return small_input(random),
        _ => {}
    }
    let update_type = if random.one_in(2) { 1 } else { random.byte() };
    let lengths = if random.one_in(512) {
        [random.below(MAX_STRINGS + 1), 0, 0]
    } else {
        [0; 3].map(|_| short_length(random))
    };
    let strings = lengths.map(|length| random.bytes(length));
    let [first, second, third] = &strings;
    let mut bytes = piece(update_type, [first, second, third], async_value(random));
    match random.below(8) {
        0 => shift_number(random, &mut bytes, 1),
        1 => {
            let at = length_at(random, lengths);
            shift_number(random, &mut bytes, at);
        }
        _ => {}
    }
    if random.one_in(4) {
        // Bytes behind the piece, so that a size too large is not always a missing byte.
        let length = random.below(40);
        bytes.extend(random.bytes(length));
    }
    damage(random, &mut bytes);
    bytes
}

/// A piece with a size around the smallest one and about as many bytes, GUID or noise.
fn small_input(random: &mut Random) -> Vec<u8> {
    let size = random.below(30);
    let mut bytes = vec![0x02, size as u8, 0x00];
    if random.one_in(2) {
        bytes.extend(GUID);
    }
    let length = (3 + size + random.below(5)).saturating_sub(2);
    bytes.resize(length, random.byte());
    bytes
}

/// A sound piece with these values.
fn piece(update_type: u8, strings: [&[u8]; 3], async_option: u16) -> Vec<u8> {
    let total: usize = strings.iter().map(|string| string.len()).sum();
    let mut bytes = Vec::with_capacity(EMPTY + total);
    bytes.push(0x02);
    bytes.extend(((EMPTY - 3 + total) as u16).to_le_bytes());
    bytes.extend(GUID);
    bytes.push(update_type);
    for string in strings {
        bytes.extend((string.len() as u16).to_le_bytes());
        bytes.extend(string);
    }
    bytes.extend(async_option.to_le_bytes());
    bytes
}

/// Where the length of one of the strings stands.
fn length_at(random: &mut Random, lengths: [usize; 3]) -> usize {
    let before = random.below(3);
    let skipped: usize = lengths[..before].iter().map(|length| length + 2).sum();
    FIRST_STRING_AT - 2 + skipped
}

/// Moves the two-byte number at `at` by a little, or gives it any value.
fn shift_number(random: &mut Random, bytes: &mut [u8], at: usize) {
    let number = u16::from_le_bytes([bytes[at], bytes[at + 1]]);
    let step = random.between(1, 4) as u16;
    let any = random.bits() as u16;
    let moved = random.pick(&[
        number.wrapping_add(step),
        number.wrapping_sub(step),
        number.wrapping_add(0x100),
        any % 64,
        any,
    ]);
    bytes[at..at + 2].copy_from_slice(&moved.to_le_bytes());
}

/// The lengths of three strings for the writer, at times around the size limit.
fn string_lengths(random: &mut Random) -> [usize; 3] {
    match random.below(64) {
        0 => {
            let total = random.between(MAX_STRINGS - 5, MAX_STRINGS + 5);
            let first = random.below(total + 1);
            let second = random.below(total - first + 1);
            [first, second, total - first - second]
        }
        1 => {
            let mut lengths = [0; 3].map(|_| short_length(random));
            lengths[random.below(3)] = random.between(65_400, 70_000);
            lengths
        }
        _ => [0; 3].map(|_| short_length(random)),
    }
}

/// A length that is mostly small.
fn short_length(random: &mut Random) -> usize {
    match random.below(16) {
        0 => random.between(250, 260),
        1..=5 => 0,
        _ => random.below(13),
    }
}

/// Mostly an async option allowed, at times any.
fn async_value(random: &mut Random) -> u16 {
    let any = random.bits() as u16;
    match random.below(16) {
        0 => any,
        1 => random.pick(&[0, 4, 0x100, 0x101, 0x300, 0xFFFF]),
        _ => random.pick(&[1, 2, 3]),
    }
}
