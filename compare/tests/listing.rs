//! The listing program: what it prints about the files `sheet.bin` and `rows.bin` of the folder
//! that it is run in. The program lies in the folder that `ADTG_BIN_DIR` names, else in
//! `../target/bin`.

use std::env;
use std::fs;
use std::path::{Path, PathBuf};
use std::process::Command;

use compare::generate;
use compare::random::Random;
use compare::reading::section::{list_section, ROW_NUMBERS};
use compare::reading::{Error, Input};
use compare::trials::damage;

/// The largest file that the program takes.
const MAX_FILE: usize = 16_384;

/// The rows that it has room for.
const MAX_ROWS: usize = 1024;

/// A four-byte integer, and a chapter of id 7 with a byte that is not nullable.
const T: [u8; 10] = [0x02, 0x03, 0x00, 0x88, 0x01, 0x00, 0x07, 0x01, 0x11, 0x00];
/// A parent row and a changed child under that schema.
const ROWS: [u8; 20] = [
    0x07, 5, 0, 0, 0, 0x87, 7, 0, 0, 0, 0x2A, 0x8A, 7, 0, 0, 0, 0x80, 0x00, 0x2B, 0x0F,
];
/// A schema of one byte that is not nullable.
const BYTE: [u8; 3] = [0x01, 0x11, 0x00];
/// A schema that is refused for its count.
const BAD: [u8; 1] = [0x00];

/// A folder that the program is run in, removed when it is no longer needed.
struct Folder {
    path: PathBuf,
}

impl Folder {
    /// A new folder; tests run at the same time, so each has a name of its own.
    fn new(name: &str) -> Folder {
        let path = Path::new(env!("CARGO_TARGET_TMPDIR")).join(format!("listing-{name}"));
        // One that an earlier run left behind is not wanted.
        let _ = fs::remove_dir_all(&path);
        fs::create_dir_all(&path).expect("the folder can be made");
        Folder { path }
    }

    /// What the program prints about these files; `None` is a file that is missing.
    fn listing(&self, sheet: Option<&[u8]>, rows: Option<&[u8]>) -> String {
        for (name, content) in [("sheet.bin", sheet), ("rows.bin", rows)] {
            let file = self.path.join(name);
            match content {
                Some(bytes) => fs::write(&file, bytes).expect("the file can be written"),
                None if file.exists() => fs::remove_file(&file).expect("the file can be removed"),
                None => {}
            }
        }
        let program = program();
        let output = Command::new(&program)
            .current_dir(&self.path)
            .output()
            .unwrap_or_else(|error| panic!("{} cannot be run: {error}", program.display()));
        String::from_utf8(output.stdout).expect("the program prints text")
    }
}

impl Drop for Folder {
    fn drop(&mut self) {
        let _ = fs::remove_dir_all(&self.path);
    }
}

/// The program. A relative folder is taken from the manifest; an absolute one replaces it.
fn program() -> PathBuf {
    let named = env::var("ADTG_BIN_DIR").unwrap_or_else(|_| "../target/bin".to_string());
    Path::new(env!("CARGO_MANIFEST_DIR"))
        .join(named)
        .join("listing")
}

/// Rows of one byte each, and the end.
fn bytes_rows(count: usize) -> Vec<u8> {
    let mut rows = [0x07, 0x2A].repeat(count);
    rows.push(0x0F);
    rows
}

/// One row of a schema of long text that makes a section of this size.
fn long_row(size: usize) -> (Vec<u8>, Vec<u8>) {
    let schema = generate::groups(&[1, 0x81, 0, 32_767]);
    let length = size - 6;
    let mut rows = vec![0x07];
    rows.extend((length as u32).to_le_bytes());
    rows.resize(size - 1, 0x61);
    rows.push(0x0F);
    (schema, rows)
}

/// What the program must print, by the reading.
fn wanted(sheet: &[u8], rows: &[u8]) -> String {
    let mut table = [0; ROW_NUMBERS * MAX_ROWS];
    if sheet.len() > MAX_FILE {
        return "sheet refused 19 at 0\n".to_string();
    }
    if rows.len() > MAX_FILE {
        return "rows refused 19 at 0\n".to_string();
    }
    match list_section(sheet, rows, &mut table) {
        Ok(count) => {
            let mut text = format!("rows {count}\n");
            for row in table[..ROW_NUMBERS * count].chunks(ROW_NUMBERS) {
                let [kind, id, start, update] = [row[0], row[1], row[2], row[3]];
                text += &format!("{kind} {id} {start} {update}\n");
            }
            text
        }
        Err(Error {
            code,
            offset,
            input,
        }) => {
            let name = if input == Input::Schema {
                "sheet"
            } else {
                "rows"
            };
            format!("{name} refused {} at {offset}\n", code.number())
        }
    }
}

#[test]
fn the_example_of_the_rules() {
    let folder = Folder::new("example");
    let printed = folder.listing(Some(&T), Some(&ROWS));
    assert_eq!(printed, "rows 2\n1 0 1 0\n3 7 10 16\n");
}

#[test]
fn a_section_without_rows() {
    let folder = Folder::new("none");
    assert_eq!(folder.listing(Some(&T), Some(&[0x0F])), "rows 0\n");
}

#[test]
fn children_that_are_unchanged_changed_and_deleted() {
    let folder = Folder::new("children");
    // A nullable chapter of id 7; in it one of id 9, with two nullable bytes.
    let schema = generate::groups(&[
        2, 0x03, 0, 0x88, 1, 7, 2, 0x11, 0, 0x88, 0, 9, 2, 0x11, 1, 0x11, 1,
    ]);
    let mut rows = Vec::new();
    rows.extend([0x07, 0x00, 5, 0, 0, 0]);
    rows.extend([0x87, 7, 0, 0, 0, 0x2A]);
    rows.extend([0x87, 7, 0, 0, 0, 0x2B, 0x8C, 7, 0, 0, 0]);
    rows.extend([0x87, 9, 0, 0, 0, 0x80, 0x2C]);
    rows.extend([0x8A, 9, 0, 0, 0, 0xC0, 0x80, 0x2D]);
    rows.extend([0x07, 0x00, 6, 0, 0, 0]);
    rows.push(0x0F);
    let printed = folder.listing(Some(&schema), Some(&rows));
    let wanted = "rows 5\n1 0 1 0\n2 7 11 0\n4 7 17 0\n3 9 28 35\n1 0 39 0\n";
    assert_eq!(printed, wanted);
}

#[test]
fn a_sheet_that_is_refused() {
    let folder = Folder::new("sheet");
    let deep = [
        1, 0x88, 1, 0, 1, 1, 0x88, 1, 0, 2, 1, 0x88, 1, 0, 3, 1, 0x88, 1, 0, 4, 1,
    ];
    let cases: [(&[u8], &str); 8] = [
        (&[], "1 at 0"),
        (&[0x01, 0x11], "1 at 2"),
        (&[0x83, 0x00], "5 at 0"),
        (&BAD, "6 at 0"),
        (&[0x02, 0x11, 0x00, 0x12, 0x02], "6 at 4"),
        (&deep, "7 at 20"),
        (
            &[2, 0x88, 1, 0, 7, 1, 0x11, 0, 0x88, 1, 0, 7, 1, 0x11, 0],
            "8 at 11",
        ),
        (&[0x01, 0x11, 0x00, 0x00], "15 at 3"),
    ];
    for (sheet, wanted) in cases {
        // Rows that would be refused too do not matter.
        for rows in [&bytes_rows(1)[..], &[], &[0x55]] {
            let printed = folder.listing(Some(sheet), Some(rows));
            assert_eq!(printed, format!("sheet refused {wanted}\n"), "{sheet:?}");
        }
    }
}

#[test]
fn rows_that_are_refused() {
    let folder = Folder::new("rows");
    let changed = |at: usize, bytes: &[u8]| {
        let mut rows = ROWS.to_vec();
        rows[at..at + bytes.len()].copy_from_slice(bytes);
        rows
    };
    let mut unknown = ROWS.to_vec();
    unknown.splice(..0, [0x87, 8, 0, 0, 0]);
    let cases = [
        (Vec::new(), "1 at 0"),
        (ROWS[..19].to_vec(), "1 at 19"),
        (ROWS[..14].to_vec(), "1 at 14"),
        (changed(0, &[0x0A]), "9 at 0"),
        (changed(11, &[0x55]), "9 at 11"),
        (unknown, "10 at 0"),
        (changed(12, &[8]), "11 at 11"),
        (changed(16, &[0x00, 0x80]), "13 at 17"),
        (vec![0x0F, 0x0F], "15 at 1"),
    ];
    for (rows, wanted) in cases {
        let printed = folder.listing(Some(&T), Some(&rows));
        assert_eq!(printed, format!("rows refused {wanted}\n"), "{rows:?}");
    }
    let chapter = generate::groups(&[1, 0x88, 1, 7, 1, 0x11, 0]);
    let printed = folder.listing(Some(&chapter), Some(&[0x07, 0x80, 0x0F]));
    assert_eq!(printed, "rows refused 12 at 1\n");
    let text = generate::groups(&[1, 0x81, 0, 2]);
    let printed = folder.listing(Some(&text), Some(&[0x07, 3, 0x61, 0x61, 0x61, 0x0F]));
    assert_eq!(printed, "rows refused 14 at 1\n");
}

#[test]
fn a_missing_file_counts_as_empty() {
    let folder = Folder::new("missing");
    let sheet = "sheet refused 1 at 0\n";
    assert_eq!(folder.listing(None, None), sheet);
    assert_eq!(folder.listing(None, Some(&ROWS)), sheet);
    let rows = "rows refused 1 at 0\n";
    assert_eq!(folder.listing(Some(&T), None), rows);
    assert_eq!(folder.listing(Some(&BAD), None), "sheet refused 6 at 0\n");
}

#[test]
fn files_at_the_limit_are_read() {
    let folder = Folder::new("limit");
    let (schema, rows) = long_row(MAX_FILE);
    assert_eq!(rows.len(), MAX_FILE);
    let printed = folder.listing(Some(&schema), Some(&rows));
    assert_eq!(printed, "rows 1\n1 0 1 0\n");
    let mut sheet = T.to_vec();
    sheet.resize(MAX_FILE, 0);
    let printed = folder.listing(Some(&sheet), Some(&ROWS));
    assert_eq!(printed, "sheet refused 15 at 10\n");
}

#[test]
fn sizes_come_first() {
    let folder = Folder::new("sizes");
    let (schema, rows) = long_row(MAX_FILE + 1);
    let mut sheet = T.to_vec();
    sheet.resize(MAX_FILE + 1, 0);
    for sheet in [Some(&schema[..]), Some(&BAD), Some(&[]), None] {
        let printed = folder.listing(sheet, Some(&rows));
        assert_eq!(printed, "rows refused 19 at 0\n");
    }
    for rows in [Some(&rows[..]), Some(&ROWS), Some(&[0x55]), None] {
        let printed = folder.listing(Some(&sheet), rows);
        assert_eq!(printed, "sheet refused 19 at 0\n");
    }
    // However far it goes over the limit.
    sheet.resize(5 * MAX_FILE, 0);
    let printed = folder.listing(Some(&sheet), Some(&sheet));
    assert_eq!(printed, "sheet refused 19 at 0\n");
    let printed = folder.listing(Some(&T), Some(&sheet));
    assert_eq!(printed, "rows refused 19 at 0\n");
}

#[test]
fn there_is_room_for_1024_rows() {
    let folder = Folder::new("room");
    let printed = folder.listing(Some(&BYTE), Some(&bytes_rows(MAX_ROWS)));
    let mut all = format!("rows {MAX_ROWS}\n");
    for row in 0..MAX_ROWS {
        all += &format!("1 0 {} 0\n", 2 * row + 1);
    }
    assert_eq!(printed, all);
    let printed = folder.listing(Some(&BYTE), Some(&bytes_rows(MAX_ROWS + 1)));
    assert_eq!(printed, "rows refused 16 at 1025\n");
    // As many as a file holds.
    let most = MAX_FILE / 2 - 1;
    let printed = folder.listing(Some(&BYTE), Some(&bytes_rows(most)));
    assert_eq!(printed, format!("rows refused 16 at {most}\n"));
    // Any other error comes before.
    let mut rows = bytes_rows(MAX_ROWS + 1);
    rows.push(0x0F);
    let printed = folder.listing(Some(&BYTE), Some(&rows));
    assert_eq!(printed, "rows refused 15 at 2051\n");
}

#[test]
fn any_files_are_listed_as_the_reading_lists_them() {
    let folder = Folder::new("any");
    let mut random = Random::new(1);
    for _ in 0..300 {
        let (mut sheet, file) = generate::schema_file(&mut random);
        let (mut rows, _) = generate::section(&mut random, &sheet, &file);
        if random.one_in(8) {
            damage(&mut random, &mut sheet);
        }
        if random.one_in(2) {
            damage(&mut random, &mut rows);
        }
        let printed = folder.listing(Some(&sheet), Some(&rows));
        assert_eq!(printed, wanted(&sheet, &rows));
    }
}
