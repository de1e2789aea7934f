//! Random schemas, rows and sections that keep the rules, and schemas of a form that may
//! break them.

use crate::random::Random;
use crate::reading::column::{Column, Kind, BYTES, CHAPTER, FIXED, TEXT, WIDE_TEXT};
use crate::reading::encode::{write_original, write_update, Entry};
use crate::reading::schema::{write_schema, SchemaFile, MAX_COLUMNS, MAX_FILE_COLUMNS};
use crate::reading::section::{CHILD, CHILD_CHANGE, CHILD_DELETE, END, PARENT};
use crate::reading::{Error, Input};

const MAX_DEPTH: usize = 4;
/// The largest child id that a file can say.
pub const MAX_ID: usize = (1 << 21) - 1;

/// A schema file, and the same taken apart.
pub fn schema_file(random: &mut Random) -> (Vec<u8>, SchemaFile) {
    let numbers = schema_numbers(random);
    let mut bytes = vec![0; 3 * numbers.len()];
    let size = write_schema(&numbers, &mut bytes).expect("the numbers keep the rules");
    bytes.truncate(size);
    let file = SchemaFile::read(&bytes, Input::Only).expect("what is written can be read");
    (bytes, file)
}

/// The numbers of a schema file.
pub fn schema_numbers(random: &mut Random) -> Vec<u32> {
    let mut maker = Maker::new(false);
    maker.schema(random, 1);
    maker.numbers
}

/// The form of a schema file. More than four levels, more than 256 columns, or an id that
/// occurs twice break the rules. There must be a schema for each level, more than one level
/// for more than one schema, two columns for each nested schema and at least one in all, and
/// no more than 64 for each schema.
#[derive(Clone, Copy, Debug)]
pub struct Shape {
    pub schemas: usize,
    pub columns: usize,
    pub depth: usize,
    pub repeats_ids: bool,
}

/// The numbers of a schema file of this form.
pub fn shaped_numbers(random: &mut Random, shape: Shape) -> Vec<u32> {
    let nodes = tree(random, shape);
    let mut maker = Maker::new(shape.repeats_ids);
    maker.node(random, &nodes, 0);
    maker.numbers
}

/// Numbers as groups of seven bits, shortest form, whether or not they keep the rules.
pub fn groups(numbers: &[u32]) -> Vec<u8> {
    let mut bytes = Vec::new();
    for number in numbers {
        let mut rest = *number;
        while rest > 0x7F {
            bytes.push(rest as u8 | 0x80);
            rest >>= 7;
        }
        bytes.push(rest as u8);
    }
    bytes
}

/// A schema in a tree of them.
struct Node {
    depth: usize,
    columns: usize,
    children: Vec<usize>,
}

/// A tree of this form; the top comes first.
fn tree(random: &mut Random, shape: Shape) -> Vec<Node> {
    let new_node = |depth| Node {
        depth,
        columns: 1,
        children: Vec::new(),
    };
    let mut nodes = vec![new_node(1)];
    while nodes.len() < shape.schemas {
        let child = nodes.len();
        // The first ones reach the depth; the others hang anywhere above it.
        let parent = if child < shape.depth {
            child - 1
        } else {
            let above = |index: &usize| nodes[*index].depth < shape.depth;
            let open: Vec<usize> = (0..child).filter(above).collect();
            random.pick(&open)
        };
        nodes[parent].children.push(child);
        nodes[parent].columns = nodes[parent].children.len();
        nodes.push(new_node(nodes[parent].depth + 1));
    }
    let mut left = shape.columns - nodes.iter().map(|node| node.columns).sum::<usize>();
    while left > 0 {
        let node = &mut nodes[random.below(shape.schemas)];
        let more = random.below(left.min(MAX_COLUMNS - node.columns) + 1);
        node.columns += more;
        left -= more;
    }
    nodes
}

/// A schema file in the making.
struct Maker {
    numbers: Vec<u32>,
    ids: Vec<u32>,
    repeats_ids: bool,
    columns_left: usize,
}

impl Maker {
    fn new(repeats_ids: bool) -> Maker {
        Maker {
            numbers: Vec::new(),
            ids: Vec::new(),
            repeats_ids,
            columns_left: MAX_FILE_COLUMNS,
        }
    }

    /// Adds the schema of a tree's node, with those nested in it.
    fn node(&mut self, random: &mut Random, nodes: &[Node], index: usize) {
        let node = &nodes[index];
        self.numbers.push(node.columns as u32);
        let mut children = node.children.iter();
        for left in (1..=node.columns).rev() {
            let is_chapter = random.below(left) < children.len();
            match children.as_slice().first() {
                Some(child) if is_chapter => {
                    children.next();
                    self.chapter(random);
                    self.node(random, nodes, *child);
                }
                _ if random.one_in(2) => self.variable(random),
                _ => self.fixed(random),
            }
        }
    }

    /// Adds a schema; at least one column must be left.
    fn schema(&mut self, random: &mut Random, depth: usize) {
        let form = random.below(9);
        let wanted = match form {
            0 | 1 => random.between(1, MAX_COLUMNS),
            2 => random.between(1, 20),
            _ => random.between(1, 6),
        };
        let count = wanted.min(self.columns_left);
        self.columns_left -= count;
        self.numbers.push(count as u32);
        for _ in 0..count {
            // Some have long runs of columns that every row has with the same width.
            if form == 0 && !random.one_in(24) {
                self.numbers.extend([u32::from(random.pick(&FIXED).0), 0]);
            } else {
                self.column(random, depth);
            }
        }
    }

    fn column(&mut self, random: &mut Random, depth: usize) {
        let may_nest = depth < MAX_DEPTH && self.columns_left > 0;
        match random.below(8) {
            0 | 1 if may_nest => {
                self.chapter(random);
                self.schema(random, depth + 1);
            }
            0..=3 => self.variable(random),
            _ => self.fixed(random),
        }
    }

    fn fixed(&mut self, random: &mut Random) {
        let code = random.pick(&FIXED).0;
        self.code_and_flags(random, code);
    }

    fn variable(&mut self, random: &mut Random) {
        let code = random.pick(&[BYTES, TEXT, WIDE_TEXT]);
        self.code_and_flags(random, code);
        let any = random.between(1, 32_767);
        let small = random.between(1, 12);
        let maximum = random.pick(&[small, small, 127, 128, 255, 256, 32_767, any]);
        self.numbers.push(maximum as u32);
    }

    /// Adds a chapter up to its id; the nested schema must follow.
    fn chapter(&mut self, random: &mut Random) {
        self.code_and_flags(random, CHAPTER);
        let id = match self.ids.is_empty() {
            false if self.repeats_ids && random.one_in(2) => random.pick(&self.ids),
            _ => self.new_id(random),
        };
        self.numbers.push(id);
    }

    fn code_and_flags(&mut self, random: &mut Random, code: u8) {
        self.numbers.push(u32::from(code));
        self.numbers.push(random.below(2) as u32);
    }

    /// An id that no schema has yet.
    fn new_id(&mut self, random: &mut Random) -> u32 {
        loop {
            let any = random.between(0, MAX_ID);
            let small = random.below(300);
            // One whose last byte another id has too.
            let alike = match self.ids.is_empty() {
                true => any,
                false => (any & !0xFF) | random.pick(&self.ids) as usize & 0xFF,
            };
            let id = random.pick(&[small, small, small, alike, any, 0, MAX_ID]) as u32;
            if !self.ids.contains(&id) {
                self.ids.push(id);
                return id;
            }
        }
    }
}

/// Entries for an original row under these columns, with their values.
pub fn original_entries(random: &mut Random, columns: &[Column]) -> (Vec<Entry>, Vec<u8>) {
    let mut values = Vec::new();
    let entry = |column: &Column| {
        let is_null = column.is_chapter() || (column.nullable && random.one_in(2));
        if is_null {
            Entry::Null
        } else {
            value(random, column, &mut values)
        }
    };
    let entries = columns.iter().map(entry).collect();
    (entries, values)
}

/// Entries for an update under these columns, with their values.
pub fn update_entries(random: &mut Random, columns: &[Column]) -> (Vec<Entry>, Vec<u8>) {
    let mut values = Vec::new();
    let entry = |column: &Column| match random.below(3) {
        _ if column.is_chapter() => Entry::Unchanged,
        0 => Entry::Unchanged,
        1 if column.nullable => Entry::Null,
        _ => value(random, column, &mut values),
    };
    let entries = columns.iter().map(entry).collect();
    (entries, values)
}

/// A value that fits the column, added to the values.
fn value(random: &mut Random, column: &Column, values: &mut Vec<u8>) -> Entry {
    let length = match column.kind {
        Kind::Fixed(width) => usize::from(width),
        Kind::Variable => value_length(random, column),
        Kind::Chapter => 0,
    };
    let start = values.len();
    values.extend(random.bytes(length));
    Entry::Value {
        start,
        end: values.len(),
    }
}

/// A length that a variable column allows: mostly small, at times the longest.
fn value_length(random: &mut Random, column: &Column) -> usize {
    let prefix_limit = if column.prefix_size() == 1 {
        255
    } else {
        usize::MAX
    };
    let per_unit = if column.code == WIDE_TEXT { 2 } else { 1 };
    let longest = usize::from(column.maximum).min(prefix_limit / per_unit);
    let units = match random.below(16) {
        0 => longest,
        _ => random.below(longest.min(12) + 1),
    };
    units * per_unit
}

/// The bytes of an original row with these entries.
pub fn original_row(schema: &[u8], number: usize, entries: &[Entry], values: &[u8]) -> Vec<u8> {
    written(|output| write_original(schema, number, entries, values, output, 0))
}

/// The bytes of update data with these entries.
pub fn update_row(schema: &[u8], number: usize, entries: &[Entry], values: &[u8]) -> Vec<u8> {
    written(|output| write_update(schema, number, entries, values, output, 0))
}

/// What a writer writes once it has room.
fn written(writer: impl Fn(&mut [u8]) -> Result<usize, Error>) -> Vec<u8> {
    // The first call says how many bytes are needed, unless that is none.
    let size = writer(&mut []).unwrap_or_else(|error| error.offset);
    let mut output = vec![0; size];
    writer(&mut output).expect("the entries keep the rules");
    output
}

/// A section under the file, and the numbers that its table must hold.
pub fn section(random: &mut Random, schema: &[u8], file: &SchemaFile) -> (Vec<u8>, Vec<u32>) {
    let mut section = Section::default();
    for _ in 0..random.below(6) {
        let number = random.below(file.schema_count());
        section.add_row(random, schema, file, number);
    }
    section.end()
}

/// A section in the making, and the numbers that its table must hold so far.
#[derive(Default)]
pub struct Section {
    bytes: Vec<u8>,
    table: Vec<u32>,
}

impl Section {
    /// How many bytes it has so far.
    pub fn size(&self) -> usize {
        self.bytes.len()
    }

    /// Adds a row under the schema of this number. A child is unchanged, changed or deleted.
    pub fn add_row(
        &mut self,
        random: &mut Random,
        schema: &[u8],
        file: &SchemaFile,
        number: usize,
    ) {
        let columns = file.columns_at(number);
        let id = file.id_at(number);
        self.bytes.push(if id.is_some() { CHILD } else { PARENT });
        self.bytes
            .extend(id.map(u32::to_le_bytes).into_iter().flatten());
        let start = self.bytes.len() as u32;
        let (entries, values) = original_entries(random, columns);
        self.bytes
            .extend(original_row(schema, number, &entries, &values));
        let Some(id) = id else {
            self.table.extend([1, 0, start, 0]);
            return;
        };
        match random.below(3) {
            0 => self.table.extend([2, id, start, 0]),
            1 => {
                self.bytes.push(CHILD_CHANGE);
                self.bytes.extend(id.to_le_bytes());
                let update = self.bytes.len() as u32;
                self.table.extend([3, id, start, update]);
                let (entries, values) = update_entries(random, columns);
                self.bytes
                    .extend(update_row(schema, number, &entries, &values));
            }
            _ => {
                self.bytes.push(CHILD_DELETE);
                self.bytes.extend(id.to_le_bytes());
                self.table.extend([4, id, start, 0]);
            }
        }
    }

    /// The whole section, with its end token, and its table.
    pub fn end(mut self) -> (Vec<u8>, Vec<u32>) {
        self.bytes.push(END);
        (self.bytes, self.table)
    }
}
