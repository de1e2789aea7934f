//! The reading against itself: what is written reads back, the walk and the plan agree on
//! sound and damaged rows, and sections give the table that they were made for.

use compare::generate::{self, Shape};
use compare::random::Random;
use compare::reading::column::{Column, Kind};
use compare::reading::encode::{entries_of, entry_numbers, Entry};
use compare::reading::plan::make_plan;
use compare::reading::row::{field_count, look_up, row_end, Answer};
use compare::reading::schema::{
    read_schema, schema_column, schema_columns, schema_numbers, schema_of_child, Counts, SchemaFile,
};
use compare::reading::section::{check_section, list_section};
use compare::reading::update::{current, look_update, update_end, Change, Current};
use compare::reading::{Error, ErrorCode, Input};
use compare::trials::damage;

const ROUNDS: usize = 3_000;

/// One of the file's schemas: its number and its columns.
fn any_schema<'a>(random: &mut Random, file: &'a SchemaFile) -> (usize, &'a [Column]) {
    let number = random.below(file.schema_count());
    (number, file.columns_at(number))
}

/// True if the answer is what the entry says; a field must hold the entry's value.
fn says(answer: &Answer, entry: &Entry, column: &Column, values: &[u8], row: &[u8]) -> bool {
    match (answer, entry) {
        (Answer::Chapter, Entry::Null) => column.is_chapter(),
        (Answer::Null, Entry::Null) => !column.is_chapter(),
        (Answer::Field { place, .. }, Entry::Value { start, end }) => {
            row[place.clone()] == values[*start..*end]
        }
        _ => false,
    }
}

/// The values of variable columns among the first entries: the prefixes that a walk counts.
fn prefixes(columns: &[Column], entries: &[Entry]) -> usize {
    let counts = |(column, entry): &(&Column, &Entry)| {
        column.kind == Kind::Variable && matches!(entry, Entry::Value { .. })
    };
    columns.iter().zip(entries).filter(counts).count()
}

/// Adds the numbers of a schema and of those nested in it, as its descriptions say them.
fn described_numbers(file: &[u8], schema: usize, numbers: &mut Vec<u32>) {
    let count = schema_columns(file, schema).unwrap();
    numbers.push(count as u32);
    for index in 0..count {
        let column = schema_column(file, schema, index).unwrap();
        numbers.extend([u32::from(column.code), u32::from(column.flags)]);
        if column.nested > 0 {
            numbers.push(column.child_id);
            assert_eq!(schema_of_child(file, column.child_id), Ok(column.nested));
            described_numbers(file, column.nested, numbers);
        } else if column.maximum > 0 {
            numbers.push(u32::from(column.maximum));
        }
    }
}

#[test]
fn descriptions_give_the_numbers_of_a_file() {
    let mut random = Random::new(6);
    for _ in 0..ROUNDS {
        let numbers = generate::schema_numbers(&mut random);
        let mut described = Vec::new();
        let file = generate::groups(&numbers);
        described_numbers(&file, 0, &mut described);
        assert_eq!(described, numbers);
        let mut table = vec![0; numbers.len()];
        assert_eq!(schema_numbers(&file, &mut table), Ok(numbers.len()));
        assert_eq!(table, numbers);
    }
}

#[test]
fn a_file_has_the_form_that_it_is_made_for() {
    let mut random = Random::new(7);
    let mut repeated = 0;
    for _ in 0..ROUNDS {
        let schemas = random.between(5, 40);
        let shape = Shape {
            schemas,
            columns: random.between(2 * schemas, 256),
            depth: random.between(2, 4),
            repeats_ids: false,
        };
        let mut read = |shape| {
            let numbers = generate::shaped_numbers(&mut random, shape);
            read_schema(&generate::groups(&numbers)).map_err(|error| error.code)
        };
        for columns in [shape.columns, 256] {
            let counts = Counts { schemas, columns };
            assert_eq!(read(Shape { columns, ..shape }), Ok(counts));
        }
        let limit = Err(ErrorCode::SchemaLimit);
        let columns = 257;
        assert_eq!(read(Shape { columns, ..shape }), limit);
        let depth = 5;
        assert_eq!(read(Shape { depth, ..shape }), limit);
        let repeats_ids = true;
        match read(Shape {
            repeats_ids,
            ..shape
        }) {
            Ok(_) => {}
            Err(code) => {
                assert_eq!(code, ErrorCode::RepeatedId);
                repeated += 1;
            }
        }
    }
    // With four nested schemas or more, chance seldom leaves all ids apart.
    assert!(repeated > ROUNDS / 2);
}

#[test]
fn a_written_row_reads_back() {
    let mut random = Random::new(1);
    for _ in 0..ROUNDS {
        let (schema, file) = generate::schema_file(&mut random);
        let (number, columns) = any_schema(&mut random, &file);
        let (entries, values) = generate::original_entries(&mut random, columns);
        let row = generate::original_row(&schema, number, &entries, &values);
        let plan = make_plan(&schema, number).unwrap();
        for (index, entry) in entries.iter().enumerate() {
            let answer = look_up(&schema, number, &row, index).unwrap();
            assert!(says(&answer, entry, &columns[index], &values, &row));
            if let Answer::Field {
                place,
                prefixes: count,
            } = answer
            {
                assert_eq!(count, prefixes(&columns[..=index], &entries[..=index]));
                let fixed = plan.fixed_place(index).unwrap();
                assert!(fixed.is_none_or(|fixed| fixed == place.start));
            }
        }
        let fields = entries
            .iter()
            .filter(|entry| **entry != Entry::Null)
            .count();
        assert_eq!(field_count(&schema, number, &row), Ok(fields));
    }
}

#[test]
fn a_written_update_reads_back() {
    let mut random = Random::new(8);
    for _ in 0..ROUNDS {
        let (schema, file) = generate::schema_file(&mut random);
        let (number, columns) = any_schema(&mut random, &file);
        let (changes, values) = generate::update_entries(&mut random, columns);
        let update = generate::update_row(&schema, number, &changes, &values);
        for (index, change) in changes.iter().enumerate() {
            let answer = look_update(&schema, number, &update, index).unwrap();
            match (change, answer) {
                (Entry::Unchanged, Change::Chapter) => assert!(columns[index].is_chapter()),
                (Entry::Unchanged, Change::Unchanged) => assert!(!columns[index].is_chapter()),
                (Entry::Null, Change::Null) => {}
                (
                    Entry::Value { start, end },
                    Change::Field {
                        place,
                        prefixes: count,
                    },
                ) => {
                    assert_eq!(update[place], values[*start..*end]);
                    assert_eq!(count, prefixes(&columns[..=index], &changes[..=index]));
                }
                (change, answer) => panic!("{change:?} gives {answer:?}"),
            }
        }
    }
}

#[test]
fn written_data_end_where_they_were_written() {
    let mut random = Random::new(9);
    for _ in 0..ROUNDS {
        let (schema, file) = generate::schema_file(&mut random);
        let (number, columns) = any_schema(&mut random, &file);
        let at = random.below(20);
        let mut bytes = random.bytes(at);
        let (entries, values) = generate::original_entries(&mut random, columns);
        bytes.extend(generate::original_row(&schema, number, &entries, &values));
        let middle = bytes.len();
        let (changes, values) = generate::update_entries(&mut random, columns);
        bytes.extend(generate::update_row(&schema, number, &changes, &values));
        let end = bytes.len();
        // Bytes behind the data do not matter; a missing one does, unless there are none.
        assert_eq!(row_end(&schema, number, &bytes, at), Ok(middle));
        assert_eq!(update_end(&schema, number, &bytes, middle), Ok(end));
        if middle > at {
            let truncated = Error::new(ErrorCode::Truncated, middle - 1, Input::Row);
            let cut = &bytes[..middle - 1];
            assert_eq!(row_end(&schema, number, cut, at), Err(truncated));
        }
        let truncated = Error::new(ErrorCode::Truncated, end - 1, Input::Update);
        let cut = &bytes[..end - 1];
        assert_eq!(update_end(&schema, number, cut, middle), Err(truncated));
    }
}

#[test]
fn numbers_of_entries_say_the_entries() {
    let mut random = Random::new(10);
    for _ in 0..ROUNDS {
        let (_, file) = generate::schema_file(&mut random);
        let (_, columns) = any_schema(&mut random, &file);
        for (entries, _) in [
            generate::original_entries(&mut random, columns),
            generate::update_entries(&mut random, columns),
        ] {
            let numbers = entry_numbers(&entries).unwrap();
            assert_eq!(numbers.len(), 3 * entries.len());
            assert_eq!(entries_of(&numbers), entries);
        }
    }
}

#[test]
fn the_plan_says_what_the_walk_says() {
    let mut random = Random::new(2);
    for _ in 0..ROUNDS {
        let (schema, file) = generate::schema_file(&mut random);
        let (number, columns) = any_schema(&mut random, &file);
        let (entries, values) = generate::original_entries(&mut random, columns);
        let mut row = generate::original_row(&schema, number, &entries, &values);
        damage(&mut random, &mut row);
        let plan = make_plan(&schema, number).unwrap();
        let opened = plan.open(&row);
        for column in 0..columns.len() + 2 {
            let walk = look_up(&schema, number, &row, column);
            assert_eq!(plan.look_up(&row, column), walk);
            if let Ok(opened) = opened {
                assert_eq!(opened.look_up(&plan, column), walk);
            }
        }
    }
}

#[test]
fn plans_and_their_numbers_go_by_the_columns() {
    let mut random = Random::new(11);
    let mut same = 0;
    for _ in 0..ROUNDS {
        let (schema, file) = generate::schema_file(&mut random);
        let numbers: Vec<usize> = (0..file.schema_count()).collect();
        for pair in numbers.windows(2) {
            let [first, second] = [pair[0], pair[1]].map(|number| file.columns_at(number));
            let plans = [pair[0], pair[1]].map(|number| make_plan(&schema, number).unwrap());
            assert_eq!(plans[0] == plans[1], first == second);
            assert_eq!(plans[0].numbers() == plans[1].numbers(), first == second);
            same += usize::from(first == second);
        }
    }
    assert!(same > 0);
}

#[test]
fn an_update_changes_what_it_carries() {
    let mut random = Random::new(3);
    for _ in 0..ROUNDS {
        let (schema, file) = generate::schema_file(&mut random);
        let (number, columns) = any_schema(&mut random, &file);
        let (entries, values) = generate::original_entries(&mut random, columns);
        let row = generate::original_row(&schema, number, &entries, &values);
        let (changes, new_values) = generate::update_entries(&mut random, columns);
        let mut update = generate::update_row(&schema, number, &changes, &new_values);
        update.push(random.byte());
        for (index, change) in changes.iter().enumerate() {
            let answer = current(&schema, number, &row, &update, index).unwrap();
            match (change, answer) {
                (Entry::Unchanged, Current::Original(answer)) => {
                    assert_eq!(look_up(&schema, number, &row, index), Ok(answer));
                }
                (Entry::Null, Current::Forced) => {}
                (
                    Entry::Value { start, end },
                    Current::Updated {
                        place,
                        prefixes: count,
                    },
                ) => {
                    assert_eq!(update[place], new_values[*start..*end]);
                    assert_eq!(count, prefixes(&columns[..=index], &changes[..=index]));
                }
                (change, answer) => panic!("{change:?} gives {answer:?}"),
            }
        }
    }
}

#[test]
fn a_section_gives_its_table() {
    let mut random = Random::new(4);
    for _ in 0..ROUNDS {
        let (schema, file) = generate::schema_file(&mut random);
        let (section, wanted) = generate::section(&mut random, &schema, &file);
        let rows = wanted.len() / 4;
        assert_eq!(check_section(&schema, &section), Ok(rows));
        let mut table = vec![0xAAAA_AAAA; wanted.len() + 3];
        assert_eq!(list_section(&schema, &section, &mut table), Ok(rows));
        assert_eq!(table[..wanted.len()], wanted);
        assert_eq!(table[wanted.len()..], [0xAAAA_AAAA; 3]);
        if let Some(room) = wanted.len().checked_sub(1) {
            let mut table = vec![0xAAAA_AAAA; room];
            let error = Error::new(ErrorCode::Capacity, rows, Input::Table);
            assert_eq!(list_section(&schema, &section, &mut table), Err(error));
            assert_eq!(table, vec![0xAAAA_AAAA; room]);
        }
    }
}

#[test]
fn damage_never_breaks_a_reader() {
    let mut random = Random::new(5);
    for _ in 0..ROUNDS {
        let (schema, file) = generate::schema_file(&mut random);
        let (mut section, wanted) = generate::section(&mut random, &schema, &file);
        damage(&mut random, &mut section);
        let mut table = vec![7; wanted.len()];
        let listed = list_section(&schema, &section, &mut table);
        if listed.is_err() {
            assert_eq!(table, vec![7; wanted.len()]);
        }
        // A check needs no room.
        let counted = match listed {
            Err(error) if error.code == ErrorCode::Capacity => Ok(error.offset),
            other => other,
        };
        assert_eq!(check_section(&schema, &section), counted);
        let (number, columns) = any_schema(&mut random, &file);
        let (changes, values) = generate::update_entries(&mut random, columns);
        let mut update = generate::update_row(&schema, number, &changes, &values);
        damage(&mut random, &mut update);
        for column in 0..columns.len() {
            let _ = current(&schema, number, &[], &update, column);
        }
        let mut damaged = schema.clone();
        damage(&mut random, &mut damaged);
        let _ = read_schema(&damaged);
    }
}
