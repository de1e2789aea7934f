//! What the crate `adtg` makes of the archive's replies: the rows of a table, look-ups through a
//! plan and in an opened row, batches, entries of the row writers. All against the reading.

use adtg::{Owner, Plan, Row, RowKind, Rows, Span, PAGE_SPAN_NUMBERS};
use compare::generate;
use compare::random::Random;
use compare::reading::batch::find_column;
use compare::reading::encode::Entry;
use compare::reading::page::{list_by, walk, Asked};
use compare::reading::row::{look_up, Answer};
use compare::reading::schema::SchemaFile;
use compare::reading::update::{current, Current};
use compare::reading::Error;

const ROUNDS: usize = 300;

/// An answer of the crate, with the reading's types.
fn own<T, U: From<T>>(answer: Result<T, adtg::Error>) -> Result<U, Error> {
    answer.map(U::from).map_err(Error::from)
}

/// The schema of a row, by its number.
fn schema_of(schemas: &SchemaFile, row: &Row) -> usize {
    row.child_id
        .map_or(0, |id| schemas.index_of_id(id).expect("the id is known"))
}

/// All numbers of a row.
fn numbers(row: Row) -> [u32; 4] {
    let place = |place: usize| u32::try_from(place).expect("sections are small");
    [
        row.kind.code(),
        row.child_id.unwrap_or(0),
        place(row.original),
        row.update.map_or(0, place),
    ]
}

#[test]
fn rows_of_a_section_and_their_columns_are_the_readings() {
    let mut random = Random::new(1);
    for _ in 0..ROUNDS {
        let (file, schemas) = generate::schema_file(&mut random);
        let (section, wanted) = generate::section(&mut random, &file, &schemas);
        let mut table = vec![0; wanted.len() + 3];
        let rows = adtg::list_section(&file, &section, &mut table).expect("the section is sound");
        assert_eq!(rows.numbers(), wanted);
        assert_eq!(adtg::check_section(&file, &section), Ok(rows.len()));
        let listed: Vec<u32> = rows.iter().flat_map(numbers).collect();
        assert_eq!(listed, wanted);
        for row in rows.iter() {
            let number = schema_of(&schemas, &row);
            let plan = Plan::make(&file, number).expect("the schema is sound");
            let data = &section[row.original..];
            let handle = plan.open(data).expect("the row is sound");
            for column in 0..=schemas.columns_at(number).len() {
                let walk = look_up(&file, number, data, column);
                assert_eq!(own(plan.look_up(data, column)), walk);
                assert_eq!(own(handle.look_up(column)), walk);
                assert_eq!(own(adtg::look_up(&file, number, data, column)), walk);
                if let Ok(Answer::Field { place, .. }) = walk {
                    let part = plan.look_up(data, column).unwrap().part(data);
                    assert_eq!(part, Some(&data[place]));
                }
            }
        }
    }
}

#[test]
fn batches_are_the_look_ups_row_by_row() {
    let mut random = Random::new(4);
    let mut found = 0;
    for _ in 0..ROUNDS {
        let (file, schemas) = generate::schema_file(&mut random);
        let (section, wanted) = generate::section(&mut random, &file, &schemas);
        let mut table = vec![0; wanted.len()];
        let rows = adtg::list_section(&file, &section, &mut table).expect("the section is sound");
        for number in 0..schemas.schema_count() {
            let id = schemas.id_at(number);
            let owner = id.map_or(Owner::Parents, Owner::Child);
            let plan = Plan::make(&file, number).expect("the schema is sound");
            let columns = schemas.columns_at(number);
            let own: Vec<Row> = rows.iter().filter(|row| row.child_id == id).collect();
            for column in 0..columns.len() {
                let mut numbers = vec![9; 2 * own.len() + 1];
                let batch = plan.find_column(&section, rows.numbers(), owner, column, &mut numbers);
                let spans: Vec<Span> = batch.expect("the rows are sound").iter().collect();
                let one_by_one = own.iter().map(|row| {
                    let data = &section[row.original..];
                    match look_up(&file, number, data, column).expect("the row is sound") {
                        Answer::Field { place, .. } => Span::Field {
                            start: row.original + place.start,
                            end: row.original + place.end,
                        },
                        Answer::Null => Span::Null,
                        Answer::Chapter => Span::Chapter,
                    }
                });
                assert_eq!(spans, one_by_one.collect::<Vec<Span>>());
                let mut ours = vec![9; numbers.len()];
                let count = find_column(
                    columns,
                    &section,
                    &wanted,
                    owner.number(),
                    column,
                    &mut ours,
                );
                assert_eq!((count, ours), (Ok(own.len()), numbers));
                found += spans.len();
            }
        }
    }
    assert!(found > ROUNDS, "{found}");
}

/// All spans of an owner's rows: those of the iterator, and those of pages with so much room.
fn spans_of(
    plan: &Plan,
    section: &[u8],
    rows: Rows,
    asked: (Owner, usize),
    room: usize,
) -> Result<Vec<(usize, Span)>, adtg::Error> {
    let (owner, column) = asked;
    let listed: Result<Vec<(usize, Span)>, _> =
        plan.column_spans(section, rows, owner, column).collect();
    let mut pages = Vec::new();
    let mut from = 0;
    let paged = loop {
        let mut numbers = vec![9; room * PAGE_SPAN_NUMBERS + 2];
        match plan.find_page(section, rows, from, owner, column, &mut numbers) {
            Ok(page) => {
                pages.extend(page.spans.iter());
                from = page.next;
                if page.is_last() {
                    break Ok(pages);
                }
            }
            Err(error) => break Err(error),
        }
    };
    assert_eq!(paged, listed);
    listed
}

#[test]
fn pages_are_the_look_ups_row_by_row() {
    let mut random = Random::new(4);
    let mut found = 0;
    for _ in 0..ROUNDS {
        let (file, schemas) = generate::schema_file(&mut random);
        let (section, wanted) = generate::section(&mut random, &file, &schemas);
        let mut table = vec![0; wanted.len()];
        let rows = adtg::list_section(&file, &section, &mut table).expect("the section is sound");
        for number in 0..schemas.schema_count() {
            let id = schemas.id_at(number);
            let owner = id.map_or(Owner::Parents, Owner::Child);
            let plan = Plan::make(&file, number).expect("the schema is sound");
            let columns = schemas.columns_at(number);
            let numbered = rows.iter().enumerate();
            let own: Vec<(usize, Row)> = numbered.filter(|(_, row)| row.child_id == id).collect();
            for column in 0..columns.len() {
                let room = random.between(1, own.len() + 1);
                let spans = spans_of(&plan, &section, rows, (owner, column), room);
                let spans = spans.expect("the rows are sound");
                let one_by_one = own.iter().map(|(number_of_row, row)| {
                    let data = &section[row.original..];
                    let span = match look_up(&file, number, data, column).expect("it is sound") {
                        Answer::Field { place, .. } => Span::Field {
                            start: row.original + place.start,
                            end: row.original + place.end,
                        },
                        Answer::Null => Span::Null,
                        Answer::Chapter => Span::Chapter,
                    };
                    (*number_of_row, span)
                });
                assert_eq!(spans, one_by_one.collect::<Vec<(usize, Span)>>());
                let asked = Asked {
                    section: &section,
                    table: &wanted,
                    rows: rows.len(),
                    from: 0,
                    owner: owner.number(),
                    column,
                };
                let (list, error) = list_by(walk(columns, column), &asked);
                let kept = adtg::PageSpans::from_numbers(list.as_flattened());
                let kept = kept.expect("they are spans").iter();
                assert_eq!((kept.collect(), error), (spans.clone(), None));
                found += spans.len();
            }
        }
    }
    assert!(found > ROUNDS, "{found}");
}

#[test]
fn current_values_of_changed_rows_are_the_readings() {
    let mut random = Random::new(2);
    let mut changed = 0;
    for _ in 0..ROUNDS {
        let (file, schemas) = generate::schema_file(&mut random);
        let (section, wanted) = generate::section(&mut random, &file, &schemas);
        let mut table = vec![0; wanted.len()];
        let rows = adtg::list_section(&file, &section, &mut table).expect("the section is sound");
        for row in rows.iter().filter(|row| row.kind == RowKind::ChildChanged) {
            changed += 1;
            let number = schema_of(&schemas, &row);
            let (data, update) = (&section[row.original..], &section[row.update.unwrap()..]);
            for column in 0..=schemas.columns_at(number).len() {
                let value = adtg::current(&file, number, data, update, column);
                let wanted = current(&file, number, data, update, column);
                assert_eq!(own(value), wanted);
                let bytes = match wanted {
                    Ok(Current::Updated { place, .. }) => Some(&update[place]),
                    Ok(Current::Original(Answer::Field { place, .. })) => Some(&data[place]),
                    _ => None,
                };
                let part = value.ok().and_then(|value| value.part(data, update));
                assert_eq!(part, bytes);
            }
        }
    }
    assert!(changed > ROUNDS / 10, "{changed}");
}

#[test]
fn entries_write_the_rows_of_the_reading() {
    let mut random = Random::new(3);
    let entry = |entry: &Entry| match *entry {
        Entry::Null => adtg::Entry::Null,
        Entry::Unchanged => adtg::Entry::Unchanged,
        Entry::Value { start, end } => adtg::Entry::Value { start, end },
        Entry::Unknown => unreachable!("no sound row has such an entry"),
    };
    for _ in 0..ROUNDS {
        let (file, schemas) = generate::schema_file(&mut random);
        let number = random.below(schemas.schema_count());
        let columns = schemas.columns_at(number);

        let (entries, values) = generate::original_entries(&mut random, columns);
        let row = generate::original_row(&file, number, &entries, &values);
        let entries: Vec<adtg::Entry> = entries.iter().map(entry).collect();
        let mut output = vec![0; row.len() + 5];
        let written = adtg::write_original(&file, number, &entries, &values, 5, &mut output);
        assert_eq!(written, Ok(row.len()));
        assert_eq!(output[5..], row);

        let (entries, values) = generate::update_entries(&mut random, columns);
        let update = generate::update_row(&file, number, &entries, &values);
        let entries: Vec<adtg::Entry> = entries.iter().map(entry).collect();
        let mut output = vec![0; update.len() + 5];
        let written = adtg::write_update(&file, number, &entries, &values, 5, &mut output);
        assert_eq!(written, Ok(update.len()));
        assert_eq!(output[5..], update);
    }
}
