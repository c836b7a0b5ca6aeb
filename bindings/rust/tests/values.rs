//! The recorded feed with binary values: each one, read by the type in its Relation, is what Rust's conversions make of it.
use kitsoriqu::{read, Column, Message, Refusal, RelationColumn, Tuple, Value};
use std::collections::BTreeMap;

#[path = "compare/layouts.rs"]
#[allow(dead_code)]
mod layouts;
#[path = "support/trace.rs"]
#[allow(dead_code)]
mod trace;
#[path = "support/tuples.rs"]
mod tuples;
#[path = "compare/typed.rs"]
#[allow(dead_code)]
mod typed;
use layouts::Reader;
use tuples::tuples;

const TRACE: &[u8] = include_bytes!("../../../crates/feeds/data/binary.v1b.trace");

/// The column types of each relation, and how many values there were of each type; nulls are of type 0.
#[derive(Default)]
struct Feed {
    types: BTreeMap<u64, Vec<u32>>,
    counts: BTreeMap<u32, usize>,
}

impl Feed {
    /// Takes up a Relation, or gives the types of a change's relation and where its tuples start.
    fn next(&mut self, bytes: &[u8]) -> Option<(Vec<u32>, Vec<u64>)> {
        let [kind, _, relation, c, d, e, _, _, h, i, ..] = layouts::read(1, false, bytes).unwrap();
        if kind == 4 {
            let mut reader = Reader { bytes, at: i };
            self.types.insert(relation, (0..h).map(|_| reader.relation_column().unwrap()[3] as u32).collect());
        }
        let tuples = match kind {
            6 => vec![c],
            7 if c != 0 => vec![d, e],
            7 => vec![e],
            8 => vec![d],
            _ => return None,
        };
        Some((self.types[&relation].clone(), tuples))
    }

    /// Steps through a tuple column by column, beside the layouts.
    fn compare(&mut self, mut tuple: Tuple, types: &[u32], bytes: &[u8], start: u64) {
        let mut reader = Reader { bytes, at: start };
        assert_eq!(reader.any(2), Ok(types.len() as u64));
        for &type_oid in types {
            let at = reader.at;
            let [letter, start, length, ..] = reader.column().unwrap();
            let given = tuple.value(type_oid);
            if letter == u64::from(b'b') {
                let part = &bytes[start as usize..][..length as usize];
                compare_value(given.unwrap().unwrap(), part, type_oid, bytes);
                *self.counts.entry(type_oid).or_default() += 1;
            } else {
                assert_eq!(given, Err(Refusal { number: Refusal::FIELD, offset: at }));
                assert_eq!(tuple.next(), Some(Column::Null));
                *self.counts.entry(0).or_default() += 1;
            }
        }
        assert_eq!(tuple.value(0), Ok(None));
    }
}

fn compare_value(value: Value, part: &[u8], type_oid: u32, bytes: &[u8]) {
    let expected = typed::value(part, type_oid).unwrap();
    assert_eq!(typed::numbers_of(value, bytes), typed::numbers_of(expected, bytes));
    let mut out = [0xAA; 64];
    assert_eq!(value.write(&mut out), Ok(part.len()));
    assert_eq!(&out[..part.len()], part);
    assert!(out[part.len()..].iter().all(|&byte| byte == 0xAA));
}

#[test]
fn every_value_of_the_feed() {
    let mut feed = Feed::default();
    for bytes in trace::messages(TRACE).unwrap() {
        let Some((types, starts)) = feed.next(bytes) else { continue };
        let tuples = tuples(read(1, false, bytes).unwrap());
        assert_eq!(tuples.len(), starts.len());
        for (tuple, start) in tuples.into_iter().zip(starts) {
            feed.compare(tuple, &types, bytes, start);
        }
    }
    println!("{} values: {:?}", feed.counts.values().sum::<usize>(), feed.counts);
    let counts = [
        (0, 139),
        (16, 2013),
        (17, 2010),
        (20, 2015),
        (21, 2015),
        (23, 4043),
        (25, 2013),
        (700, 2015),
        (701, 2015),
        (1184, 2015),
        (1700, 2015),
    ];
    assert_eq!(feed.counts, counts.into());
}

fn words(value: Value) -> String {
    match value {
        Value::Bool(is) => is.to_string(),
        Value::Int2(number) => number.to_string(),
        Value::Int4(number) => number.to_string(),
        Value::Int8(number) => number.to_string(),
        Value::Float4(number) => format!("{number:?}"),
        Value::Float8(number) => format!("{number:?}"),
        Value::TimestampTz(time) => time.to_string(),
        Value::Raw(part) => format!("{} bytes", part.len()),
    }
}

/// The values of an Insert of the feed.
fn row(message: usize) -> String {
    let messages = trace::messages(TRACE).unwrap();
    let Message::Relation { columns, .. } = read(1, false, messages[1]).unwrap() else { panic!("message 1 is a Relation") };
    let Message::Insert { mut new, .. } = read(1, false, messages[message]).unwrap() else { panic!("message {message} is an Insert") };
    let next = |column: RelationColumn| match new.value(column.type_oid) {
        Ok(value) => words(value.unwrap()),
        Err(_) => format!("{:?}", new.next().unwrap()),
    };
    columns.map(next).collect::<Vec<_>>().join(", ")
}

#[test]
fn rows_of_the_feed() {
    let rows = [
        (2, "1, true, -32768, -2147483648, -9223372036854775808, NaN, NaN, -infinity, 8 bytes, 3 bytes, 2 bytes"),
        (3, "2, false, 32767, 2147483647, 9223372036854775807, inf, inf, infinity, 12 bytes, 0 bytes, 0 bytes"),
        (4, "3, Null, -1, -1, -1, -inf, -inf, 1970-01-01 00:00:00+00, 8 bytes, Null, Null"),
        (6, "5, false, 1, 1, 1, 1e-45, 5e-324, 2262-04-11 23:47:16.854775+00, 10 bytes, 2 bytes, Null"),
        (8, "7, true, 7, 7, 7, 3.4028235e38, 1.7976931348623157e308, 4713-01-01 00:00:00+00 BC, 14 bytes, 1 bytes, 1 bytes"),
    ];
    for (message, values) in rows {
        assert_eq!(row(message), values);
    }
}
