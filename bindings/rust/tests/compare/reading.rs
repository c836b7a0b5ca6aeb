use crate::ffi;
use crate::generate::{damage, message, setting, Draft};
use crate::layouts::{self, Reader};
use crate::lent::{refused, Lent};
use crate::rng::Rng;
use crate::tally::Tally;
use kitsoriqu::{read, Column, Columns, Decoded, Message, Oids, OldTuple, Refusal, Tuple};

/// The library's answer on some bytes, as numbers and as a typed message, is that of the layouts. Gives the refusal's number or 0.
fn compare(version: u32, in_block: bool, bytes: &[u8]) -> u32 {
    let expected = layouts::read(version, in_block, bytes);
    let before = bytes.to_vec();
    let mut out = Lent::numbers();
    let number = ffi::read(version, in_block, bytes, &mut out.value);
    let given = (number, out.back());
    assert!(bytes == before, "the message was touched");
    match expected {
        Ok(flat) => {
            assert_eq!(given, (0, flat), "version {version}, in block {in_block}: {bytes:02X?}");
            let decoded = Decoded::read(version, in_block, bytes).unwrap();
            assert_eq!(decoded.fields().0, flat);
            compare_typed(decoded.message(), &flat, bytes);
        }
        Err((number, offset)) => {
            assert_eq!(given, (number, refused(offset)), "version {version}, in block {in_block}: {bytes:02X?}");
            assert_eq!(read(version, in_block, bytes).unwrap_err(), Refusal { number, offset });
        }
    }
    number
}

/// The very part of the message that a text or content is.
fn same_part(part: &[u8], bytes: &[u8], start: u64, length: u64) {
    assert_eq!((part.as_ptr() as u64, part.len() as u64), (bytes.as_ptr() as u64 + start, length));
}

fn same_tuple(tuple: Tuple, bytes: &[u8], start: u64) {
    let mut reader = Reader { bytes, at: start };
    assert_eq!(tuple.len() as u64, reader.any(2).unwrap());
    for column in tuple {
        let [letter, start, length, ..] = reader.column().unwrap();
        let value = match column {
            Column::Null => (b'n', None),
            Column::Unchanged => (b'u', None),
            Column::Text(value) => (b't', Some(value)),
            Column::Binary(value) => (b'b', Some(value)),
        };
        assert_eq!(u64::from(value.0), letter);
        if let Some(value) = value.1 {
            same_part(value, bytes, start, length);
        }
    }
}

fn same_old(old: OldTuple<Tuple>, bytes: &[u8], letter: u64, start: u64) {
    let (expected, tuple) = match old {
        OldTuple::Key(tuple) => (b'K', tuple),
        OldTuple::Full(tuple) => (b'O', tuple),
    };
    assert_eq!(letter, expected.into());
    same_tuple(tuple, bytes, start);
}

fn same_columns(columns: Columns, bytes: &[u8], count: u64, start: u64) {
    let mut reader = Reader { bytes, at: start };
    assert_eq!(columns.len() as u64, count);
    for column in columns {
        let [key, start, length, type_oid, modifier] = reader.relation_column().unwrap();
        same_part(column.name, bytes, start, length);
        assert_eq!([column.is_key.into(), column.type_oid.into(), u64::from(column.modifier as u32)], [key, type_oid, modifier]);
    }
}

fn same_oids(oids: Oids, bytes: &[u8], count: u64, start: u64) {
    let mut reader = Reader { bytes, at: start };
    assert_eq!(oids.len() as u64, count);
    for oid in oids {
        assert_eq!(u64::from(oid), reader.oid().unwrap()[0]);
    }
}

fn compare_typed(message: Message, flat: &[u64; 16], bytes: &[u8]) {
    let [k, a, b, c, d, e, f, g, h, i, ..] = *flat;
    let block = |xid: Option<u32>| u64::from(xid.unwrap_or(0));
    match message {
        Message::Begin { final_lsn, time, xid } => assert_eq!([1, final_lsn, time as u64, xid.into()], [k, a, b, c]),
        Message::Commit { commit_lsn, end_lsn, time } => assert_eq!([2, commit_lsn, end_lsn, time as u64], [k, b, c, d]),
        Message::Origin { lsn, name } => {
            assert_eq!([3, lsn], [k, a]);
            same_part(name, bytes, b, c);
        }
        Message::Relation { xid, relation, namespace, name, identity, columns } => {
            assert_eq!([4, block(xid), relation.into(), identity.letter().into()], [k, a, b, g]);
            same_part(namespace, bytes, c, d);
            same_part(name, bytes, e, f);
            same_columns(columns, bytes, h, i);
        }
        Message::Type { xid, type_oid, namespace, name } => {
            assert_eq!([5, block(xid), type_oid.into()], [k, a, b]);
            same_part(namespace, bytes, c, d);
            same_part(name, bytes, e, f);
        }
        Message::Insert { xid, relation, new } => {
            assert_eq!([6, block(xid), relation.into()], [k, a, b]);
            same_tuple(new, bytes, c);
        }
        Message::Update { xid, relation, old, new } => {
            assert_eq!([7, block(xid), relation.into()], [k, a, b]);
            match old {
                Some(old) => same_old(old, bytes, c, d),
                None => assert_eq!(c, 0),
            }
            same_tuple(new, bytes, e);
        }
        Message::Delete { xid, relation, old } => {
            assert_eq!([8, block(xid), relation.into()], [k, a, b]);
            same_old(old, bytes, c, d);
        }
        Message::Truncate { xid, cascade, restart_identity, relations } => {
            assert_eq!([9, block(xid), u64::from(cascade) + 2 * u64::from(restart_identity)], [k, a, c]);
            same_oids(relations, bytes, b, d);
        }
        Message::Logical { xid, transactional, lsn, prefix, content } => {
            assert_eq!([10, block(xid), transactional.into(), lsn], [k, a, b, c]);
            same_part(prefix, bytes, d, e);
            same_part(content, bytes, f, g);
        }
        Message::StreamStart { xid, first } => assert_eq!([11, xid.into(), first.into()], [k, a, b]),
        Message::StreamStop => assert_eq!(12, k),
        Message::StreamCommit { xid, commit_lsn, end_lsn, time } => {
            assert_eq!([13, xid.into(), commit_lsn, end_lsn, time as u64], [k, a, c, d, e])
        }
        Message::StreamAbort { xid, sub_xid } => assert_eq!([14, xid.into(), sub_xid.into()], [k, a, b]),
    }
}

#[test]
fn good_and_damaged_messages() {
    let mut rng = Rng::new(1);
    let mut tally = Tally::new();
    for _ in 0..300_000 {
        let (version, in_block) = setting(&mut rng);
        let mut bytes = message(&mut rng, in_block);
        tally.note(compare(version, in_block, &bytes));
        while !rng.one_in(3) {
            damage(&mut rng, &mut bytes);
            tally.note(compare(version, in_block, &bytes));
        }
    }
    tally.has_seen(&[0, 1, 2, 3, 4, 5, 6], 1000);
}

#[test]
fn every_prefix() {
    let mut rng = Rng::new(2);
    let mut tally = Tally::new();
    for _ in 0..4_000 {
        let in_block = rng.one_in(2);
        let mut bytes = message(&mut rng, in_block);
        bytes.truncate(200);
        for length in 0..bytes.len() {
            tally.note(compare(2, in_block, &bytes[..length]));
        }
    }
    tally.has_seen(&[2, 6], 1);
}

#[test]
fn every_first_byte() {
    let mut rng = Rng::new(3);
    let mut tally = Tally::new();
    for letter in 0..=255 {
        for length in 0..40 {
            let mut bytes = vec![letter];
            bytes.extend((0..length).map(|_| rng.byte() & 1));
            for (version, in_block) in [(0, false), (1, false), (1, true), (2, false), (2, true), (3, false)] {
                tally.note(compare(version, in_block, &bytes));
            }
        }
    }
    tally.has_seen(&[0, 1, 2, 3, 4, 5, 6], 1);
}

/// Counts at their limits, with and without that much behind them.
#[test]
fn limits() {
    let mut rng = Rng::new(4);
    let mut tally = Tally::new();
    for count in [1599, 1600, 1601, 0xFFFF] {
        let relation = Draft::new(b'R').word(5).byte(0).byte(0).byte(b'd').columns(&mut rng, count).0;
        let insert = Draft::new(b'I').word(5).byte(b'N').tuple(&mut rng, count).0;
        let update = Draft::new(b'U').word(5).byte(b'O').tuple(&mut rng, count).byte(b'N').tuple(&mut rng, count).0;
        for bytes in [relation, insert, update] {
            for cut in 0..20 {
                tally.note(compare(1, false, &bytes[..bytes.len() - cut]));
            }
        }
    }
    for count in [0, 1, 255, 256, 257] {
        let oids: Vec<u32> = (1..=count).collect();
        let truncate = Draft::new(b'T').oids(&oids, 3).0;
        for cut in 0..6 {
            tally.note(compare(1, false, &truncate[..truncate.len() - cut]));
        }
    }
    tally.has_seen(&[0, 2, 6], 9);
}

/// The largest message, and one byte more. Only few of its pages are touched.
#[test]
fn the_largest_message() {
    let largest = layouts::LARGEST as usize;
    let mut bytes = vec![0; largest + 1];
    let head = Draft::new(b'M').byte(0).long(9).byte(0).word((largest - 15) as u32).0;
    bytes[..head.len()].copy_from_slice(&head);
    for (length, expected) in [(largest - 1, 2), (largest, 0), (largest + 1, 6)] {
        let mut flat = [0; 16];
        let number = ffi::read(1, false, &bytes[..length], &mut flat);
        assert_eq!(number, expected);
        let given = if number == 0 { Ok(flat) } else { Err((number, flat[0])) };
        assert_eq!(given, layouts::read(1, false, &bytes[..length]));
    }
}
