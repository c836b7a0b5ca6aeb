//! A recorded feed of binary values, of protocol version 1, with the types of its columns; and mistakes in it.
use crate::feed::{Feed, Made};
use crate::trace;
use baseline::{read_message, Column, Message};
use std::collections::HashMap;

const TRACE: &[u8] = include_bytes!("../../crates/feeds/data/binary.v1b.trace");
const VERSION: u32 = 1;

pub fn recorded() -> Feed<'static> {
    let messages = trace::messages(TRACE).expect("a trace");
    let types = types(&messages);
    Feed::new("binary.v1b.trace".into(), VERSION, messages).with_types(types)
}

/// Of each change the types of its relation's columns; of another message none.
fn types(messages: &[&[u8]]) -> Vec<&'static [u32]> {
    let mut known: HashMap<u32, &'static [u32]> = HashMap::new();
    let types = |bytes: &&[u8]| match read_message(VERSION, false, bytes) {
        Ok(Message::Relation { relation, columns, .. }) => {
            known.insert(relation, column_types(columns).leak());
            &[]
        }
        Ok(Message::Insert { relation, .. } | Message::Update { relation, .. } | Message::Delete { relation, .. }) => known[&relation],
        _ => &[],
    };
    messages.iter().map(types).collect()
}

/// A column is a flag, a name with its zero byte, the type's OID and the modifier.
fn column_types(mut columns: &[u8]) -> Vec<u32> {
    let mut types = vec![];
    while let Some(length) = columns.iter().skip(1).position(|&byte| byte == 0) {
        let (oid, rest) = columns[length + 2..].split_first_chunk().expect("an OID");
        types.push(u32::from_be_bytes(*oid));
        columns = &rest[4..];
    }
    types
}

/// The bytes of each binary column of a message outside a block.
pub fn binary_columns(version: u32, bytes: &[u8]) -> Vec<&[u8]> {
    let tuples = match read_message(version, false, bytes) {
        Ok(Message::Insert { new, .. }) => vec![new],
        Ok(Message::Update { old, new, .. }) => old.map(|(_, old)| old).into_iter().chain([new]).collect(),
        Ok(Message::Delete { old, .. }) => vec![old],
        _ => vec![],
    };
    let bytes = |column| if let Column::Binary(bytes) = column { Some(bytes) } else { None };
    tuples.iter().flat_map(|tuple| tuple.columns()).filter_map(bytes).collect()
}

/// How many copies of each message have a byte changed: one of its bits, in each copy another.
const COPIES: usize = 8;

pub fn changed(feed: &Feed) -> Made {
    let copy = |(index, bytes): (usize, &[u8])| {
        let mut bytes = bytes.to_vec();
        // in no simple order
        let at = (index as u32).wrapping_mul(2_654_435_761) as usize / 256 % bytes.len();
        bytes[at] ^= 1 << (index % COPIES);
        bytes
    };
    let messages = feed.messages.iter().flat_map(|bytes| [*bytes; COPIES]).enumerate().map(copy).collect();
    Made { name: format!("{}, {COPIES} copies with a byte changed", feed.name), version: VERSION, messages }
}

pub fn with_types_of<'a>(changed: &'a Made, feed: &Feed) -> Feed<'a> {
    Feed::of(changed).with_types(feed.types.iter().flat_map(|types| [*types; COPIES]).collect())
}

/// The same messages, read by the types of other columns.
pub fn by_other_types<'a>(feed: &Feed<'a>) -> Feed<'a> {
    let other = |(index, types): (usize, &&[u32])| -> &'static [u32] {
        let mut types = types.to_vec();
        let by = index % types.len().max(1);
        types.rotate_left(by);
        types.leak()
    };
    let types = feed.types.iter().enumerate().map(other).collect();
    Feed::new(format!("{}, by the types of other columns", feed.name), VERSION, feed.messages.clone()).with_types(types)
}
