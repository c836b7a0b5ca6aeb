//! A streamed transaction of many announcements beside common ones, and its end.
use crate::feed::Made;
use crate::messages::{begin, commit, insert, relation, stream_abort, stream_commit, stream_start, stream_stop, ONE_COLUMN};
use std::iter::once;
use std::ops::Range;

/// Of these tables the first have a common announcement and the last one of the streamed transaction; 64 have both.
const TABLES: Range<u32> = 0..164;
const COMMON: Range<u32> = 0..100;
const STREAMED: Range<u32> = 36..164;

const XID: &[u8] = &[0, 0, 0, 7];

/// In no simple order.
fn oid(table: u32) -> u32 {
    100_000 + table * 7919 % TABLES.end
}

fn transaction(inside: impl Iterator<Item = Vec<u8>>) -> Vec<Vec<u8>> {
    once(begin()).chain(inside).chain([commit()]).collect()
}

/// The first block of the streamed transaction.
fn block(inside: impl Iterator<Item = Vec<u8>>) -> Vec<Vec<u8>> {
    once(stream_start(XID, true)).chain(inside).chain([stream_stop()]).collect()
}

/// After the end, Inserts into all tables tell what is common and what is still the streamed transaction's own.
fn ended(name: &str, end: Vec<u8>) -> Made {
    let messages = [
        transaction(COMMON.map(|table| relation(&[], oid(table), ONE_COLUMN))),
        block(STREAMED.map(|table| relation(XID, oid(table), ONE_COLUMN))),
        vec![end],
        transaction(TABLES.map(|table| insert(&[], oid(table)))),
        block(TABLES.map(|table| insert(XID, oid(table)))),
    ];
    Made { name: format!("{name} of {} announcements", STREAMED.len()), version: 2, messages: messages.concat() }
}

/// The streamed transaction with each of its ends.
pub fn ends() -> [Made; 2] {
    [ended("Stream Commit", stream_commit(XID)), ended("Stream Abort", stream_abort(XID, XID))]
}

/// Where the end stands.
pub fn end_of(messages: &[&[u8]]) -> usize {
    messages.iter().position(|message| matches!(message.first(), Some(b'c' | b'A'))).expect("a streamed transaction that ends")
}
