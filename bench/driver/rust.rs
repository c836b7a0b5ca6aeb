//! The Rust baseline.
use crate::contender::{Contender, Refused, Totals, COPIES};
use crate::feed::{Feed, Span};
use baseline::{read_message, read_value, write_message, write_value};
use baseline::{Announcement, Column, Keeper, Message, Refusal, Session, Tuple, Value};
use std::hint::black_box;

pub struct Rust<'a> {
    session: Session,
    copies: Vec<Session>,
    kept: (Session, Keeper),
    kept_copy: (Session, Keeper),
    batch: Vec<(bool, Message<'a>)>,
    /// The bytes of the batch's messages.
    sources: Vec<&'a [u8]>,
    types: Vec<&'static [u32]>,
    values: Vec<Value<'a>>,
}

impl Rust<'_> {
    pub fn new() -> Self {
        let none = (Session::new(1), Keeper::new(0));
        Rust {
            session: Session::new(1),
            copies: vec![],
            kept: none.clone(),
            kept_copy: none,
            batch: vec![],
            sources: vec![],
            types: vec![],
            values: vec![],
        }
    }
}

fn refused(refusal: Refusal) -> Refused {
    (refusal.number.into(), refusal.offset as u64)
}

fn block_after(in_block: bool, message: &Message<'_>) -> bool {
    match message {
        Message::StreamStart { .. } => true,
        Message::StreamStop => false,
        _ => in_block,
    }
}

/// The flat form that kitsoriqu.h describes: parts by where they start in the message's bytes.
fn flat(message: &Message<'_>, bytes: &[u8]) -> [u64; 16] {
    let start = |part: &[u8]| part.as_ptr() as u64 - bytes.as_ptr() as u64;
    let length = |part: &[u8]| part.len() as u64;
    let block = |xid: Option<u32>| u64::from(xid.unwrap_or(0));
    let numbers = match *message {
        Message::Begin { final_lsn, time, xid } => vec![1, final_lsn, time as u64, xid.into()],
        Message::Commit { commit_lsn, end_lsn, time } => vec![2, 0, commit_lsn, end_lsn, time as u64],
        Message::Origin { lsn, name } => vec![3, lsn, start(name), length(name)],
        Message::Relation { xid, relation, namespace, name, identity, count, columns } => vec![
            4,
            block(xid),
            relation.into(),
            start(namespace),
            length(namespace),
            start(name),
            length(name),
            identity.into(),
            count.into(),
            start(columns),
        ],
        Message::Type { xid, oid, namespace, name } => {
            vec![5, block(xid), oid.into(), start(namespace), length(namespace), start(name), length(name)]
        }
        Message::Insert { xid, relation, new } => vec![6, block(xid), relation.into(), start(new.bytes)],
        Message::Update { xid, relation, old, new } => {
            let (letter, old) = old.map_or((0, 0), |(letter, old)| (letter, start(old.bytes)));
            vec![7, block(xid), relation.into(), letter.into(), old, start(new.bytes)]
        }
        Message::Delete { xid, relation, letter, old } => vec![8, block(xid), relation.into(), letter.into(), start(old.bytes)],
        Message::Truncate { xid, options, relations } => {
            vec![9, block(xid), length(relations) / 4, options.into(), start(relations)]
        }
        Message::Logical { xid, flags, lsn, prefix, content } => {
            vec![10, block(xid), flags.into(), lsn, start(prefix), length(prefix), start(content), length(content)]
        }
        Message::StreamStart { xid, first } => vec![11, xid.into(), first.into()],
        Message::StreamStop => vec![12],
        Message::StreamCommit { xid, commit_lsn, end_lsn, time } => vec![13, xid.into(), 0, commit_lsn, end_lsn, time as u64],
        Message::StreamAbort { xid, sub_xid } => vec![14, xid.into(), sub_xid.into()],
    };
    let mut flat = [0; 16];
    flat[..numbers.len()].copy_from_slice(&numbers);
    flat
}

/// The numbers of a value, by where its bytes start in the message where it is raw.
fn flat_value(value: Value<'_>, start: u64) -> [u64; 3] {
    match value {
        Value::Bool(truth) => [16, truth.into(), 0],
        Value::Int2(number) => [21, (number as u16).into(), 0],
        Value::Int4(number) => [23, (number as u32).into(), 0],
        Value::Int8(number) => [20, number as u64, 0],
        Value::Float4(number) => [700, number.to_bits().into(), 0],
        Value::Float8(number) => [701, number.to_bits(), 0],
        Value::TimestampTz(number) => [1184, number as u64, 0],
        Value::Raw(bytes) => [0, start, bytes.len() as u64],
    }
}

fn tuples<'a>(message: &Message<'a>, mut each: impl FnMut(Tuple<'a>)) {
    match *message {
        Message::Insert { new, .. } => each(new),
        Message::Update { old, new, .. } => {
            if let Some((_, old)) = old {
                each(old);
            }
            each(new);
        }
        Message::Delete { old, .. } => each(old),
        _ => {}
    }
}

/// Each binary column of a tuple: its bytes, and what they are read as.
fn values_of<'a>(tuple: Tuple<'a>, types: &[u32], mut each: impl FnMut(&'a [u8], &baseline::Result<Value<'a>>)) {
    for (column, type_oid) in tuple.columns().zip(types) {
        if let Column::Binary(bytes) = column {
            each(bytes, &read_value(*type_oid, bytes));
        }
    }
}

fn count_value(value: &baseline::Result<Value<'_>>, totals: &mut Totals) {
    black_box(value);
    match value {
        Ok(_) => totals.accepted += 1,
        Err(_) => totals.refused += 1,
    }
}

fn step_through(tuple: Tuple<'_>, totals: &mut Totals) {
    for column in tuple.columns() {
        totals.accepted += 1;
        if let Column::Text(value) | Column::Binary(value) = column {
            totals.sum += value.len() as u64;
        }
    }
}

fn give(session: &mut Session, bytes: &[u8], tag: u64, totals: &mut Totals) {
    let answer = session.give(bytes, tag);
    black_box(&answer);
    match answer {
        Ok(seen) => {
            totals.accepted += 1;
            totals.sum += seen.map_or(0, |seen| seen.tag);
        }
        Err(_) => totals.refused += 1,
    }
}

fn give_kept((session, keeper): &mut (Session, Keeper), bytes: &[u8], tag: u64, out: &mut [u8], totals: &mut Totals) {
    let reply = keeper.give(session, bytes, tag, out);
    black_box(&reply);
    match reply {
        Ok((seen, released)) => {
            totals.accepted += 1;
            totals.sum += seen.map_or(0, |seen| seen.tag) + released as u64;
        }
        Err(_) => totals.refused += 1,
    }
}

/// 1, tag, identity and column count for a change; zeros for another message.
fn numbers(seen: Option<Announcement>) -> [u64; 4] {
    seen.map_or([0; 4], |seen| [1, seen.tag, seen.identity.into(), seen.columns.into()])
}

/// Writes each, one behind the other.
fn write_each<T, E>(items: &[T], out: &mut [u8], write: impl Fn(&T, &mut [u8]) -> Result<usize, E>) -> Totals {
    let mut totals = Totals::default();
    let mut at = 0;
    for item in items {
        let written = write(item, &mut out[at..]);
        black_box(&written);
        match written {
            Ok(length) => {
                totals.accepted += 1;
                at += length;
            }
            Err(_) => totals.refused += 1,
        }
    }
    black_box(out);
    totals.sum = at as u64;
    totals
}

impl<'a> Contender<'a> for Rust<'a> {
    fn name(&self) -> &'static str {
        "Rust"
    }

    fn flat(&self, version: u32, in_block: bool, bytes: &[u8]) -> Result<[u64; 16], Refused> {
        read_message(version, in_block, bytes).map(|message| flat(&message, bytes)).map_err(refused)
    }

    fn written(&self, version: u32, in_block: bool, bytes: &[u8], room: usize) -> Result<Vec<u8>, Refused> {
        let message = read_message(version, in_block, bytes).map_err(refused)?;
        let mut out = vec![0; room];
        let length = write_message(version, in_block, &message, &mut out).map_err(refused)?;
        out.truncate(length);
        Ok(out)
    }

    fn session_start(&mut self, version: u32) {
        self.session = Session::new(version);
    }

    fn session_give(&mut self, bytes: &[u8], tag: u64) -> Result<[u64; 4], Refused> {
        self.session.give(bytes, tag).map(numbers).map_err(refused)
    }

    fn keeper_start(&mut self, version: u32, room: usize) {
        self.kept = (Session::new(version), Keeper::new(room));
    }

    fn keeper_give(&mut self, bytes: &[u8], tag: u64, out: &mut [u8]) -> Result<[u64; 5], Refused> {
        let (session, keeper) = &mut self.kept;
        let (seen, released) = keeper.give(session, bytes, tag, out).map_err(refused)?;
        let [a, b, c, d] = numbers(seen);
        Ok([a, b, c, d, released as u64])
    }

    fn read(&self, feed: &Feed<'a>) -> Totals {
        let mut totals = Totals::default();
        let mut in_block = false;
        for bytes in &feed.messages {
            let read = read_message(feed.version, in_block, bytes);
            black_box(&read);
            match read {
                Ok(message) => {
                    totals.accepted += 1;
                    in_block = block_after(in_block, &message);
                }
                Err(_) => totals.refused += 1,
            }
        }
        totals
    }

    fn session(&self, feed: &Feed<'a>) -> Totals {
        let mut totals = Totals::default();
        let mut session = Session::new(feed.version);
        for (bytes, tag) in feed.messages.iter().zip(0..) {
            give(&mut session, bytes, tag, &mut totals);
        }
        totals
    }

    fn fill(&mut self, version: u32, in_block: &mut bool, messages: &[&'a [u8]], _: &[Span]) {
        self.batch.clear();
        self.sources.clear();
        for bytes in messages {
            if let Ok(message) = read_message(version, *in_block, bytes) {
                self.batch.push((*in_block, message));
                self.sources.push(bytes);
                *in_block = block_after(*in_block, &message);
            }
        }
    }

    fn write(&self, version: u32, out: &mut [u8]) -> Totals {
        write_each(&self.batch, out, |(in_block, message), out| write_message(version, *in_block, message, out))
    }

    fn steps(&self) -> Totals {
        let mut totals = Totals::default();
        for (_, message) in &self.batch {
            tuples(message, |tuple| step_through(tuple, &mut totals));
        }
        totals
    }

    fn fill_values(&mut self, types: &[&'static [u32]]) -> Vec<Result<[u64; 3], Refused>> {
        let mut all = vec![];
        self.types = types.to_vec();
        self.values.clear();
        for (((_, message), source), types) in self.batch.iter().zip(&self.sources).zip(types) {
            let mut each = |bytes: &'a [u8], value: &baseline::Result<_>| {
                let start = bytes.as_ptr() as u64 - source.as_ptr() as u64;
                all.push(value.map(|value| flat_value(value, start)).map_err(|why| (why.number.into(), start + why.offset as u64)));
                self.values.extend(value);
            };
            tuples(message, |tuple| values_of(tuple, types, &mut each));
        }
        all
    }

    fn values(&self) -> Totals {
        let mut totals = Totals::default();
        for ((_, message), types) in self.batch.iter().zip(&self.types) {
            tuples(message, |tuple| values_of(tuple, types, |_, value| count_value(value, &mut totals)));
        }
        totals
    }

    fn written_value(&self, index: usize, out: &mut [u8]) -> Result<u64, Refused> {
        write_value(&self.values[index], out).map(|length| length as u64).map_err(refused)
    }

    fn write_values(&self, out: &mut [u8]) -> Totals {
        write_each(&self.values, out, write_value)
    }

    fn copy_session(&mut self) {
        self.copies = vec![self.session.clone(); COPIES];
    }

    fn give_copies(&mut self, message: &[u8]) -> Totals {
        let mut totals = Totals::default();
        for session in &mut self.copies {
            give(session, message, 0, &mut totals);
        }
        totals
    }

    fn keeper(&mut self, feed: &Feed<'a>, out: &mut [u8]) -> Totals {
        let mut totals = Totals::default();
        for (bytes, tag) in feed.messages.iter().zip(0..) {
            give_kept(&mut self.kept, bytes, tag, out, &mut totals);
        }
        black_box(out);
        totals
    }

    fn copy_keeper(&mut self) {
        self.kept_copy.clone_from(&self.kept);
    }

    fn give_keeper_copy(&mut self, message: &[u8], out: &mut [u8]) -> Totals {
        let mut totals = Totals::default();
        give_kept(&mut self.kept_copy, message, 0, out, &mut totals);
        black_box(out);
        totals
    }
}
