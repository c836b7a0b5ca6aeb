//! Kitsoriqu, by its C functions.
use crate::contender::{block_after, touched, Contender, Refused, Totals, COPIES};
use crate::feed::{Feed, Span};
use crate::ffi::{self, Record};
use std::hint::black_box;

pub struct Ours<'a> {
    session: Record,
    copies: Vec<Record>,
    kept: Kept,
    kept_copy: Kept,
    batch: Vec<Read<'a>>,
    types: Vec<&'static [u32]>,
    values: Vec<Value<'a>>,
}

/// A session with a keeper.
#[derive(Clone)]
struct Kept {
    session: Record,
    buffer: Vec<u8>,
    held: usize,
}

impl Kept {
    const NONE: Kept = Kept { session: Record::ZERO, buffer: vec![], held: 0 };

    fn give(&mut self, bytes: &[u8], tag: u64, out: &mut [u8], reply: &mut [u64; ffi::REPLY]) -> u32 {
        ffi::keeper_give(&mut self.session, bytes, tag, &mut self.buffer, &mut self.held, out, reply)
    }
}

/// A message that was read.
struct Read<'a> {
    flat: [u64; ffi::FLAT],
    in_block: bool,
    bytes: &'a [u8],
}

/// Writes each, one behind the other.
fn write_each<T>(items: &[T], out: &mut [u8], write: impl Fn(&T, &mut [u8], &mut u64) -> u32) -> Totals {
    let mut totals = Totals::default();
    let mut at = 0;
    let mut result = 0;
    for item in items {
        let number = write(item, &mut out[at..], &mut result);
        black_box(&result);
        if number == 0 {
            totals.accepted += 1;
            at += result as usize;
        } else {
            totals.refused += 1;
        }
    }
    black_box(out);
    totals.sum = at as u64;
    totals
}

/// A binary value that was read, and its message.
type Value<'a> = ([u64; ffi::VALUE_FLAT], &'a [u8]);

const NEW_TUPLE: u32 = 0;
const OLD_TUPLE: u32 = 1;

impl Ours<'_> {
    pub fn new() -> Self {
        let (session, kept, kept_copy) = (Record::ZERO, Kept::NONE, Kept::NONE);
        Ours { session, copies: vec![], kept, kept_copy, batch: vec![], types: vec![], values: vec![] }
    }
}

fn settle<T>(number: u32, offset: u64, value: T) -> Result<T, Refused> {
    if number == 0 {
        Ok(value)
    } else {
        Err((number, offset))
    }
}

/// The first column of the tuple at an offset, which starts with its count.
fn first_column(bytes: &[u8], start: u64) -> [u64; 2] {
    let at = start as usize;
    [start + 2, u16::from_be_bytes([bytes[at], bytes[at + 1]]).into()]
}

/// The sections that are tuples, and where these start.
fn tuples(flat: &[u64; ffi::FLAT], mut each: impl FnMut(u32, u64)) {
    match *flat {
        [6, _, _, new, ..] => each(NEW_TUPLE, new),
        [7, _, _, letter, old, new, ..] => {
            if letter != 0 {
                each(OLD_TUPLE, old);
            }
            each(NEW_TUPLE, new);
        }
        [8, _, _, _, old, ..] => each(OLD_TUPLE, old),
        _ => {}
    }
}

fn step_through(section: u32, bytes: &[u8], start: u64, totals: &mut Totals) {
    let mut position = first_column(bytes, start);
    let mut column = [0; ffi::STEP];
    while ffi::column_step(section, bytes, &mut position, &mut column) == 0 {
        totals.accepted += 1;
        totals.sum += column[2];
    }
}

/// What `value_step` gives for each binary column of a tuple; one that it refuses is stepped past.
fn values_of(section: u32, bytes: &[u8], start: u64, types: &[u32], mut each: impl FnMut(u32, &[u64; ffi::VALUE_FLAT])) {
    let mut position = first_column(bytes, start);
    let mut value = [0; ffi::VALUE_FLAT];
    let mut column = [0; ffi::STEP];
    for type_oid in types.iter().take(position[1] as usize) {
        if bytes[position[0] as usize] == b'b' {
            let number = ffi::value_step(bytes, &mut position, *type_oid, &mut value);
            each(number, &value);
            if number == 0 {
                continue;
            }
        }
        ffi::column_step(section, bytes, &mut position, &mut column);
    }
}

fn count_value(number: u32, value: &[u64; ffi::VALUE_FLAT], totals: &mut Totals) {
    black_box(value);
    if number == 0 {
        totals.accepted += 1;
    } else {
        totals.refused += 1;
    }
}

fn give(session: &mut Record, bytes: &[u8], tag: u64, answer: &mut [u64; ffi::ANSWER], totals: &mut Totals) {
    let number = ffi::session_give(session, bytes, tag, answer);
    black_box(&*answer);
    if number == 0 {
        totals.accepted += 1;
        totals.sum += answer[1];
    } else {
        totals.refused += 1;
    }
}

fn give_kept(kept: &mut Kept, bytes: &[u8], tag: u64, out: &mut [u8], reply: &mut [u64; ffi::REPLY], totals: &mut Totals) {
    let number = kept.give(bytes, tag, out, reply);
    black_box(&*reply);
    if number == 0 {
        totals.accepted += 1;
        totals.sum += reply[1] + reply[4];
    } else {
        totals.refused += 1;
    }
}

impl<'a> Contender<'a> for Ours<'a> {
    fn name(&self) -> &'static str {
        "Kitsoriqu"
    }

    fn flat(&self, version: u32, in_block: bool, bytes: &[u8]) -> Result<[u64; 16], Refused> {
        let mut flat = [0; ffi::FLAT];
        let number = ffi::read(version, in_block, bytes, &mut flat);
        settle(number, flat[0], flat)
    }

    fn written(&self, version: u32, in_block: bool, bytes: &[u8], room: usize) -> Result<Vec<u8>, Refused> {
        let flat = self.flat(version, in_block, bytes)?;
        let mut out = vec![0; room];
        let mut result = 0;
        let number = ffi::write(version, in_block, &flat, bytes, &mut out, &mut result);
        out.truncate(result as usize);
        settle(number, result, out)
    }

    fn session_start(&mut self, version: u32) {
        ffi::session_start(&mut self.session, version);
    }

    fn session_give(&mut self, bytes: &[u8], tag: u64) -> Result<[u64; 4], Refused> {
        let mut answer = [0; ffi::ANSWER];
        let number = ffi::session_give(&mut self.session, bytes, tag, &mut answer);
        settle(number, answer[0], answer)
    }

    fn keeper_start(&mut self, version: u32, room: usize) {
        ffi::session_start(&mut self.kept.session, version);
        self.kept.buffer = touched(room);
        self.kept.held = 0;
    }

    fn keeper_give(&mut self, bytes: &[u8], tag: u64, out: &mut [u8]) -> Result<[u64; 5], Refused> {
        let mut reply = [0; ffi::REPLY];
        let number = self.kept.give(bytes, tag, out, &mut reply);
        settle(number, reply[0], reply)
    }

    fn read(&self, feed: &Feed<'a>) -> Totals {
        let mut totals = Totals::default();
        let mut in_block = false;
        let mut flat = [0; ffi::FLAT];
        for bytes in &feed.messages {
            let number = ffi::read(feed.version, in_block, bytes, &mut flat);
            black_box(&flat);
            if number == 0 {
                totals.accepted += 1;
                in_block = block_after(in_block, flat[0]);
            } else {
                totals.refused += 1;
            }
        }
        totals
    }

    fn session(&self, feed: &Feed<'a>) -> Totals {
        let mut totals = Totals::default();
        let mut session = Record::ZERO;
        ffi::session_start(&mut session, feed.version);
        let mut answer = [0; ffi::ANSWER];
        for (bytes, tag) in feed.messages.iter().zip(0..) {
            give(&mut session, bytes, tag, &mut answer, &mut totals);
        }
        totals
    }

    fn fill(&mut self, version: u32, in_block: &mut bool, messages: &[&'a [u8]], _: &[Span]) {
        self.batch.clear();
        for bytes in messages {
            if let Ok(flat) = self.flat(version, *in_block, bytes) {
                self.batch.push(Read { flat, in_block: *in_block, bytes });
                *in_block = block_after(*in_block, flat[0]);
            }
        }
    }

    fn write(&self, version: u32, out: &mut [u8]) -> Totals {
        let write = |read: &Read, out: &mut [u8], result: &mut u64| ffi::write(version, read.in_block, &read.flat, read.bytes, out, result);
        write_each(&self.batch, out, write)
    }

    fn steps(&self) -> Totals {
        let mut totals = Totals::default();
        for Read { flat, bytes, .. } in &self.batch {
            tuples(flat, |section, start| step_through(section, bytes, start, &mut totals));
        }
        totals
    }

    fn fill_values(&mut self, types: &[&'static [u32]]) -> Vec<Result<[u64; 3], Refused>> {
        let mut all = vec![];
        self.types = types.to_vec();
        self.values.clear();
        for (Read { flat, bytes, .. }, types) in self.batch.iter().zip(types) {
            let mut each = |number, value: &[u64; ffi::VALUE_FLAT]| {
                all.push(settle(number, value[0], *value));
                if number == 0 {
                    self.values.push((*value, bytes));
                }
            };
            tuples(flat, |section, start| values_of(section, bytes, start, types, &mut each));
        }
        all
    }

    fn values(&self) -> Totals {
        let mut totals = Totals::default();
        for (Read { flat, bytes, .. }, types) in self.batch.iter().zip(&self.types) {
            tuples(flat, |section, start| values_of(section, bytes, start, types, |number, value| count_value(number, value, &mut totals)));
        }
        totals
    }

    fn written_value(&self, index: usize, out: &mut [u8]) -> Result<u64, Refused> {
        let (value, source) = &self.values[index];
        let mut result = 0;
        let number = ffi::value_write(value, source, out, &mut result);
        settle(number, result, result)
    }

    fn write_values(&self, out: &mut [u8]) -> Totals {
        write_each(&self.values, out, |(value, source), out, result| ffi::value_write(value, source, out, result))
    }

    fn copy_session(&mut self) {
        self.copies = vec![self.session.clone(); COPIES];
    }

    fn give_copies(&mut self, message: &[u8]) -> Totals {
        let mut totals = Totals::default();
        let mut answer = [0; ffi::ANSWER];
        for session in &mut self.copies {
            give(session, message, 0, &mut answer, &mut totals);
        }
        totals
    }

    fn keeper(&mut self, feed: &Feed<'a>, out: &mut [u8]) -> Totals {
        let mut totals = Totals::default();
        let mut reply = [0; ffi::REPLY];
        for (bytes, tag) in feed.messages.iter().zip(0..) {
            give_kept(&mut self.kept, bytes, tag, out, &mut reply, &mut totals);
        }
        black_box(out);
        totals
    }

    fn copy_keeper(&mut self) {
        self.kept_copy.clone_from(&self.kept);
    }

    fn give_keeper_copy(&mut self, message: &[u8], out: &mut [u8]) -> Totals {
        let mut totals = Totals::default();
        give_kept(&mut self.kept_copy, message, 0, out, &mut [0; ffi::REPLY], &mut totals);
        black_box(out);
        totals
    }
}
