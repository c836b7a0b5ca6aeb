//! The binary values of a feed's accepted changes, counted and summed as the program of `crates/feeds` prints them.
use crate::tuples::tuples;
use kitsoriqu::{read, Answer, Column, Message, Session, TimestampTz, Tuple, Value};
use std::fmt::Write;

/// How many whole numbers, and their sum in 64 bits.
#[derive(Default)]
struct Integers {
    count: u64,
    sum: i64,
}

impl Integers {
    fn add(&mut self, number: i64) {
        self.count += 1;
        self.sum = self.sum.wrapping_add(number);
    }
}

/// How many floats, NaNs, infinities, subnormals and those below 0, and all patterns, exclusive-or.
#[derive(Default)]
struct Floats {
    count: u64,
    nans: u64,
    infinities: u64,
    subnormals: u64,
    negatives: u64,
    bits: u64,
}

impl Floats {
    fn add(&mut self, number: f64, is_subnormal: bool, bits: u64) {
        self.count += 1;
        self.nans += u64::from(number.is_nan());
        self.infinities += u64::from(number.is_infinite());
        self.subnormals += u64::from(is_subnormal);
        self.negatives += u64::from(number < 0.0);
        self.bits ^= bits;
    }

    fn line(&self, name: &str) -> String {
        let Floats { count, nans, infinities, subnormals, negatives, bits } = self;
        format!("{count} {name}: {nans} NaN, {infinities} infinite, {subnormals} subnormal, {negatives} below 0, all bits xor {bits}\n")
    }
}

#[derive(Default)]
struct Sums {
    bools: Integers,
    int2s: Integers,
    int4s: Integers,
    int8s: Integers,
    float4s: Floats,
    float8s: Floats,
    times: Vec<i64>,
    raws: Integers,
}

impl Sums {
    fn add(&mut self, value: Value) {
        match value {
            Value::Bool(is) => self.bools.add(is.into()),
            Value::Int2(number) => self.int2s.add(number.into()),
            Value::Int4(number) => self.int4s.add(number.into()),
            Value::Int8(number) => self.int8s.add(number),
            Value::Float4(number) => self.float4s.add(number.into(), number.is_subnormal(), number.to_bits().into()),
            Value::Float8(number) => self.float8s.add(number, number.is_subnormal(), number.to_bits()),
            Value::TimestampTz(TimestampTz(time)) => self.times.push(time),
            Value::Raw(part) => self.raws.add(part.len() as i64),
        }
    }

    /// The binary columns of a tuple, by the types of its relation's columns; each is written back to the same bytes.
    fn add_tuple(&mut self, mut tuple: Tuple, types: &[u32]) {
        for &type_oid in types {
            let Some(Column::Binary(part)) = tuple.clone().next() else {
                tuple.next();
                continue;
            };
            let value = tuple.value(type_oid).unwrap().unwrap();
            let mut out = vec![0; part.len()];
            assert_eq!(value.write(&mut out), Ok(part.len()));
            assert_eq!(out, part);
            self.add(value);
        }
    }

    fn count(&self) -> u64 {
        let integers = [&self.bools, &self.int2s, &self.int4s, &self.int8s, &self.raws].map(|sum| sum.count);
        integers.iter().sum::<u64>() + self.float4s.count + self.float8s.count + self.times.len() as u64
    }

    fn lines(&self) -> String {
        let mut lines = String::new();
        let Sums { bools, int2s, int4s, int8s, float4s, float8s, times, raws } = self;
        writeln!(lines, "{} binary values read and written back", self.count()).unwrap();
        writeln!(lines, "{} bool, true: {}", bools.count, bools.sum).unwrap();
        for (name, sum) in [("int2", int2s), ("int4", int4s), ("int8", int8s)] {
            writeln!(lines, "{} {name}, sum {}", sum.count, sum.sum).unwrap();
        }
        lines += &float4s.line("float4");
        lines += &float8s.line("float8");
        let sum = times.iter().fold(0, |sum: i64, &time| sum.wrapping_add(time));
        writeln!(lines, "{} timestamptz, sum {sum}", times.len()).unwrap();
        writeln!(lines, "times from {} to {}", times.iter().min().unwrap(), times.iter().max().unwrap()).unwrap();
        writeln!(lines, "{} of other types, bytes {}", raws.count, raws.sum).unwrap();
        lines
    }
}

/// The lines of a feed, none where it has no binary value. A change's types are those of the Relation that its answer names.
pub fn lines(version: u32, messages: &[&[u8]]) -> String {
    let mut session = Session::new(version);
    let mut sums = Sums::default();
    let mut places = vec![];
    let mut in_block = false;
    for (index, &bytes) in messages.iter().enumerate() {
        places.push(in_block);
        if let Ok(Answer::Change { tag, .. }) = session.give(bytes, index as u64) {
            let Ok(Message::Relation { columns, .. }) = read(version, places[tag as usize], messages[tag as usize]) else {
                panic!("a Relation")
            };
            let types: Vec<_> = columns.map(|column| column.type_oid).collect();
            tuples(read(version, in_block, bytes).unwrap()).into_iter().for_each(|tuple| sums.add_tuple(tuple, &types));
        }
        in_block = match bytes[0] {
            b'S' => true,
            b'E' => false,
            _ => in_block,
        };
    }
    if sums.count() == 0 {
        String::new()
    } else {
        sums.lines()
    }
}
