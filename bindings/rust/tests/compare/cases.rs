//! What kinds of values and of refusals there are, so that a test can say that it saw them all.
use crate::tally::Counts;
use crate::typed::{self, TYPES};
use kitsoriqu::{TimestampTz, Value};
use std::num::FpCategory;

/// Of each type whose values are integers, and of each whose values are floats.
const INTEGERS: [&str; 4] = ["least", "largest", "negative", "zero"];
const FLOATS: [&str; 6] = ["minus zero", "infinity", "subnormal", "quiet NaN", "signalling NaN", "NaN with a sign"];

const OTHERS: [&str; 17] = [
    "false",
    "true",
    "bool beyond 1",
    "time",
    "infinite time",
    "raw",
    "raw of no bytes",
    "too short for its type",
    "too long for its type",
    "null",
    "unchanged",
    "text",
    "other letter",
    "no letter",
    "cut length",
    "negative length",
    "cut value",
];

pub struct Cases {
    integers: [Counts; 3],
    floats: [Counts; 2],
    others: Counts,
}

/// A float's case, by its class in Rust.
fn note_float(cases: &mut Counts, class: FpCategory, bits: u64, is_negative: bool, quiet: u64) {
    cases.note("infinity", class == FpCategory::Infinite);
    cases.note("subnormal", class == FpCategory::Subnormal);
    cases.note("minus zero", class == FpCategory::Zero && is_negative);
    cases.note("quiet NaN", class == FpCategory::Nan && bits & quiet != 0);
    cases.note("signalling NaN", class == FpCategory::Nan && bits & quiet == 0);
    cases.note("NaN with a sign", class == FpCategory::Nan && is_negative);
}

fn note_integer<T: Ord + Default>(cases: &mut Counts, number: T, least: T, largest: T) {
    cases.note("least", number == least);
    cases.note("largest", number == largest);
    cases.note("negative", number < T::default());
    cases.note("zero", number == T::default());
}

/// Why a step at an offset is refused, seen from the bytes there.
fn note_refusal(cases: &mut Counts, at: &[u8], type_oid: u32) {
    let name = match at {
        [] => "no letter",
        [b'n', ..] => "null",
        [b'u', ..] => "unchanged",
        [b't', ..] => "text",
        [b'b', 0x80..=0xFF, _, _, _, ..] => "negative length",
        [b'b', a, b, c, d, part @ ..] => {
            let length = u32::from_be_bytes([*a, *b, *c, *d]) as usize;
            match TYPES.iter().find(|(_, oid, _)| *oid == type_oid) {
                _ if part.len() < length => "cut value",
                Some((_, _, width)) if length < *width => "too short for its type",
                Some((_, _, width)) if length > *width => "too long for its type",
                _ => "bool beyond 1",
            }
        }
        [b'b', ..] => "cut length",
        _ => "other letter",
    };
    cases.note(name, true);
}

impl Cases {
    pub fn none() -> Cases {
        Cases { integers: [(); 3].map(|()| Counts::of(INTEGERS)), floats: [(); 2].map(|()| Counts::of(FLOATS)), others: Counts::of(OTHERS) }
    }

    fn note_value(&mut self, value: Value) {
        let Cases { integers: [int2, int4, int8], floats: [float4, float8], others } = self;
        match value {
            Value::Bool(is) => others.note(if is { "true" } else { "false" }, true),
            Value::Int2(number) => note_integer(int2, number, i16::MIN, i16::MAX),
            Value::Int4(number) => note_integer(int4, number, i32::MIN, i32::MAX),
            Value::Int8(number) => note_integer(int8, number, i64::MIN, i64::MAX),
            Value::Float4(x) => note_float(float4, x.classify(), x.to_bits().into(), x.is_sign_negative(), 1 << 22),
            Value::Float8(x) => note_float(float8, x.classify(), x.to_bits(), x.is_sign_negative(), 1 << 51),
            Value::TimestampTz(TimestampTz(i64::MIN | i64::MAX)) => others.note("infinite time", true),
            Value::TimestampTz(_) => others.note("time", true),
            Value::Raw(part) => others.note(if part.is_empty() { "raw of no bytes" } else { "raw" }, true),
        }
    }

    /// A step's case.
    pub fn note(&mut self, bytes: &[u8], position: [u64; 2], type_oid: u32) {
        match typed::step(bytes, position, type_oid) {
            Ok(Some((value, ..))) => self.note_value(value),
            Ok(None) => {}
            Err(_) => note_refusal(&mut self.others, bytes.get(position[0] as usize..).unwrap_or_default(), type_oid),
        }
    }

    /// Each at least so often.
    pub fn have_all_been(&self, least: u64) {
        let Cases { integers, floats, others } = self;
        for counts in integers.iter().chain(floats).chain([others]) {
            counts.have_all_been(least);
        }
    }
}
