//! Binary values by Rust's own conversions: what a step past one gives, and what writing one gives.
use crate::layouts::Refused;
use kitsoriqu::{TimestampTz, Value};

/// The listed types: a name, the OID and how many bytes a value has.
pub const TYPES: [(&str, u32, usize); 7] =
    [("bool", 16, 1), ("int2", 21, 2), ("int4", 23, 4), ("int8", 20, 8), ("float4", 700, 4), ("float8", 701, 8), ("timestamptz", 1184, 8)];

/// The value of a type's bytes; none where they are too many or too few, or a bool's is neither 0 nor 1.
pub fn value(bytes: &[u8], type_oid: u32) -> Option<Value<'_>> {
    Some(match type_oid {
        16 => match bytes {
            [0] => Value::Bool(false),
            [1] => Value::Bool(true),
            _ => return None,
        },
        21 => Value::Int2(i16::from_be_bytes(bytes.try_into().ok()?)),
        23 => Value::Int4(i32::from_be_bytes(bytes.try_into().ok()?)),
        20 => Value::Int8(i64::from_be_bytes(bytes.try_into().ok()?)),
        700 => Value::Float4(f32::from_be_bytes(bytes.try_into().ok()?)),
        701 => Value::Float8(f64::from_be_bytes(bytes.try_into().ok()?)),
        1184 => Value::TimestampTz(TimestampTz(i64::from_be_bytes(bytes.try_into().ok()?))),
        _ => Value::Raw(bytes),
    })
}

/// The flat form of a value of these bytes.
pub fn numbers_of(value: Value, bytes: &[u8]) -> [u64; 3] {
    match value {
        Value::Bool(false) => [16, 0, 0],
        Value::Bool(true) => [16, 1, 0],
        Value::Int2(number) => [21, u16::from_ne_bytes(number.to_ne_bytes()).into(), 0],
        Value::Int4(number) => [23, u32::from_ne_bytes(number.to_ne_bytes()).into(), 0],
        Value::Int8(number) => [20, u64::from_ne_bytes(number.to_ne_bytes()), 0],
        Value::Float4(number) => [700, number.to_bits().into(), 0],
        Value::Float8(number) => [701, number.to_bits(), 0],
        Value::TimestampTz(time) => [1184, u64::from_ne_bytes(time.0.to_ne_bytes()), 0],
        Value::Raw(part) => [0, part.as_ptr() as u64 - bytes.as_ptr() as u64, part.len() as u64],
    }
}

/// What a step gives: the value, its bytes and the position behind it, nothing where none were left, or a refusal.
pub type Step<'a> = Result<Option<(Value<'a>, &'a [u8], [u64; 2])>, Refused>;

pub fn step(bytes: &[u8], [at, left]: [u64; 2], type_oid: u32) -> Step<'_> {
    if left == 0 {
        return Ok(None);
    }
    let rest = usize::try_from(at).ok().and_then(|at| bytes.get(at..)).unwrap_or_default();
    let (letter, rest) = rest.split_first().ok_or((2, at))?;
    if *letter != b'b' {
        return Err((4, at));
    }
    let (length, rest) = rest.split_first_chunk().ok_or((2, at + 1))?;
    let length = usize::try_from(i32::from_be_bytes(*length)).map_err(|_| (4, at + 1))?;
    let part = rest.get(..length).ok_or((2, at + 5))?;
    let value = value(part, type_oid).ok_or((17, at + 5))?;
    Ok(Some((value, part, [at + 5 + length as u64, left - 1])))
}

/// The bytes of a flat form; none where the three numbers are no value's.
fn bytes_of([oid, first, second]: [u64; 3], source: &[u8]) -> Option<Result<Vec<u8>, Refused>> {
    if oid == 0 {
        let part = usize::try_from(first).ok().zip(usize::try_from(second).ok());
        let part = part.and_then(|(start, length)| source.get(start..)?.get(..length));
        return Some(part.map(<[u8]>::to_vec).ok_or((2, 0)));
    }
    let bytes = match oid {
        16 => vec![u8::try_from(first).ok().filter(|&byte| byte < 2)?],
        21 => u16::try_from(first).ok()?.to_be_bytes().to_vec(),
        23 | 700 => u32::try_from(first).ok()?.to_be_bytes().to_vec(),
        20 | 701 | 1184 => first.to_be_bytes().to_vec(),
        _ => return None,
    };
    (second == 0).then_some(Ok(bytes))
}

/// What is written of a flat form to an output with so much room.
pub fn write(flat: [u64; 3], source: &[u8], room: usize) -> Result<Vec<u8>, Refused> {
    let bytes = bytes_of(flat, source).ok_or((4, 0))??;
    if bytes.len() > room {
        return Err((13, 0));
    }
    Ok(bytes)
}
