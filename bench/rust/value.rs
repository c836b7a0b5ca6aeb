//! Binary values, read by a type's OID and written back. A refusal's offset is in the value.
use crate::{refuse, Refusal, Result};

#[derive(Clone, Copy, Debug)]
pub enum Value<'a> {
    Bool(bool),
    Int2(i16),
    Int4(i32),
    Int8(i64),
    Float4(f32),
    Float8(f64),
    TimestampTz(i64),
    Raw(&'a [u8]),
}

pub fn read_value(type_oid: u32, bytes: &[u8]) -> Result<Value<'_>> {
    Ok(match type_oid {
        16 => match bytes {
            [0] => Value::Bool(false),
            [1] => Value::Bool(true),
            _ => return refuse(Refusal::VALUE, 0),
        },
        20 => Value::Int8(i64::from_be_bytes(exactly(bytes)?)),
        21 => Value::Int2(i16::from_be_bytes(exactly(bytes)?)),
        23 => Value::Int4(i32::from_be_bytes(exactly(bytes)?)),
        700 => Value::Float4(f32::from_bits(u32::from_be_bytes(exactly(bytes)?))),
        701 => Value::Float8(f64::from_bits(u64::from_be_bytes(exactly(bytes)?))),
        1184 => Value::TimestampTz(i64::from_be_bytes(exactly(bytes)?)),
        _ => Value::Raw(bytes),
    })
}

fn exactly<const N: usize>(bytes: &[u8]) -> Result<[u8; N]> {
    bytes.try_into().or_else(|_| refuse(Refusal::VALUE, 0))
}

/// To the front of `out`: how many bytes it has.
pub fn write_value(value: &Value<'_>, out: &mut [u8]) -> Result<usize> {
    match *value {
        Value::Bool(truth) => put(&[truth.into()], out),
        Value::Int2(number) => put(&number.to_be_bytes(), out),
        Value::Int4(number) => put(&number.to_be_bytes(), out),
        Value::Int8(number) | Value::TimestampTz(number) => put(&number.to_be_bytes(), out),
        Value::Float4(number) => put(&number.to_bits().to_be_bytes(), out),
        Value::Float8(number) => put(&number.to_bits().to_be_bytes(), out),
        Value::Raw(bytes) => put(bytes, out),
    }
}

fn put(bytes: &[u8], out: &mut [u8]) -> Result<usize> {
    let Some(out) = out.get_mut(..bytes.len()) else { return refuse(Refusal::OUTPUT, 0) };
    out.copy_from_slice(bytes);
    Ok(bytes.len())
}
