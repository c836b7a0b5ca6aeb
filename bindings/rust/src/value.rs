use crate::{ffi, Refusal, TimestampTz};

/// The types whose binary values are read as numbers: their OIDs.
pub mod type_oid {
    pub const BOOL: u32 = 16;
    pub const INT8: u32 = 20;
    pub const INT2: u32 = 21;
    pub const INT4: u32 = 23;
    pub const FLOAT4: u32 = 700;
    pub const FLOAT8: u32 = 701;
    pub const TIMESTAMPTZ: u32 = 1184;
}

/// A binary value, read by its type's OID with [`Position::value`](crate::Position::value) or [`Tuple::value`](crate::Tuple::value).
///
/// A float has the very pattern that was sent, also where it is a NaN's, and [`Value::write`] writes that pattern. `==` compares floats as
/// Rust does: a NaN is unequal to itself, and 0 equals -0. `to_bits` of the float compares patterns.
///
/// ```
/// use kitsoriqu::{type_oid, Position, Refusal, Value};
///
/// let bytes = b"I\0\0\0\x05N\0\x02b\0\0\0\x04\xFF\xFF\xFF\xD6b\0\0\0\x04\x7F\x80\0\x01";
/// let mut at = Position { offset: 8, left: 2 };
/// assert_eq!(at.value(bytes, type_oid::INT4), Ok(Some(Value::Int4(-42))));
/// let Some(Value::Float4(nan)) = at.value(bytes, type_oid::FLOAT4)? else { unreachable!() };
/// assert_eq!((nan.is_nan(), nan.to_bits()), (true, 0x7F80_0001));
/// assert_eq!(at.value(bytes, type_oid::INT4), Ok(None));
///
/// let mut out = [0xAA; 6];
/// assert_eq!(Value::Float4(nan).write(&mut out), Ok(4));
/// assert_eq!(out, *b"\x7F\x80\0\x01\xAA\xAA");
/// assert_eq!(Value::Int8(1).write(&mut out), Err(Refusal { number: Refusal::OUTPUT, offset: 0 }));
/// # Ok::<(), Refusal>(())
/// ```
#[derive(Clone, Copy, Debug, PartialEq)]
pub enum Value<'a> {
    Bool(bool),
    Int2(i16),
    Int4(i32),
    Int8(i64),
    Float4(f32),
    Float8(f64),
    TimestampTz(TimestampTz),
    /// The bytes of a value of any other type, as they came.
    Raw(&'a [u8]),
}

impl<'a> Value<'a> {
    /// Of a flat form that the library read from these bytes, so the casts lose nothing.
    pub(crate) fn of([oid, first, second]: [u64; ffi::VALUE_FLAT], bytes: &'a [u8]) -> Value<'a> {
        match oid as u32 {
            type_oid::BOOL => Value::Bool(first == 1),
            type_oid::INT2 => Value::Int2(first as u16 as i16),
            type_oid::INT4 => Value::Int4(first as u32 as i32),
            type_oid::INT8 => Value::Int8(first as i64),
            type_oid::FLOAT4 => Value::Float4(f32::from_bits(first as u32)),
            type_oid::FLOAT8 => Value::Float8(f64::from_bits(first)),
            type_oid::TIMESTAMPTZ => Value::TimestampTz(TimestampTz(first as i64)),
            _ => Value::Raw(&bytes[first as usize..][..second as usize]),
        }
    }

    /// Its type's OID; `None` of a raw value, which does not know it.
    pub fn type_oid(&self) -> Option<u32> {
        match self {
            Value::Bool(_) => Some(type_oid::BOOL),
            Value::Int2(_) => Some(type_oid::INT2),
            Value::Int4(_) => Some(type_oid::INT4),
            Value::Int8(_) => Some(type_oid::INT8),
            Value::Float4(_) => Some(type_oid::FLOAT4),
            Value::Float8(_) => Some(type_oid::FLOAT8),
            Value::TimestampTz(_) => Some(type_oid::TIMESTAMPTZ),
            Value::Raw(_) => None,
        }
    }

    /// The flat form, and the source that a raw value lies in.
    fn flat(&self) -> ([u64; ffi::VALUE_FLAT], &'a [u8]) {
        let bits = match *self {
            Value::Bool(is) => is.into(),
            Value::Int2(number) => (number as u16).into(),
            Value::Int4(number) => (number as u32).into(),
            Value::Int8(number) => number as u64,
            Value::Float4(number) => number.to_bits().into(),
            Value::Float8(number) => number.to_bits(),
            Value::TimestampTz(time) => time.0 as u64,
            Value::Raw(bytes) => return ([0, 0, bytes.len() as u64], bytes),
        };
        ([self.type_oid().map_or(0, u64::from), bits, 0], &[])
    }

    /// Writes the value's bytes, without a letter or length, to the front of `out` and gives how many they are. The bytes of `out` behind
    /// them, and all of them where `out` is too short, stay as they were.
    pub fn write(&self, out: &mut [u8]) -> Result<usize, Refusal> {
        let (flat, source) = self.flat();
        let mut result = 0;
        match ffi::value_write(&flat, source, out, &mut result) {
            0 => Ok(result as usize),
            number => Err(Refusal { number, offset: result }),
        }
    }
}
