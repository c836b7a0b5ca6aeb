//! The ten C functions and the safe calls to them: all the unsafe code there is. `include/kitsoriqu.h` says what each answers.
//!
//! The header asks of a caller that each pointer is good for the length that comes with it, and that what is written does not overlap
//! what is read. References give both: a slice's pointer is good for its length (and is not null where that is 0), an array's for its
//! numbers, and a `&mut` overlaps nothing else. The functions keep no pointer after they return, and any content of what they are
//! lent is answered.

/// The numbers of a flat form, of a step, of an answer, of a reply and of a value's flat form.
pub const FLAT: usize = 16;
pub const STEP: usize = 5;
pub const ANSWER: usize = 4;
pub const REPLY: usize = 5;
pub const VALUE_FLAT: usize = 3;

/// What `column_step` and `value_step` return when there is nothing left.
pub const OVER: u32 = 255;

/// The words of a session's record.
pub const SESSION_WORDS: usize = 624;

/// The header's `kq_session`: numbers that nobody names. Every content is a value of it.
#[repr(C)]
#[derive(Clone, PartialEq)]
pub struct Record {
    pub opaque: [u64; SESSION_WORDS],
}

impl Record {
    pub const ZERO: Record = Record { opaque: [0; SESSION_WORDS] };
}

extern "C" {
    fn kq_read(version: u32, in_block: u32, bytes: *const u8, len: usize, out: *mut u64) -> u32;
    fn kq_write(
        version: u32,
        in_block: u32,
        fields: *const u64,
        source: *const u8,
        source_len: usize,
        out: *mut u8,
        out_len: usize,
        result: *mut u64,
    ) -> u32;
    fn kq_column_start(version: u32, in_block: u32, bytes: *const u8, len: usize, section: u32, position: *mut u64) -> u32;
    fn kq_column_step(section: u32, bytes: *const u8, len: usize, position: *mut u64, out: *mut u64) -> u32;
    fn kq_session_start(session: *mut Record, version: u32);
    fn kq_session_start_default(session: *mut Record);
    fn kq_session_give(session: *mut Record, bytes: *const u8, len: usize, tag: u64, answer: *mut u64) -> u32;
    fn kq_keeper_give(
        session: *mut Record,
        bytes: *const u8,
        len: usize,
        tag: u64,
        buffer: *mut u8,
        buffer_len: usize,
        held: *mut usize,
        out: *mut u8,
        out_len: usize,
        reply: *mut u64,
    ) -> u32;
    fn kq_value_step(bytes: *const u8, len: usize, position: *mut u64, type_oid: u32, value: *mut u64) -> u32;
    fn kq_value_write(value: *const u64, source: *const u8, source_len: usize, out: *mut u8, out_len: usize, result: *mut u64) -> u32;
}

#[inline]
pub fn read(version: u32, in_block: bool, bytes: &[u8], out: &mut [u64; FLAT]) -> u32 {
    // SAFETY: `bytes` is read for its length; `out` is FLAT numbers.
    unsafe { kq_read(version, in_block.into(), bytes.as_ptr(), bytes.len(), out.as_mut_ptr()) }
}

#[inline]
pub fn write(version: u32, in_block: bool, fields: &[u64; FLAT], source: &[u8], out: &mut [u8], result: &mut u64) -> u32 {
    // SAFETY: `fields` is FLAT numbers; `source` is read and `out` written for their lengths; `result` is one number.
    unsafe { kq_write(version, in_block.into(), fields.as_ptr(), source.as_ptr(), source.len(), out.as_mut_ptr(), out.len(), result) }
}

#[inline]
pub fn column_start(version: u32, in_block: bool, bytes: &[u8], section: u32, position: &mut [u64; 2]) -> u32 {
    // SAFETY: `bytes` is read for its length; `position` is two numbers.
    unsafe { kq_column_start(version, in_block.into(), bytes.as_ptr(), bytes.len(), section, position.as_mut_ptr()) }
}

#[inline]
pub fn column_step(section: u32, bytes: &[u8], position: &mut [u64; 2], out: &mut [u64; STEP]) -> u32 {
    // SAFETY: `bytes` is read for its length; `position` is two numbers and `out` is STEP.
    unsafe { kq_column_step(section, bytes.as_ptr(), bytes.len(), position.as_mut_ptr(), out.as_mut_ptr()) }
}

#[inline]
pub fn session_start(session: &mut Record, version: u32) {
    // SAFETY: `session` is a whole record: as large and aligned as the header's, and as what the archive writes (tests/header.rs and
    // tests/record.rs compare them).
    unsafe { kq_session_start(session, version) }
}

#[inline]
pub fn session_start_default(session: &mut Record) {
    // SAFETY: as in `session_start`.
    unsafe { kq_session_start_default(session) }
}

#[inline]
pub fn session_give(session: &mut Record, bytes: &[u8], tag: u64, answer: &mut [u64; ANSWER]) -> u32 {
    // SAFETY: as in `session_start`; `bytes` is read for its length; `answer` is ANSWER numbers. The `&mut` keeps a session from
    // being given two messages at once.
    unsafe { kq_session_give(session, bytes.as_ptr(), bytes.len(), tag, answer.as_mut_ptr()) }
}

#[inline]
pub fn keeper_give(
    session: &mut Record,
    bytes: &[u8],
    tag: u64,
    buffer: &mut [u8],
    held: &mut usize,
    out: &mut [u8],
    reply: &mut [u64; REPLY],
) -> u32 {
    let (at, length) = (buffer.as_mut_ptr(), buffer.len());
    let (out_at, out_length) = (out.as_mut_ptr(), out.len());
    // SAFETY: as in `session_give`; `buffer` and `out` are written for their lengths; `held` is one number and `reply` is REPLY.
    unsafe { kq_keeper_give(session, bytes.as_ptr(), bytes.len(), tag, at, length, held, out_at, out_length, reply.as_mut_ptr()) }
}

#[inline]
pub fn value_step(bytes: &[u8], position: &mut [u64; 2], type_oid: u32, value: &mut [u64; VALUE_FLAT]) -> u32 {
    // SAFETY: `bytes` is read for its length; `position` is two numbers and `value` is VALUE_FLAT.
    unsafe { kq_value_step(bytes.as_ptr(), bytes.len(), position.as_mut_ptr(), type_oid, value.as_mut_ptr()) }
}

#[inline]
pub fn value_write(value: &[u64; VALUE_FLAT], source: &[u8], out: &mut [u8], result: &mut u64) -> u32 {
    // SAFETY: `value` is VALUE_FLAT numbers; `source` is read and `out` written for their lengths; `result` is one number.
    unsafe { kq_value_write(value.as_ptr(), source.as_ptr(), source.len(), out.as_mut_ptr(), out.len(), result) }
}
