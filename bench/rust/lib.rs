//! What Kitsoriqu is measured against: a decoder, writer, session and keeper in idiomatic safe Rust (slices, `Result`, a typed enum with borrowed
//! parts, hash maps), with the same layouts, checks, refusals and rules.
#![forbid(unsafe_code)]

mod cursor;
mod keeper;
mod read;
mod session;
mod value;
mod write;

pub use keeper::Keeper;
pub use read::read_message;
pub use session::{Announcement, Session};
pub use value::{read_value, write_value, Value};
pub use write::write_message;

pub const LARGEST: usize = 1_073_741_823;
pub const MOST_COLUMNS: u16 = 1600;
pub const MOST_RELATIONS: u32 = 256;

#[derive(Clone, Copy, Debug, PartialEq, Eq)]
pub struct Refusal {
    pub number: u8,
    pub offset: usize,
}

impl Refusal {
    pub const VERSION: u8 = 1;
    pub const SHORT: u8 = 2;
    pub const KIND: u8 = 3;
    pub const FIELD: u8 = 4;
    pub const LEFT_OVER: u8 = 5;
    pub const RANGE: u8 = 6;
    pub const PLACE: u8 = 7;
    pub const TRANSACTION: u8 = 8;
    pub const RELATION: u8 = 9;
    pub const SHAPE: u8 = 10;
    pub const ANNOUNCEMENTS: u8 = 11;
    pub const STREAMS: u8 = 12;
    pub const OUTPUT: u8 = 13;
    pub const KEEPER: u8 = 14;
    pub const VALUE: u8 = 17;
}

pub type Result<T> = std::result::Result<T, Refusal>;

fn refuse<T>(number: u8, offset: usize) -> Result<T> {
    Err(Refusal { number, offset })
}

#[derive(Clone, Copy, Debug)]
pub enum Message<'a> {
    Begin { final_lsn: u64, time: i64, xid: u32 },
    Commit { commit_lsn: u64, end_lsn: u64, time: i64 },
    Origin { lsn: u64, name: &'a [u8] },
    Relation { xid: Option<u32>, relation: u32, namespace: &'a [u8], name: &'a [u8], identity: u8, count: u16, columns: &'a [u8] },
    Type { xid: Option<u32>, oid: u32, namespace: &'a [u8], name: &'a [u8] },
    Insert { xid: Option<u32>, relation: u32, new: Tuple<'a> },
    Update { xid: Option<u32>, relation: u32, old: Option<(u8, Tuple<'a>)>, new: Tuple<'a> },
    Delete { xid: Option<u32>, relation: u32, letter: u8, old: Tuple<'a> },
    Truncate { xid: Option<u32>, options: u8, relations: &'a [u8] },
    Logical { xid: Option<u32>, flags: u8, lsn: u64, prefix: &'a [u8], content: &'a [u8] },
    StreamStart { xid: u32, first: bool },
    StreamStop,
    StreamCommit { xid: u32, commit_lsn: u64, end_lsn: u64, time: i64 },
    StreamAbort { xid: u32, sub_xid: u32 },
}

/// A tuple: its bytes from the count on.
#[derive(Clone, Copy, Debug)]
pub struct Tuple<'a> {
    pub count: u16,
    pub bytes: &'a [u8],
}

#[derive(Clone, Copy, Debug)]
pub enum Column<'a> {
    Null,
    Unchanged,
    Text(&'a [u8]),
    Binary(&'a [u8]),
}

/// The columns of a tuple that was read.
pub struct Columns<'a> {
    rest: &'a [u8],
}

impl<'a> Tuple<'a> {
    pub fn columns(&self) -> Columns<'a> {
        Columns { rest: &self.bytes[2..] }
    }
}

impl<'a> Iterator for Columns<'a> {
    type Item = Column<'a>;

    fn next(&mut self) -> Option<Column<'a>> {
        let (letter, rest) = self.rest.split_first()?;
        self.rest = rest;
        match letter {
            b'n' => return Some(Column::Null),
            b'u' => return Some(Column::Unchanged),
            _ => {}
        }
        let (length, rest) = rest.split_first_chunk()?;
        let (value, rest) = rest.split_at_checked(u32::from_be_bytes(*length) as usize)?;
        self.rest = rest;
        Some(if *letter == b't' { Column::Text(value) } else { Column::Binary(value) })
    }
}

/// Version 1 knows no stream blocks.
fn allows(version: u32, in_block: bool) -> bool {
    version == 2 || version == 1 && !in_block
}
