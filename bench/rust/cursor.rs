//! Fields read from left to right.
use crate::{refuse, Refusal, Result, Tuple, MOST_COLUMNS};

pub struct Cursor<'a> {
    pub rest: &'a [u8],
    length: usize,
}

impl<'a> Cursor<'a> {
    pub fn new(bytes: &'a [u8]) -> Cursor<'a> {
        Cursor { rest: bytes, length: bytes.len() }
    }

    pub fn at(&self) -> usize {
        self.length - self.rest.len()
    }

    fn chunk<const N: usize>(&mut self) -> Result<[u8; N]> {
        let Some((chunk, rest)) = self.rest.split_first_chunk() else { return refuse(Refusal::SHORT, self.at()) };
        self.rest = rest;
        Ok(*chunk)
    }

    pub fn byte(&mut self) -> Result<u8> {
        self.chunk().map(|[byte]| byte)
    }

    pub fn u16(&mut self) -> Result<u16> {
        self.chunk().map(u16::from_be_bytes)
    }

    pub fn u32(&mut self) -> Result<u32> {
        self.chunk().map(u32::from_be_bytes)
    }

    pub fn u64(&mut self) -> Result<u64> {
        self.chunk().map(u64::from_be_bytes)
    }

    pub fn i64(&mut self) -> Result<i64> {
        self.chunk().map(i64::from_be_bytes)
    }

    pub fn take(&mut self, n: usize) -> Result<&'a [u8]> {
        let Some((part, rest)) = self.rest.split_at_checked(n) else { return refuse(Refusal::SHORT, self.at()) };
        self.rest = rest;
        Ok(part)
    }

    pub fn text(&mut self) -> Result<&'a [u8]> {
        let Some(end) = self.rest.iter().position(|&byte| byte == 0) else { return refuse(Refusal::SHORT, self.at()) };
        let text = &self.rest[..end];
        self.rest = &self.rest[end + 1..];
        Ok(text)
    }

    pub fn id(&mut self) -> Result<u32> {
        let at = self.at();
        match self.u32()? {
            0 => refuse(Refusal::FIELD, at),
            id => Ok(id),
        }
    }

    pub fn xid(&mut self, in_block: bool) -> Result<Option<u32>> {
        if in_block {
            self.id().map(Some)
        } else {
            Ok(None)
        }
    }

    pub fn up_to(&mut self, high: u8) -> Result<u8> {
        let at = self.at();
        match self.byte()? {
            byte if byte <= high => Ok(byte),
            _ => refuse(Refusal::FIELD, at),
        }
    }

    pub fn letter(&mut self, set: &[u8]) -> Result<u8> {
        let at = self.at();
        match self.byte()? {
            letter if set.contains(&letter) => Ok(letter),
            _ => refuse(Refusal::FIELD, at),
        }
    }

    pub fn count(&mut self) -> Result<u16> {
        let at = self.at();
        match self.u16()? {
            count if count <= MOST_COLUMNS => Ok(count),
            _ => refuse(Refusal::RANGE, at),
        }
    }

    /// A length that is not negative, and that many bytes.
    pub fn value(&mut self) -> Result<&'a [u8]> {
        let at = self.at();
        match i32::from_be_bytes(self.chunk()?) {
            length if length >= 0 => self.take(length as usize),
            _ => refuse(Refusal::FIELD, at),
        }
    }

    pub fn tuple(&mut self) -> Result<Tuple<'a>> {
        let start = self.rest;
        let count = self.count()?;
        for _ in 0..count {
            let at = self.at();
            match self.byte()? {
                b'n' | b'u' => {}
                b't' | b'b' => {
                    self.value()?;
                }
                _ => return refuse(Refusal::FIELD, at),
            }
        }
        Ok(Tuple { count, bytes: &start[..start.len() - self.rest.len()] })
    }

    /// `count` columns of a Relation.
    pub fn columns(&mut self, count: u16) -> Result<&'a [u8]> {
        let start = self.rest;
        for _ in 0..count {
            self.up_to(1)?;
            self.text()?;
            self.u32()?;
            self.u32()?;
        }
        Ok(&start[..start.len() - self.rest.len()])
    }

    /// `count` OIDs of a Truncate.
    pub fn oids(&mut self, count: u32) -> Result<&'a [u8]> {
        let start = self.rest;
        for _ in 0..count {
            self.id()?;
        }
        Ok(&start[..start.len() - self.rest.len()])
    }
}
