//! A message is judged from left to right, which gives its length; then the room is tested, once; then it is stored.
use crate::cursor::Cursor;
use crate::{allows, refuse, Message, Refusal, Result, Tuple, LARGEST, MOST_COLUMNS, MOST_RELATIONS};

pub fn write_message(version: u32, in_block: bool, message: &Message<'_>, out: &mut [u8]) -> Result<usize> {
    if !allows(version, in_block) {
        return refuse(Refusal::VERSION, 0);
    }
    if version == 1 && is_of_streams(message) {
        return refuse(Refusal::KIND, 0);
    }
    let length = measure(in_block, message)?;
    let Some(out) = out.get_mut(..length) else { return refuse(Refusal::OUTPUT, 0) };
    store(message, Store { rest: out });
    Ok(length)
}

fn is_of_streams(message: &Message<'_>) -> bool {
    use Message::*;
    matches!(message, StreamStart { .. } | StreamStop | StreamCommit { .. } | StreamAbort { .. })
}

/// The length so far.
struct Length(usize);

impl Length {
    fn add(&mut self, n: usize) -> Result<()> {
        match self.0.checked_add(n) {
            Some(length) if length <= LARGEST => {
                self.0 = length;
                Ok(())
            }
            _ => refuse(Refusal::RANGE, 0),
        }
    }

    fn test(&self, is_good: bool, refusal: u8) -> Result<()> {
        if is_good {
            Ok(())
        } else {
            refuse(refusal, self.0)
        }
    }

    fn id(&mut self, id: u32) -> Result<()> {
        self.test(id != 0, Refusal::FIELD)?;
        self.add(4)
    }

    fn xid(&mut self, in_block: bool, xid: Option<u32>) -> Result<()> {
        match (in_block, xid) {
            (true, Some(xid)) => self.id(xid),
            (false, None) => Ok(()),
            _ => refuse(Refusal::FIELD, 1),
        }
    }

    fn up_to(&mut self, byte: u8, high: u8) -> Result<()> {
        self.test(byte <= high, Refusal::FIELD)?;
        self.add(1)
    }

    fn letter(&mut self, letter: u8, set: &[u8]) -> Result<()> {
        self.test(set.contains(&letter), Refusal::FIELD)?;
        self.add(1)
    }

    fn text(&mut self, text: &[u8]) -> Result<()> {
        self.test(!text.contains(&0), Refusal::FIELD)?;
        self.add(text.len() + 1)
    }

    /// A part that must be well-formed, and nothing behind it.
    fn part<'a, T>(&mut self, bytes: &'a [u8], read: impl FnOnce(&mut Cursor<'a>) -> Result<T>) -> Result<()> {
        let mut cursor = Cursor::new(bytes);
        match read(&mut cursor) {
            Ok(_) => {
                let end = cursor.at();
                self.add(end)
            }
            Err(refusal) if refusal.offset > LARGEST - self.0 => refuse(Refusal::RANGE, 0),
            Err(refusal) => refuse(refusal.number, self.0 + refusal.offset),
        }
    }

    fn tuple(&mut self, tuple: Tuple<'_>) -> Result<()> {
        self.part(tuple.bytes, |c| c.tuple())
    }
}

fn measure(in_block: bool, message: &Message<'_>) -> Result<usize> {
    let mut l = Length(1);
    match *message {
        Message::Begin { xid, .. } => {
            l.add(16)?;
            l.id(xid)?;
        }
        Message::Commit { .. } => l.add(25)?,
        Message::Origin { name, .. } => {
            l.add(8)?;
            l.text(name)?;
        }
        Message::Relation { xid, relation, namespace, name, identity, count, columns } => {
            l.xid(in_block, xid)?;
            l.id(relation)?;
            l.text(namespace)?;
            l.text(name)?;
            l.letter(identity, b"dnfi")?;
            l.test(count <= MOST_COLUMNS, Refusal::RANGE)?;
            l.add(2)?;
            l.part(columns, |c| c.columns(count))?;
        }
        Message::Type { xid, namespace, name, .. } => {
            l.xid(in_block, xid)?;
            l.add(4)?;
            l.text(namespace)?;
            l.text(name)?;
        }
        Message::Insert { xid, relation, new } => {
            l.xid(in_block, xid)?;
            l.id(relation)?;
            l.add(1)?;
            l.tuple(new)?;
        }
        Message::Update { xid, relation, old, new } => {
            l.xid(in_block, xid)?;
            l.id(relation)?;
            if let Some((letter, old)) = old {
                l.letter(letter, b"KO")?;
                l.tuple(old)?;
            }
            l.add(1)?;
            l.tuple(new)?;
        }
        Message::Delete { xid, relation, letter, old } => {
            l.xid(in_block, xid)?;
            l.id(relation)?;
            l.letter(letter, b"KO")?;
            l.tuple(old)?;
        }
        Message::Truncate { xid, options, relations } => {
            l.xid(in_block, xid)?;
            let count = (relations.len() / 4) as u32;
            l.test((1..=MOST_RELATIONS).contains(&count), Refusal::RANGE)?;
            l.add(4)?;
            l.up_to(options, 3)?;
            l.part(relations, |c| c.oids(count))?;
        }
        Message::Logical { xid, flags, prefix, content, .. } => {
            l.xid(in_block, xid)?;
            l.up_to(flags, 1)?;
            l.add(8)?;
            l.text(prefix)?;
            l.add(4)?;
            l.add(content.len())?;
        }
        Message::StreamStart { xid, .. } => {
            l.id(xid)?;
            l.add(1)?;
        }
        Message::StreamStop => {}
        Message::StreamCommit { xid, .. } => {
            l.id(xid)?;
            l.add(25)?;
        }
        Message::StreamAbort { xid, sub_xid } => {
            l.id(xid)?;
            l.id(sub_xid)?;
        }
    }
    Ok(l.0)
}

/// What is left of the output, which has the message's length.
struct Store<'b> {
    rest: &'b mut [u8],
}

impl<'b> Store<'b> {
    fn bytes(self, bytes: &[u8]) -> Store<'b> {
        let (front, rest) = self.rest.split_at_mut(bytes.len());
        front.copy_from_slice(bytes);
        Store { rest }
    }

    fn byte(self, byte: u8) -> Store<'b> {
        self.bytes(&[byte])
    }

    fn u16(self, value: u16) -> Store<'b> {
        self.bytes(&value.to_be_bytes())
    }

    fn u32(self, value: u32) -> Store<'b> {
        self.bytes(&value.to_be_bytes())
    }

    fn u64(self, value: u64) -> Store<'b> {
        self.bytes(&value.to_be_bytes())
    }

    fn i64(self, value: i64) -> Store<'b> {
        self.bytes(&value.to_be_bytes())
    }

    fn xid(self, xid: Option<u32>) -> Store<'b> {
        match xid {
            Some(xid) => self.u32(xid),
            None => self,
        }
    }

    fn text(self, text: &[u8]) -> Store<'b> {
        self.bytes(text).byte(0)
    }
}

fn store(message: &Message<'_>, out: Store<'_>) {
    match *message {
        Message::Begin { final_lsn, time, xid } => out.byte(b'B').u64(final_lsn).i64(time).u32(xid),
        Message::Commit { commit_lsn, end_lsn, time } => out.byte(b'C').byte(0).u64(commit_lsn).u64(end_lsn).i64(time),
        Message::Origin { lsn, name } => out.byte(b'O').u64(lsn).text(name),
        Message::Relation { xid, relation, namespace, name, identity, count, columns } => {
            out.byte(b'R').xid(xid).u32(relation).text(namespace).text(name).byte(identity).u16(count).bytes(columns)
        }
        Message::Type { xid, oid, namespace, name } => out.byte(b'Y').xid(xid).u32(oid).text(namespace).text(name),
        Message::Insert { xid, relation, new } => out.byte(b'I').xid(xid).u32(relation).byte(b'N').bytes(new.bytes),
        Message::Update { xid, relation, old, new } => {
            let out = out.byte(b'U').xid(xid).u32(relation);
            let out = match old {
                Some((letter, old)) => out.byte(letter).bytes(old.bytes),
                None => out,
            };
            out.byte(b'N').bytes(new.bytes)
        }
        Message::Delete { xid, relation, letter, old } => out.byte(b'D').xid(xid).u32(relation).byte(letter).bytes(old.bytes),
        Message::Truncate { xid, options, relations } => {
            out.byte(b'T').xid(xid).u32((relations.len() / 4) as u32).byte(options).bytes(relations)
        }
        Message::Logical { xid, flags, lsn, prefix, content } => {
            out.byte(b'M').xid(xid).byte(flags).u64(lsn).text(prefix).u32(content.len() as u32).bytes(content)
        }
        Message::StreamStart { xid, first } => out.byte(b'S').u32(xid).byte(first.into()),
        Message::StreamStop => out.byte(b'E'),
        Message::StreamCommit { xid, commit_lsn, end_lsn, time } => out.byte(b'c').u32(xid).byte(0).u64(commit_lsn).u64(end_lsn).i64(time),
        Message::StreamAbort { xid, sub_xid } => out.byte(b'A').u32(xid).u32(sub_xid),
    };
}
