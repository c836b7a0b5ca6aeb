use crate::cursor::Cursor;
use crate::{allows, refuse, Message, Refusal, Result, LARGEST, MOST_RELATIONS};

pub fn read_message(version: u32, in_block: bool, bytes: &[u8]) -> Result<Message<'_>> {
    if !allows(version, in_block) {
        return refuse(Refusal::VERSION, 0);
    }
    if bytes.len() > LARGEST {
        return refuse(Refusal::RANGE, 0);
    }
    let mut c = Cursor::new(bytes);
    let letter = c.byte()?;
    if version == 1 && matches!(letter, b'S' | b'E' | b'c' | b'A') {
        return refuse(Refusal::KIND, 0);
    }
    let message = fields(letter, in_block, &mut c)?;
    if !c.rest.is_empty() {
        return refuse(Refusal::LEFT_OVER, c.at());
    }
    Ok(message)
}

fn fields<'a>(letter: u8, in_block: bool, c: &mut Cursor<'a>) -> Result<Message<'a>> {
    Ok(match letter {
        b'B' => Message::Begin { final_lsn: c.u64()?, time: c.i64()?, xid: c.id()? },
        b'C' => {
            c.up_to(0)?;
            Message::Commit { commit_lsn: c.u64()?, end_lsn: c.u64()?, time: c.i64()? }
        }
        b'O' => Message::Origin { lsn: c.u64()?, name: c.text()? },
        b'R' => relation(in_block, c)?,
        b'Y' => Message::Type { xid: c.xid(in_block)?, oid: c.u32()?, namespace: c.text()?, name: c.text()? },
        b'I' => {
            let (xid, relation) = (c.xid(in_block)?, c.id()?);
            c.letter(b"N")?;
            Message::Insert { xid, relation, new: c.tuple()? }
        }
        b'U' => update(in_block, c)?,
        b'D' => Message::Delete { xid: c.xid(in_block)?, relation: c.id()?, letter: c.letter(b"KO")?, old: c.tuple()? },
        b'T' => truncate(in_block, c)?,
        b'M' => Message::Logical { xid: c.xid(in_block)?, flags: c.up_to(1)?, lsn: c.u64()?, prefix: c.text()?, content: c.value()? },
        b'S' => Message::StreamStart { xid: c.id()?, first: c.up_to(1)? == 1 },
        b'E' => Message::StreamStop,
        b'c' => {
            let xid = c.id()?;
            c.up_to(0)?;
            Message::StreamCommit { xid, commit_lsn: c.u64()?, end_lsn: c.u64()?, time: c.i64()? }
        }
        b'A' => Message::StreamAbort { xid: c.id()?, sub_xid: c.id()? },
        _ => return refuse(Refusal::KIND, 0),
    })
}

fn relation<'a>(in_block: bool, c: &mut Cursor<'a>) -> Result<Message<'a>> {
    let (xid, relation) = (c.xid(in_block)?, c.id()?);
    let (namespace, name) = (c.text()?, c.text()?);
    let identity = c.letter(b"dnfi")?;
    let count = c.count()?;
    let columns = c.columns(count)?;
    Ok(Message::Relation { xid, relation, namespace, name, identity, count, columns })
}

fn update<'a>(in_block: bool, c: &mut Cursor<'a>) -> Result<Message<'a>> {
    let (xid, relation) = (c.xid(in_block)?, c.id()?);
    let old = match c.rest {
        [letter @ (b'K' | b'O'), rest @ ..] => {
            c.rest = rest;
            Some((*letter, c.tuple()?))
        }
        _ => None,
    };
    c.letter(b"N")?;
    Ok(Message::Update { xid, relation, old, new: c.tuple()? })
}

fn truncate<'a>(in_block: bool, c: &mut Cursor<'a>) -> Result<Message<'a>> {
    let xid = c.xid(in_block)?;
    let at = c.at();
    let count = c.u32()?;
    if !(1..=MOST_RELATIONS).contains(&count) {
        return refuse(Refusal::RANGE, at);
    }
    Ok(Message::Truncate { xid, options: c.up_to(3)?, relations: c.oids(count)? })
}
