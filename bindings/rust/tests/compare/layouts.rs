//! Reading and writing by the layouts of the papers, written apart from the library: the table of kinds as data, and one walk over it
//! in each direction. Slow and plain.
use std::borrow::Cow;

/// A refusal's number and offset.
pub type Refused = (u32, u64);

pub const LARGEST: u64 = 1_073_741_823;

#[derive(Clone, Copy)]
enum Part {
    /// A byte from 0 to this.
    UpTo(u64),
    /// An LSN or a time.
    Long,
    /// An xid or relation OID: not 0.
    Id,
    TypeOid,
    /// An xid that is there only inside a block.
    BlockXid,
    Text,
    Letter(&'static [u8]),
    /// The letter `N`, which no flat form holds.
    New,
    Tuple,
    /// `K` or `O` and a tuple, or nothing.
    OldTuple,
    Columns,
    Oids,
    Content,
}
use Part::*;

const LETTERS: &[u8; 14] = b"BCORYIUDTMSEcA";

/// What follows the letter of a kind; the kinds are numbered from 1 in the order of the letters.
fn layout(kind: u64) -> &'static [Part] {
    match LETTERS[kind as usize - 1] {
        b'B' => &[Long, Long, Id],
        b'C' => &[UpTo(0), Long, Long, Long],
        b'O' => &[Long, Text],
        b'R' => &[BlockXid, Id, Text, Text, Letter(b"dnfi"), Columns],
        b'Y' => &[BlockXid, TypeOid, Text, Text],
        b'I' => &[BlockXid, Id, New, Tuple],
        b'U' => &[BlockXid, Id, OldTuple, New, Tuple],
        b'D' => &[BlockXid, Id, Letter(b"KO"), Tuple],
        b'T' => &[BlockXid, Oids],
        b'M' => &[BlockXid, UpTo(1), Long, Text, Content],
        b'S' => &[Id, UpTo(1)],
        b'E' => &[],
        b'c' => &[Id, UpTo(0), Long, Long, Long],
        _ => &[Id, Id],
    }
}

fn version_refuses(version: u32, in_block: bool) -> bool {
    !(version == 2 || version == 1 && !in_block)
}

fn lacks(version: u32, kind: u64) -> bool {
    version == 1 && kind > 10
}

/// Reading: each field first for presence, then for content.
pub struct Reader<'a> {
    pub bytes: &'a [u8],
    pub at: u64,
}

impl<'a> Reader<'a> {
    fn rest(&self) -> &'a [u8] {
        usize::try_from(self.at).ok().and_then(|at| self.bytes.get(at..)).unwrap_or_default()
    }

    fn take(&mut self, n: u64) -> Result<&'a [u8], Refused> {
        if self.at > self.bytes.len() as u64 || n > self.bytes.len() as u64 - self.at {
            return Err((2, self.at));
        }
        let taken = &self.rest()[..n as usize];
        self.at += n;
        Ok(taken)
    }

    /// A big-endian number that a test must hold of, else the refusal.
    fn number(&mut self, width: u64, is_good: impl Fn(u64) -> bool, refusal: u32) -> Result<u64, Refused> {
        let start = self.at;
        let value = self.take(width)?.iter().fold(0, |value, &byte| value << 8 | u64::from(byte));
        if is_good(value) {
            Ok(value)
        } else {
            Err((refusal, start))
        }
    }

    pub fn any(&mut self, width: u64) -> Result<u64, Refused> {
        self.number(width, |_| true, 0)
    }

    fn id(&mut self) -> Result<u64, Refused> {
        self.number(4, |id| id != 0, 4)
    }

    fn up_to(&mut self, high: u64) -> Result<u64, Refused> {
        self.number(1, |byte| byte <= high, 4)
    }

    fn letter(&mut self, set: &[u8]) -> Result<u64, Refused> {
        self.number(1, |byte| set.contains(&(byte as u8)), 4)
    }

    fn column_count(&mut self) -> Result<u64, Refused> {
        self.number(2, |count| count <= 1600, 6)
    }

    fn relation_count(&mut self) -> Result<u64, Refused> {
        self.number(4, |count| (1..=256).contains(&count), 6)
    }

    /// A length that is not negative.
    fn length(&mut self) -> Result<u64, Refused> {
        self.number(4, |length| length < 1 << 31, 4)
    }

    fn text(&mut self) -> Result<&'a [u8], Refused> {
        let length = self.rest().iter().position(|&byte| byte == 0).ok_or((2, self.at))?;
        Ok(&self.take(length as u64 + 1)?[..length])
    }

    /// A tuple's column: its letter, its value's start and length.
    pub fn column(&mut self) -> Result<[u64; 5], Refused> {
        let letter = self.letter(b"nutb")?;
        if letter == u64::from(b'n') || letter == u64::from(b'u') {
            return Ok([letter, 0, 0, 0, 0]);
        }
        let length = self.length()?;
        let start = self.at;
        self.take(length)?;
        Ok([letter, start, length, 0, 0])
    }

    /// A Relation's column: key flag, name's start and length, type OID, modifier.
    pub fn relation_column(&mut self) -> Result<[u64; 5], Refused> {
        let key = self.up_to(1)?;
        let start = self.at;
        let name = self.text()?;
        Ok([key, start, name.len() as u64, self.any(4)?, self.any(4)?])
    }

    pub fn oid(&mut self) -> Result<[u64; 5], Refused> {
        Ok([self.id()?, 0, 0, 0, 0])
    }

    fn tuple(&mut self) -> Result<u64, Refused> {
        let start = self.at;
        for _ in 0..self.column_count()? {
            self.column()?;
        }
        Ok(start)
    }

    /// The numbers that a part adds to the flat form.
    fn part(&mut self, part: Part, in_block: bool) -> Result<Vec<u64>, Refused> {
        Ok(match part {
            UpTo(high) => vec![self.up_to(high)?],
            Long => vec![self.any(8)?],
            Id => vec![self.id()?],
            TypeOid => vec![self.any(4)?],
            BlockXid => vec![if in_block { self.id()? } else { 0 }],
            Text => {
                let start = self.at;
                vec![start, self.text()?.len() as u64]
            }
            Letter(set) => vec![self.letter(set)?],
            New => {
                self.letter(b"N")?;
                vec![]
            }
            Tuple => vec![self.tuple()?],
            OldTuple => match self.rest().first() {
                Some(b'K' | b'O') => vec![self.any(1)?, self.tuple()?],
                _ => vec![0, 0],
            },
            Columns => {
                let count = self.column_count()?;
                let start = self.at;
                for _ in 0..count {
                    self.relation_column()?;
                }
                vec![count, start]
            }
            Oids => {
                let count = self.relation_count()?;
                let options = self.up_to(3)?;
                let start = self.at;
                for _ in 0..count {
                    self.id()?;
                }
                vec![count, options, start]
            }
            Content => {
                let length = self.length()?;
                let start = self.at;
                self.take(length)?;
                vec![start, length]
            }
        })
    }
}

/// The flat form of a message.
pub fn read(version: u32, in_block: bool, bytes: &[u8]) -> Result<[u64; 16], Refused> {
    if version_refuses(version, in_block) {
        return Err((1, 0));
    }
    if bytes.len() as u64 > LARGEST {
        return Err((6, 0));
    }
    let first = bytes.first().ok_or((2, 0))?;
    let kind = LETTERS.iter().position(|letter| letter == first).ok_or((3, 0))? as u64 + 1;
    if lacks(version, kind) {
        return Err((3, 0));
    }
    let mut reader = Reader { bytes, at: 1 };
    let mut flat = vec![kind];
    for &part in layout(kind) {
        flat.extend(reader.part(part, in_block)?);
    }
    if reader.at != bytes.len() as u64 {
        return Err((5, reader.at));
    }
    flat.resize(16, 0);
    Ok(flat.try_into().unwrap())
}

/// How wide each number of a part may be, in bits.
fn widths(part: Part) -> &'static [u32] {
    match part {
        UpTo(_) | Letter(_) => &[8],
        Long | Tuple => &[64],
        Id | TypeOid | BlockXid => &[32],
        Text | Content => &[64, 64],
        New => &[],
        OldTuple => &[8, 64],
        Columns => &[16, 64],
        Oids => &[32, 8, 64],
    }
}

/// The parts of a flat form with their numbers, or none where it is no message's.
fn parts_of(flat: &[u64; 16]) -> Option<Vec<(Part, &[u64])>> {
    if !(1..=14).contains(&flat[0]) {
        return None;
    }
    let mut rest = &flat[1..];
    let mut parts = vec![];
    for &part in layout(flat[0]) {
        let (numbers, behind) = rest.split_at(widths(part).len());
        let fit = numbers.iter().zip(widths(part)).all(|(&number, &width)| width == 64 || number >> width == 0);
        let is_old = match (part, numbers) {
            (OldTuple, &[letter, start]) => letter == 0 && start == 0 || b"KO".map(u64::from).contains(&letter),
            _ => true,
        };
        if !fit || !is_old {
            return None;
        }
        parts.push((part, numbers));
        rest = behind;
    }
    rest.iter().all(|&number| number == 0).then_some(parts)
}

/// A message being written: its length so far, and its pieces, which are joined only where they fit the output.
struct Writer<'a> {
    source: &'a [u8],
    length: u64,
    pieces: Vec<Cow<'a, [u8]>>,
}

impl<'a> Writer<'a> {
    /// A good field; then the length so far.
    fn put(&mut self, piece: impl Into<Cow<'a, [u8]>>) -> Result<(), Refused> {
        let piece = piece.into();
        self.length += piece.len() as u64;
        self.pieces.push(piece);
        if self.length > LARGEST {
            Err((6, 0))
        } else {
            Ok(())
        }
    }

    fn put_number(&mut self, width: usize, value: u64) -> Result<(), Refused> {
        self.put(value.to_be_bytes()[8 - width..].to_vec())
    }

    fn test(&self, is_good: bool, refusal: u32) -> Result<(), Refused> {
        if is_good {
            Ok(())
        } else {
            Err((refusal, self.length))
        }
    }

    /// What lies in the source.
    fn lent(&self, start: u64, length: u64) -> Result<&'a [u8], Refused> {
        self.test(u128::from(start) + u128::from(length) <= self.source.len() as u128, 2)?;
        Ok(&self.source[start as usize..][..length as usize])
    }

    /// One field that lies in the source in its layout. A refusal's offset is where the message stands.
    fn copy<T>(&mut self, from: &mut Reader<'a>, field: impl Fn(&mut Reader<'a>) -> Result<T, Refused>) -> Result<T, Refused> {
        let mut probe = Reader { bytes: from.bytes, at: from.at };
        let value = field(&mut probe).map_err(|(number, _)| (number, self.length))?;
        let taken = from.take(probe.at - from.at)?;
        self.put(taken)?;
        Ok(value)
    }

    fn tuple(&mut self, start: u64) -> Result<(), Refused> {
        let from = &mut Reader { bytes: self.source, at: start };
        for _ in 0..self.copy(from, |r| r.column_count())? {
            let letter = self.copy(from, |r| r.letter(b"nutb"))? as u8;
            if letter == b't' || letter == b'b' {
                let length = self.copy(from, |r| r.length())?;
                self.copy(from, |r| r.take(length))?;
            }
        }
        Ok(())
    }

    fn part(&mut self, part: Part, numbers: &[u64], in_block: bool) -> Result<(), Refused> {
        match (part, numbers) {
            (UpTo(high), &[byte]) => {
                self.test(byte <= high, 4)?;
                self.put_number(1, byte)
            }
            (Long, &[value]) => self.put_number(8, value),
            (TypeOid, &[oid]) => self.put_number(4, oid),
            (BlockXid, &[xid]) if !in_block => self.test(xid == 0, 4),
            (Id | BlockXid, &[id]) => {
                self.test(id != 0, 4)?;
                self.put_number(4, id)
            }
            (Text, &[start, length]) => {
                let text = self.lent(start, length)?;
                self.test(!text.contains(&0), 4)?;
                self.put([text, &[0]].concat())
            }
            (Letter(set), &[letter]) => {
                self.test(set.contains(&(letter as u8)), 4)?;
                self.put_number(1, letter)
            }
            (New, &[]) => self.put_number(1, b'N'.into()),
            (Tuple, &[start]) => self.tuple(start),
            (OldTuple, &[0, _]) => Ok(()),
            (OldTuple, &[letter, start]) => {
                self.put_number(1, letter)?;
                self.tuple(start)
            }
            (Columns, &[count, start]) => {
                self.test(count <= 1600, 6)?;
                self.put_number(2, count)?;
                let from = &mut Reader { bytes: self.source, at: start };
                for _ in 0..count {
                    self.copy(from, |r| r.up_to(1))?;
                    self.copy(from, |r| r.text())?;
                    self.copy(from, |r| r.any(4))?;
                    self.copy(from, |r| r.any(4))?;
                }
                Ok(())
            }
            (Oids, &[count, options, start]) => {
                self.test((1..=256).contains(&count), 6)?;
                self.put_number(4, count)?;
                self.part(UpTo(3), &[options], in_block)?;
                let from = &mut Reader { bytes: self.source, at: start };
                for _ in 0..count {
                    self.copy(from, |r| r.id())?;
                }
                Ok(())
            }
            (Content, &[start, length]) => {
                self.put_number(4, length & 0xFFFF_FFFF)?;
                let content = self.lent(start, length)?;
                self.put(content)
            }
            _ => unreachable!("widths gives each part its numbers"),
        }
    }
}

/// The message's bytes, where they fit `room`.
pub fn write(version: u32, in_block: bool, flat: &[u64; 16], source: &[u8], room: usize) -> Result<Vec<u8>, Refused> {
    let parts = parts_of(flat).ok_or((4, 0))?;
    if version_refuses(version, in_block) {
        return Err((1, 0));
    }
    if lacks(version, flat[0]) {
        return Err((3, 0));
    }
    let mut writer = Writer { source, length: 0, pieces: vec![] };
    writer.put_number(1, LETTERS[flat[0] as usize - 1].into())?;
    for (part, numbers) in parts {
        writer.part(part, numbers, in_block)?;
    }
    if writer.length > room as u64 {
        return Err((13, 0));
    }
    Ok(writer.pieces.concat())
}
