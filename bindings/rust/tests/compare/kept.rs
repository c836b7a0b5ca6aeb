//! A keeper without a buffer: the list of what it keeps, and from that the bytes that should lie in its buffer, made anew each time.
use crate::layouts::Refused;

/// A part of what is held: a record, with its transaction's xid and its own, or bytes that are nobody's.
#[derive(Clone, PartialEq, Debug)]
pub struct Piece {
    pub xids: Option<(u32, u32)>,
    pub bytes: Vec<u8>,
}

/// What is kept, in arrival order, and how many bytes are said to be held.
#[derive(Clone)]
pub struct Kept {
    pub pieces: Vec<Piece>,
    pub held: usize,
}

/// The number of 32 bits at a place.
pub fn word(bytes: &[u8], at: usize) -> u32 {
    u32::from_be_bytes(bytes[at..at + 4].try_into().unwrap())
}

impl Piece {
    pub fn record(top: u32, own: u32, message: &[u8]) -> Piece {
        let numbers = [top, own, message.len() as u32].map(u32::to_be_bytes);
        Piece { xids: Some((top, own)), bytes: [b"\xC3\x4D", &numbers.concat()[..], message].concat() }
    }

    pub fn is_of(&self, xid: u32) -> bool {
        self.xids.is_some_and(|(top, _)| top == xid)
    }

    /// What a Stream Abort removes.
    fn is_aborted(&self, xid: u32, sub_xid: u32) -> bool {
        self.is_of(xid) && (xid == sub_xid || self.xids == Some((xid, sub_xid)))
    }
}

/// The size of the whole record at the front of bytes.
fn whole_record(bytes: &[u8]) -> Option<usize> {
    let is_marked = bytes.len() >= 14 && bytes[0] == 0xC3 && bytes[1] == 0x4D;
    let size = is_marked.then(|| 14 + word(bytes, 10) as usize)?;
    (size <= bytes.len()).then_some(size)
}

/// Bytes in pieces: whole records from the front; from what is none on, all is one.
fn pieces(mut bytes: &[u8]) -> Vec<Piece> {
    let mut pieces = vec![];
    while !bytes.is_empty() {
        let size = whole_record(bytes);
        let (piece, rest) = bytes.split_at(size.unwrap_or(bytes.len()));
        pieces.push(Piece { xids: size.map(|_| (word(piece, 2), word(piece, 6))), bytes: piece.to_vec() });
        bytes = rest;
    }
    pieces
}

pub fn joined<'a>(pieces: impl IntoIterator<Item = &'a Piece>) -> Vec<u8> {
    pieces.into_iter().flat_map(|piece| piece.bytes.clone()).collect()
}

/// Bytes at the front of a buffer, whose rest stays as it was.
pub fn laid(bytes: &[u8], buffer: &[u8]) -> Vec<u8> {
    [bytes, &buffer[bytes.len()..]].concat()
}

impl Kept {
    pub fn nothing() -> Kept {
        Kept { pieces: vec![], held: 0 }
    }

    /// What lies in a buffer of any content; a number past it counts as its end.
    pub fn read(buffer: &[u8], held: usize) -> Kept {
        Kept { pieces: pieces(&buffer[..held.min(buffer.len())]), held }
    }

    pub fn bytes(&self) -> Vec<u8> {
        joined(&self.pieces)
    }

    /// What a Stream Commit releases.
    pub fn of(&self, xid: u32) -> Vec<u8> {
        joined(self.pieces.iter().filter(|piece| piece.is_of(xid)))
    }

    /// An accepted message, which came in a block of this xid or in none, with so much room for what is kept and for what is released:
    /// what it releases.
    pub fn give(&mut self, block: Option<u32>, bytes: &[u8], room: usize, output: usize) -> Result<Vec<u8>, Refused> {
        match (bytes[0], block) {
            (b'I' | b'U' | b'D' | b'T', Some(top)) => self.keep(Piece::record(top, word(bytes, 1), bytes), room)?,
            (b'c', _) => return self.release(word(bytes, 1), output),
            (b'A', _) => self.remove(|piece| piece.is_aborted(word(bytes, 1), word(bytes, 5))),
            _ => {}
        }
        Ok(vec![])
    }

    fn keep(&mut self, record: Piece, room: usize) -> Result<(), Refused> {
        let held = self.held.checked_add(record.bytes.len()).filter(|&held| held <= room);
        self.held = held.ok_or((14, 0))?;
        self.pieces.push(record);
        Ok(())
    }

    fn release(&mut self, xid: u32, output: usize) -> Result<Vec<u8>, Refused> {
        let released = self.of(xid);
        if released.len() > output {
            return Err((13, 0));
        }
        self.remove(|piece| piece.is_of(xid));
        Ok(released)
    }

    fn remove(&mut self, is_removed: impl Fn(&Piece) -> bool) {
        self.pieces.retain(|piece| !is_removed(piece));
        self.held = self.bytes().len();
    }
}
