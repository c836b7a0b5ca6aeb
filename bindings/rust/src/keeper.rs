use crate::{ffi, Answer, Refusal, Session};
use std::fmt;

/// A keeper holds the changes of streamed transactions until these commit, so that nobody sees half of one.
///
/// It stands beside a session from the start, and every message is given to both by [`Keeper::give`]. Each Insert, Update, Delete and
/// Truncate that is accepted in a stream block is held. A Stream Commit releases those of its transaction, in the order in which they
/// came. A Stream Abort drops them, or those that came under its sub-transaction's xid. All other messages, and changes outside blocks,
/// are the session's alone: what is not streamed is never held.
///
/// A keeper has the room that it was given; [`Keeper::grow`] gives it more.
///
/// Two neighbouring blocks (Stream Start to Stream Stop) of different xids may be exchanged: if every message of both is accepted, then it
/// is in the other order too, and each of them and each message afterwards, given with the same tag, output and room, gets the same reply.
/// Only what is [held](Keeper::held_records) stands in another order meanwhile.
///
/// ```
/// use kitsoriqu::{Keeper, Record, Refusal, Session};
///
/// let mut session = Session::new(2);
/// let mut keeper = Keeper::with_room(4096);
/// let mut out = [0; 4096];
///
/// let insert = b"I\0\0\0\x07\0\0\0\x05N\0\x01t\0\0\0\x0242";
/// let in_savepoint = b"I\0\0\0\x08\0\0\0\x05N\0\x01t\0\0\0\x0243";
/// let feed: [&[u8]; 6] = [
///     b"S\0\0\0\x07\x01",
///     b"R\0\0\0\x07\0\0\0\x05\0t\0d\0\x01\x01id\0\0\0\0\x17\xFF\xFF\xFF\xFF",
///     insert,
///     in_savepoint,
///     b"E",
///     b"A\0\0\0\x07\0\0\0\x08", // back to the savepoint
/// ];
/// for (bytes, tag) in feed.into_iter().zip(0..) {
///     let reply = keeper.give(&mut session, bytes, tag, &mut out)?;
///     assert_eq!(reply.released.count(), 0);
/// }
/// assert_eq!(keeper.held(), 14 + insert.len());
///
/// let commit = b"c\0\0\0\x07\0\0\0\0\0\0\0\0\x10\0\0\0\0\0\0\0\x20\0\0\0\0\0\0\0\0";
/// let reply = keeper.give(&mut session, commit, 6, &mut out)?;
/// assert!(reply.released.eq([Record { top_xid: 7, own_xid: 7, message: insert }]));
/// assert_eq!(keeper.held(), 0);
/// # Ok::<(), Refusal>(())
/// ```
#[derive(Clone)]
pub struct Keeper {
    buffer: Vec<u8>,
    held: usize,
}

/// What an accepted message gets.
#[derive(Clone, Debug)]
pub struct Reply<'a> {
    /// The session's answer.
    pub answer: Answer,
    /// For a Stream Commit, what its transaction kept: at the start of the output. Else nothing.
    pub released: Records<'a>,
}

/// A change that was kept.
#[derive(Clone, Copy, Debug, PartialEq, Eq)]
pub struct Record<'a> {
    /// The streamed transaction's xid.
    pub top_xid: u32,
    /// The xid in the message: the same, or a sub-transaction's.
    pub own_xid: u32,
    /// The message as it came: to be read as inside a block, `read(2, true, message)`.
    pub message: &'a [u8],
}

/// Records in bytes: each is the mark C3 4D, the top xid, the own xid and the message's length, of 32 bits each, and the message. The
/// iterator ends at the first bytes that are no whole record, which no keeper leaves.
#[derive(Clone)]
pub struct Records<'a> {
    bytes: &'a [u8],
}

impl Keeper {
    /// A keeper with a buffer of so many bytes. A record takes 14 and its message's.
    pub fn with_room(bytes: usize) -> Keeper {
        Keeper::from_parts(vec![0; bytes], 0)
    }

    /// A keeper over a buffer, of which so many bytes are held: what [`Keeper::into_parts`] gave, or made up. Bytes that are no whole
    /// record, and all that are held behind them, are nobody's and stay; a number past the buffer leaves no room.
    pub fn from_parts(buffer: Vec<u8>, held: usize) -> Keeper {
        Keeper { buffer, held }
    }

    /// Its buffer, and how many bytes at the buffer's start are held.
    pub fn into_parts(self) -> (Vec<u8>, usize) {
        (self.buffer, self.held)
    }

    /// How many bytes the buffer has.
    pub fn room(&self) -> usize {
        self.buffer.len()
    }

    /// How many bytes are held.
    pub fn held(&self) -> usize {
        self.held
    }

    /// What is held, of all transactions, in the order in which it came.
    pub fn held_records(&self) -> Records<'_> {
        Records::new(&self.buffer[..self.held.min(self.room())])
    }

    /// Adds so many bytes to the buffer. A change that was refused with [`Refusal::KEEPER`] may then be given again.
    pub fn grow(&mut self, bytes: usize) {
        self.buffer.resize(self.room() + bytes, 0);
    }

    /// Gives the session one message, with a tag as in [`Session::give`], and keeps, releases or drops what it says. What is released
    /// goes to the start of `out`, whose other bytes stay as they were.
    ///
    /// To the session's refusals two are added: [`Refusal::KEEPER`] for a change that the buffer has no room for, and
    /// [`Refusal::OUTPUT`] for a Stream Commit whose records are longer than `out`. A refusal leaves the session, the keeper and `out`
    /// as they were, so the same message may be given again with a longer output. One as long as what is [held](Keeper::held) is
    /// always long enough; messages that are no Stream Commit need none.
    pub fn give<'a>(&mut self, session: &mut Session, bytes: &[u8], tag: u64, out: &'a mut [u8]) -> Result<Reply<'a>, Refusal> {
        let mut reply = [0; ffi::REPLY];
        let number = ffi::keeper_give(&mut session.record, bytes, tag, &mut self.buffer, &mut self.held, out, &mut reply);
        let [answer @ .., released] = reply;
        let answer = Answer::of(number, answer)?;
        Ok(Reply { answer, released: Records::new(&out[..released as usize]) })
    }
}

impl fmt::Debug for Keeper {
    fn fmt(&self, f: &mut fmt::Formatter<'_>) -> fmt::Result {
        f.debug_struct("Keeper").field("room", &self.room()).field("held", &self.held).finish()
    }
}

impl<'a> Records<'a> {
    /// The records in bytes that a keeper released or held.
    pub fn new(bytes: &'a [u8]) -> Records<'a> {
        Records { bytes }
    }

    /// The bytes of those that are left.
    pub fn as_bytes(&self) -> &'a [u8] {
        self.bytes
    }
}

/// A number of 32 bits, and what is behind it.
fn number(bytes: &[u8]) -> Option<(u32, &[u8])> {
    let (number, behind) = bytes.split_first_chunk()?;
    Some((u32::from_be_bytes(*number), behind))
}

impl<'a> Iterator for Records<'a> {
    type Item = Record<'a>;

    fn next(&mut self) -> Option<Record<'a>> {
        let behind = self.bytes.strip_prefix(b"\xC3\x4D")?;
        let (top_xid, behind) = number(behind)?;
        let (own_xid, behind) = number(behind)?;
        let (length, behind) = number(behind)?;
        let (message, behind) = behind.split_at_checked(length as usize)?;
        self.bytes = behind;
        Some(Record { top_xid, own_xid, message })
    }
}

impl std::iter::FusedIterator for Records<'_> {}

impl fmt::Debug for Records<'_> {
    fn fmt(&self, f: &mut fmt::Formatter<'_>) -> fmt::Result {
        f.debug_list().entries(self.clone()).finish()
    }
}
