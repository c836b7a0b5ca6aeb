use crate::{ffi, Identity, Refusal};
use std::fmt;

/// A session judges messages in sequence: blocks match, a streamed transaction opens only when it is not open and closes only when it
/// is, and every change lies inside a transaction and names an announcement that it may see, of the same shape. A logical message that is
/// not transactional may stand anywhere.
///
/// It has room for 256 live announcements and 16 open streamed transactions, inline: about 5 KB, and it allocates nothing.
///
/// Two neighbouring blocks (Stream Start to Stream Stop) of different xids may be exchanged: if every message of both is accepted, then it
/// is in the other order too, and each of them and each message afterwards, given with the same tag, gets the same answer.
///
/// ```
/// use kitsoriqu::{Answer, Identity, Refusal, Session};
///
/// let mut session = Session::new(2);
/// session.give(b"B\0\0\0\0\0\0\0\x10\0\0\0\0\0\0\0\0\0\0\0\x07", 0)?;
/// session.give(b"R\0\0\0\x05\0t\0d\0\x01\x01id\0\0\0\0\x17\xFF\xFF\xFF\xFF", 1)?;
/// let answer = session.give(b"I\0\0\0\x05N\0\x01t\0\0\0\x011", 2)?;
/// assert_eq!(answer, Answer::Change { tag: 1, identity: Identity::Default, columns: 1 });
///
/// let refusal = session.give(b"I\0\0\0\x06N\0\x01n", 3).unwrap_err();
/// assert_eq!(refusal.number, Refusal::RELATION);
/// # Ok::<(), Refusal>(())
/// ```
#[derive(Clone)]
pub struct Session {
    pub(crate) record: ffi::Record,
}

/// What an accepted message is answered.
#[derive(Clone, Copy, Debug, PartialEq, Eq)]
pub enum Answer {
    Accepted,
    /// For an Insert, Update, Delete or Truncate: the announcement that it names (a Truncate's first), by the tag that was given with
    /// it, its replica identity and its column count.
    Change {
        tag: u64,
        identity: Identity,
        columns: u16,
    },
}

impl Answer {
    /// Of what a session's function returned and filled in.
    pub(crate) fn of(number: u32, numbers: [u64; ffi::ANSWER]) -> Result<Answer, Refusal> {
        match (number, numbers) {
            (0, [1, tag, identity, columns]) => Ok(Answer::Change { tag, identity: Identity::of(identity), columns: columns as u16 }),
            (0, _) => Ok(Answer::Accepted),
            (number, [offset, ..]) => Err(Refusal { number, offset }),
        }
    }
}

impl Session {
    /// Starts a session of a protocol version. With one that is not 1 or 2 it refuses every message.
    pub fn new(version: u32) -> Session {
        let mut record = ffi::Record::ZERO;
        ffi::session_start(&mut record, version);
        Session { record }
    }

    /// Gives the session one message, with a tag of the caller's choice that an announcement (an accepted Relation) keeps.
    /// A refusal leaves the session as it was.
    pub fn give(&mut self, bytes: &[u8], tag: u64) -> Result<Answer, Refusal> {
        let mut answer = [0; ffi::ANSWER];
        let number = ffi::session_give(&mut self.record, bytes, tag, &mut answer);
        Answer::of(number, answer)
    }
}

impl Default for Session {
    /// Starts a session with no version named: version 1.
    fn default() -> Session {
        let mut record = ffi::Record::ZERO;
        ffi::session_start_default(&mut record);
        Session { record }
    }
}

impl fmt::Debug for Session {
    fn fmt(&self, f: &mut fmt::Formatter<'_>) -> fmt::Result {
        f.debug_struct("Session").finish_non_exhaustive()
    }
}
