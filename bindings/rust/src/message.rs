use crate::{ffi, kind, Columns, Fields, Oids, Refusal, Tuple};

/// A message, with its texts and contents borrowed from the bytes it was read from.
///
/// Numbers are as the PostgreSQL manual has them ("Logical Replication Message Formats"): a time is in microseconds since 2000-01-01;
/// an `xid: Option<u32>` is there only inside a stream block. Texts are without their zero byte, in whatever encoding the server uses.
#[derive(Clone, Debug)]
pub enum Message<'a> {
    Begin {
        final_lsn: u64,
        time: i64,
        xid: u32,
    },
    Commit {
        commit_lsn: u64,
        end_lsn: u64,
        time: i64,
    },
    Origin {
        lsn: u64,
        name: &'a [u8],
    },
    Relation {
        xid: Option<u32>,
        relation: u32,
        namespace: &'a [u8],
        name: &'a [u8],
        identity: Identity,
        columns: Columns<'a>,
    },
    Type {
        xid: Option<u32>,
        type_oid: u32,
        namespace: &'a [u8],
        name: &'a [u8],
    },
    Insert {
        xid: Option<u32>,
        relation: u32,
        new: Tuple<'a>,
    },
    Update {
        xid: Option<u32>,
        relation: u32,
        old: Option<OldTuple<Tuple<'a>>>,
        new: Tuple<'a>,
    },
    Delete {
        xid: Option<u32>,
        relation: u32,
        old: OldTuple<Tuple<'a>>,
    },
    Truncate {
        xid: Option<u32>,
        cascade: bool,
        restart_identity: bool,
        relations: Oids<'a>,
    },
    /// A logical decoding message. One that is not transactional may stand anywhere, also outside a transaction.
    Logical {
        xid: Option<u32>,
        transactional: bool,
        lsn: u64,
        prefix: &'a [u8],
        content: &'a [u8],
    },
    StreamStart {
        xid: u32,
        first: bool,
    },
    StreamStop,
    StreamCommit {
        xid: u32,
        commit_lsn: u64,
        end_lsn: u64,
        time: i64,
    },
    StreamAbort {
        xid: u32,
        sub_xid: u32,
    },
}

/// A relation's replica identity.
#[derive(Clone, Copy, Debug, PartialEq, Eq, Hash)]
pub enum Identity {
    /// The primary key.
    Default,
    Nothing,
    /// All columns.
    Full,
    Index,
}

/// An old tuple (or where it starts): the key, or the whole old row where the replica identity is full.
#[derive(Clone, Copy, Debug, PartialEq, Eq)]
pub enum OldTuple<T> {
    Key(T),
    Full(T),
}

impl Identity {
    pub fn letter(self) -> u8 {
        match self {
            Identity::Default => b'd',
            Identity::Nothing => b'n',
            Identity::Full => b'f',
            Identity::Index => b'i',
        }
    }

    /// Of a letter that the library has checked.
    pub(crate) fn of(letter: u64) -> Identity {
        [Identity::Default, Identity::Nothing, Identity::Full, Identity::Index]
            .into_iter()
            .find(|identity| u64::from(identity.letter()) == letter)
            .expect("a replica identity is one of the letters d n f i")
    }
}

/// A message that was read: its flat form and the bytes it was read from. It can be looked at and written back with no copy.
///
/// ```
/// use kitsoriqu::{write, Decoded, Refusal};
///
/// let bytes = b"I\0\0\0\x05N\0\x02nt\0\0\0\x01a";
/// let decoded = Decoded::read(1, false, bytes)?;
/// let mut out = [0; 64];
/// let length = write(1, false, decoded.fields(), decoded.bytes(), &mut out)?;
/// assert_eq!(&out[..length], bytes);
/// # Ok::<(), Refusal>(())
/// ```
#[derive(Clone, Copy, Debug)]
pub struct Decoded<'a> {
    bytes: &'a [u8],
    fields: Fields,
}

/// Reads one message. `in_block` says whether it stands inside a stream block (from Stream Start to Stream Stop).
///
/// ```
/// use kitsoriqu::{read, Column, Message, Refusal};
///
/// let bytes = b"I\0\0\0\x05N\0\x02nt\0\0\0\x01a";
/// match read(1, false, bytes)? {
///     Message::Insert { relation, new, .. } => {
///         assert_eq!(relation, 5);
///         assert_eq!(new.collect::<Vec<_>>(), [Column::Null, Column::Text(b"a")]);
///     }
///     _ => unreachable!(),
/// }
///
/// let refusal = read(1, false, &bytes[..14]).unwrap_err();
/// assert_eq!((refusal.number, refusal.offset), (Refusal::SHORT, 14));
/// # Ok::<(), Refusal>(())
/// ```
pub fn read(version: u32, in_block: bool, bytes: &[u8]) -> Result<Message<'_>, Refusal> {
    Decoded::read(version, in_block, bytes).map(|decoded| decoded.message())
}

impl<'a> Decoded<'a> {
    /// Reads one message, as [`read`] does.
    pub fn read(version: u32, in_block: bool, bytes: &'a [u8]) -> Result<Decoded<'a>, Refusal> {
        let mut out = [0; ffi::FLAT];
        match ffi::read(version, in_block, bytes, &mut out) {
            0 => Ok(Decoded { bytes, fields: Fields(out) }),
            number => Err(Refusal { number, offset: out[0] }),
        }
    }

    pub fn fields(&self) -> &Fields {
        &self.fields
    }

    pub fn bytes(&self) -> &'a [u8] {
        self.bytes
    }

    fn part(&self, start: u64, length: u64) -> &'a [u8] {
        &self.bytes[start as usize..][..length as usize]
    }

    fn tuple(&self, start: u64) -> Tuple<'a> {
        Tuple::at(self.bytes, start)
    }

    fn old(&self, letter: u64, start: u64) -> OldTuple<Tuple<'a>> {
        if letter == u64::from(b'K') {
            OldTuple::Key(self.tuple(start))
        } else {
            OldTuple::Full(self.tuple(start))
        }
    }

    /// The typed message.
    pub fn message(&self) -> Message<'a> {
        let [k, a, b, c, d, e, f, g, h, i, ..] = self.fields.0;
        // a kind's ids and flags fit their fields, so the casts lose nothing
        let xid = (a != 0).then_some(a as u32);
        match k {
            kind::BEGIN => Message::Begin { final_lsn: a, time: b as i64, xid: c as u32 },
            kind::COMMIT => Message::Commit { commit_lsn: b, end_lsn: c, time: d as i64 },
            kind::ORIGIN => Message::Origin { lsn: a, name: self.part(b, c) },
            kind::RELATION => Message::Relation {
                xid,
                relation: b as u32,
                namespace: self.part(c, d),
                name: self.part(e, f),
                identity: Identity::of(g),
                columns: Columns::at(self.bytes, i, h),
            },
            kind::TYPE => Message::Type { xid, type_oid: b as u32, namespace: self.part(c, d), name: self.part(e, f) },
            kind::INSERT => Message::Insert { xid, relation: b as u32, new: self.tuple(c) },
            kind::UPDATE => Message::Update { xid, relation: b as u32, old: (c != 0).then(|| self.old(c, d)), new: self.tuple(e) },
            kind::DELETE => Message::Delete { xid, relation: b as u32, old: self.old(c, d) },
            kind::TRUNCATE => {
                Message::Truncate { xid, cascade: c & 1 != 0, restart_identity: c & 2 != 0, relations: Oids::at(self.bytes, d, b) }
            }
            kind::MESSAGE => Message::Logical { xid, transactional: b == 1, lsn: c, prefix: self.part(d, e), content: self.part(f, g) },
            kind::STREAM_START => Message::StreamStart { xid: a as u32, first: b == 1 },
            kind::STREAM_STOP => Message::StreamStop,
            kind::STREAM_COMMIT => Message::StreamCommit { xid: a as u32, commit_lsn: c, end_lsn: d, time: e as i64 },
            kind::STREAM_ABORT => Message::StreamAbort { xid: a as u32, sub_xid: b as u32 },
            _ => unreachable!("a flat form that was read has one of the kinds"),
        }
    }
}
