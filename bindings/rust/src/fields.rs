use crate::{ffi, Identity, OldTuple, Refusal};

/// Where a text or a content lies in the source. A text's length is without its zero byte.
#[derive(Clone, Copy, Debug, PartialEq, Eq)]
pub struct Span {
    pub start: usize,
    pub length: usize,
}

/// The flat form of a message, which is what [`write()`] takes: its kind, its fields in the order of its layout, and zeros to 16 numbers.
///
/// A message that was read has one, [`Decoded::fields`](crate::Decoded::fields), with its bytes as source. The functions below describe
/// a message from scratch: its texts and content by their [`Span`]s in the source, and a tuple (its count included), a Relation's
/// columns and a Truncate's OIDs by where they start there, in their layout. Any 16 numbers may be written: what is no message is
/// refused.
#[derive(Clone, Copy, Debug, PartialEq, Eq)]
pub struct Fields(pub [u64; ffi::FLAT]);

/// The kinds of messages: the first number of the flat form.
pub mod kind {
    pub const BEGIN: u64 = 1;
    pub const COMMIT: u64 = 2;
    pub const ORIGIN: u64 = 3;
    pub const RELATION: u64 = 4;
    pub const TYPE: u64 = 5;
    pub const INSERT: u64 = 6;
    pub const UPDATE: u64 = 7;
    pub const DELETE: u64 = 8;
    pub const TRUNCATE: u64 = 9;
    pub const MESSAGE: u64 = 10;
    pub const STREAM_START: u64 = 11;
    pub const STREAM_STOP: u64 = 12;
    pub const STREAM_COMMIT: u64 = 13;
    pub const STREAM_ABORT: u64 = 14;
}

fn flat(kind: u64, numbers: &[u64]) -> Fields {
    let mut all = [0; ffi::FLAT];
    all[0] = kind;
    all[1..=numbers.len()].copy_from_slice(numbers);
    Fields(all)
}

/// An xid that is there only inside a stream block.
fn block(xid: Option<u32>) -> u64 {
    xid.unwrap_or(0).into()
}

impl Fields {
    pub fn begin(final_lsn: u64, time: i64, xid: u32) -> Fields {
        flat(kind::BEGIN, &[final_lsn, time as u64, xid.into()])
    }

    pub fn commit(commit_lsn: u64, end_lsn: u64, time: i64) -> Fields {
        flat(kind::COMMIT, &[0, commit_lsn, end_lsn, time as u64])
    }

    pub fn origin(lsn: u64, name: Span) -> Fields {
        flat(kind::ORIGIN, &[lsn, name.start as u64, name.length as u64])
    }

    pub fn relation(
        xid: Option<u32>,
        relation: u32,
        namespace: Span,
        name: Span,
        identity: Identity,
        count: u16,
        columns: usize,
    ) -> Fields {
        let [from, from_length] = [namespace.start as u64, namespace.length as u64];
        let [start, length] = [name.start as u64, name.length as u64];
        let identity = identity.letter().into();
        flat(kind::RELATION, &[block(xid), relation.into(), from, from_length, start, length, identity, count.into(), columns as u64])
    }

    pub fn type_name(xid: Option<u32>, type_oid: u32, namespace: Span, name: Span) -> Fields {
        let [from, from_length] = [namespace.start as u64, namespace.length as u64];
        flat(kind::TYPE, &[block(xid), type_oid.into(), from, from_length, name.start as u64, name.length as u64])
    }

    pub fn insert(xid: Option<u32>, relation: u32, new: usize) -> Fields {
        flat(kind::INSERT, &[block(xid), relation.into(), new as u64])
    }

    pub fn update(xid: Option<u32>, relation: u32, old: Option<OldTuple<usize>>, new: usize) -> Fields {
        let [letter, start] = old.map_or([0, 0], |old| old.numbers());
        flat(kind::UPDATE, &[block(xid), relation.into(), letter, start, new as u64])
    }

    pub fn delete(xid: Option<u32>, relation: u32, old: OldTuple<usize>) -> Fields {
        let [letter, start] = old.numbers();
        flat(kind::DELETE, &[block(xid), relation.into(), letter, start])
    }

    /// `options`: 1 CASCADE, 2 RESTART IDENTITY, 3 both.
    pub fn truncate(xid: Option<u32>, count: u32, options: u8, oids: usize) -> Fields {
        flat(kind::TRUNCATE, &[block(xid), count.into(), options.into(), oids as u64])
    }

    pub fn logical(xid: Option<u32>, transactional: bool, lsn: u64, prefix: Span, content: Span) -> Fields {
        let [start, length] = [prefix.start as u64, prefix.length as u64];
        flat(kind::MESSAGE, &[block(xid), transactional.into(), lsn, start, length, content.start as u64, content.length as u64])
    }

    pub fn stream_start(xid: u32, first: bool) -> Fields {
        flat(kind::STREAM_START, &[xid.into(), first.into()])
    }

    pub fn stream_stop() -> Fields {
        flat(kind::STREAM_STOP, &[])
    }

    pub fn stream_commit(xid: u32, commit_lsn: u64, end_lsn: u64, time: i64) -> Fields {
        flat(kind::STREAM_COMMIT, &[xid.into(), 0, commit_lsn, end_lsn, time as u64])
    }

    pub fn stream_abort(xid: u32, sub_xid: u32) -> Fields {
        flat(kind::STREAM_ABORT, &[xid.into(), sub_xid.into()])
    }
}

impl OldTuple<usize> {
    fn numbers(self) -> [u64; 2] {
        match self {
            OldTuple::Key(start) => [b'K'.into(), start as u64],
            OldTuple::Full(start) => [b'O'.into(), start as u64],
        }
    }
}

/// Writes a message, whose texts and other parts lie in `source`, to the front of `out` and gives its length. The bytes of `out`
/// behind it, and all of them where the message is refused, stay as they were.
///
/// ```
/// use kitsoriqu::{write, Fields, Refusal, Span};
///
/// let mut out = [0xAA; 16];
/// let origin = Fields::origin(7, Span { start: 3, length: 5 });
/// let length = write(1, false, &origin, b"to north", &mut out)?;
/// assert_eq!(&out[..length], b"O\0\0\0\0\0\0\0\x07north\0");
/// assert_eq!(out[length], 0xAA);
///
/// let short = write(1, false, &origin, b"to north", &mut out[..length - 1]).unwrap_err();
/// assert_eq!(short.number, Refusal::OUTPUT);
/// # Ok::<(), Refusal>(())
/// ```
pub fn write(version: u32, in_block: bool, fields: &Fields, source: &[u8], out: &mut [u8]) -> Result<usize, Refusal> {
    let mut result = 0;
    match ffi::write(version, in_block, &fields.0, source, out, &mut result) {
        0 => Ok(result as usize),
        number => Err(Refusal { number, offset: result }),
    }
}
