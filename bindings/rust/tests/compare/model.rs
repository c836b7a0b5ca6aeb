//! What a session with a keeper should answer, by a history and a list of what is kept; and what may come next then.
use crate::answers::numbers_of;
use crate::history::{History, Place};
use crate::kept::{word, Kept};
use crate::rng::Rng;
use crate::sequences::{next, stream_abort, stream_commit, stream_start, Pool, MIXED};

#[derive(Clone)]
pub struct Model {
    pub history: History,
    pub kept: Kept,
}

impl Model {
    pub fn start(version: u32) -> Model {
        Model { history: History::new(version), kept: Kept::nothing() }
    }

    /// The answer to a message, with so much room for what is kept and for what is released, and what it releases.
    pub fn give(&mut self, bytes: &[u8], tag: u64, room: usize, output: usize) -> ((u32, [u64; 4]), Vec<u8>) {
        let mut released = vec![];
        let keep = |place| {
            let block = if let Place::Block(xid) = place { Some(xid as u32) } else { None };
            released = self.kept.give(block, bytes, room, output)?;
            Ok(())
        };
        let answer = numbers_of(self.history.give_if(bytes, tag, keep));
        (answer, released)
    }

    /// How many bytes a message would release.
    pub fn released(&self, bytes: &[u8]) -> usize {
        let is_commit = bytes.len() >= 5 && bytes[0] == b'c';
        if is_commit {
            self.kept.of(word(bytes, 1)).len()
        } else {
            0
        }
    }
}

/// Few xids, so that they are used again as a transaction's and as a sub-transaction's, and streams that close more or less often.
pub fn streamed(rng: &mut Rng) -> Pool {
    Pool { oids: 2, xids: rng.pick(&[3, 5]), ends: 6, closes: rng.pick(&[1, 3, 6]), ..MIXED }
}

pub fn any_bytes(rng: &mut Rng, length: usize) -> Vec<u8> {
    (0..length).map(|_| rng.byte()).collect()
}

/// A Stream Commit or Stream Abort of something that is kept, or of an xid of the pool.
pub fn end(rng: &mut Rng, kept: &Kept, pool: &Pool) -> Vec<u8> {
    let xid = pool.xid(rng);
    let xids: Vec<_> = kept.pieces.iter().filter_map(|piece| piece.xids).chain([(xid, xid)]).collect();
    let (top, own) = rng.pick(&xids);
    if rng.one_in(2) { stream_commit(top) } else { stream_abort(top, own) }.0
}

/// The next message: between blocks mostly one that starts a block or ends a transaction.
pub fn next_streamed(rng: &mut Rng, model: &Model, pool: &Pool) -> Vec<u8> {
    let Model { history, kept } = model;
    let choice = if history.place() == Place::Idle { rng.below(8) } else { 7 };
    match choice {
        0..=2 => {
            let xid = pool.xid(rng);
            stream_start(xid, !history.is_open(xid.into())).0
        }
        3 | 4 => end(rng, kept, pool),
        _ => next(rng, history, pool),
    }
}

/// An output of about this length: too short, exact or longer.
pub fn output(rng: &mut Rng, exact: usize) -> Vec<u8> {
    let longer = exact + rng.below(60) as usize;
    let shorter = rng.below(exact as u64 + 1) as usize;
    let length = rng.pick(&[0, shorter, exact.saturating_sub(1), exact, longer, longer]);
    any_bytes(rng, length)
}
