//! What keepers did, so that a test can say that they did everything.
use crate::kept::{word, Kept, Piece};
use crate::tally::Counts;
use std::collections::BTreeSet;

const NAMES: [&str; 16] = [
    "kept",
    "kept to the last byte",
    "kept beside two other transactions",
    "no room",
    "no room by a byte",
    "released",
    "released to the last byte",
    "released from among others",
    "released under an xid that was dropped before",
    "nothing released",
    "output too short",
    "output too short by a byte",
    "dropped whole",
    "dropped whole from among others",
    "dropped in part",
    "dropped in part from among others",
];

/// How often each thing was done; and under which xids records were dropped of transactions that are still open.
pub struct Deeds {
    counts: Counts,
    dropped: BTreeSet<(u32, u32)>,
}

/// A message and what was kept before and after it; its answer's number, and the room it had in the buffer and in the output.
pub struct Deed<'a> {
    pub bytes: &'a [u8],
    pub before: &'a Kept,
    pub after: &'a Kept,
    pub number: u32,
    pub room: usize,
    pub output: usize,
}

impl Deed<'_> {
    fn xid(&self) -> u32 {
        word(self.bytes, 1)
    }

    /// Whether each piece went, from the front.
    fn went(&self) -> Vec<bool> {
        let mut stay = self.after.pieces.iter().peekable();
        let went = |piece: &Piece| stay.next_if(|&next| next == piece).is_none();
        self.before.pieces.iter().map(went).collect()
    }
}

/// Whether pieces that went and pieces that stay take turns.
fn takes_turns(went: &[bool]) -> bool {
    went.chunk_by(|a, b| a == b).count() >= 4
}

impl Deeds {
    pub fn new() -> Deeds {
        Deeds { counts: Counts::of(NAMES), dropped: BTreeSet::new() }
    }

    /// A new sequence starts.
    pub fn start(&mut self) {
        self.dropped.clear();
    }

    pub fn note(&mut self, deed: &Deed) {
        match (deed.number, deed.bytes.first()) {
            (0, Some(b'c')) => self.note_release(deed),
            (0, Some(b'A')) => self.note_drop(deed),
            (0, _) => self.note_keeping(deed),
            (13, _) => {
                self.counts.note("output too short", true);
                self.counts.note("output too short by a byte", deed.before.of(deed.xid()).len() == deed.output + 1);
            }
            (14, _) => {
                self.counts.note("no room", true);
                self.counts.note("no room by a byte", deed.before.held.wrapping_add(14 + deed.bytes.len()) == deed.room + 1);
            }
            _ => {}
        }
    }

    fn note_keeping(&mut self, deed: &Deed) {
        let is_kept = deed.after.held > deed.before.held;
        self.counts.note("kept", is_kept);
        self.counts.note("kept to the last byte", is_kept && deed.after.held == deed.room);
        let tops: BTreeSet<_> = deed.after.pieces.iter().filter_map(|piece| piece.xids).map(|(top, _)| top).collect();
        self.counts.note("kept beside two other transactions", is_kept && tops.len() >= 3);
    }

    fn note_release(&mut self, deed: &Deed) {
        let went = deed.went();
        let size = deed.before.of(deed.xid()).len();
        self.counts.note("released", size > 0);
        self.counts.note("nothing released", size == 0);
        self.counts.note("released to the last byte", size > 0 && size == deed.output);
        self.counts.note("released from among others", takes_turns(&went));
        let is_again = |piece: &Piece| piece.is_of(deed.xid()) && piece.xids.is_some_and(|xids| self.dropped.contains(&xids));
        let again = deed.before.pieces.iter().any(is_again);
        self.counts.note("released under an xid that was dropped before", again);
        self.close(deed.xid());
    }

    fn note_drop(&mut self, deed: &Deed) {
        let (xid, sub_xid) = (deed.xid(), word(deed.bytes, 5));
        let went = deed.went();
        let has_dropped = went.contains(&true);
        if xid == sub_xid {
            self.counts.note("dropped whole", has_dropped);
            self.counts.note("dropped whole from among others", takes_turns(&went));
            self.close(xid);
        } else {
            let stays = deed.after.pieces.iter().any(|piece| piece.is_of(xid));
            self.counts.note("dropped in part", has_dropped && stays);
            self.counts.note("dropped in part from among others", takes_turns(&went));
            if has_dropped {
                self.dropped.insert((xid, sub_xid));
            }
        }
    }

    fn close(&mut self, xid: u32) {
        self.dropped.retain(|(top, _)| *top != xid);
    }

    pub fn have_all_been_done(&self, least: u64) {
        self.counts.have_all_been(least);
    }
}
