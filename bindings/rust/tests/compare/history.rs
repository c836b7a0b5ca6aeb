//! A session that keeps no tables: the list of what was accepted, and the papers' rules asked of that list by looking back through it.
use crate::layouts::{self, Reader, Refused};
use std::collections::BTreeSet;

#[derive(Clone, Copy, PartialEq)]
pub enum Place {
    Idle,
    /// From B to C: that Begin's final LSN.
    Transaction(u64),
    /// From S to E: that S's xid.
    Block(u64),
}
use Place::*;

#[derive(Clone, Copy, PartialEq, Debug)]
pub struct Announcement {
    pub tag: u64,
    pub identity: u64,
    pub columns: u64,
}

#[derive(Clone)]
enum Event {
    Begin {
        final_lsn: u64,
    },
    Commit,
    Relation {
        oid: u64,
        announcement: Announcement,
    },
    /// I, U, D or T.
    Change,
    /// O, Y or M.
    Other,
    StreamStart {
        xid: u64,
        first: bool,
    },
    StreamStop,
    StreamCommit {
        xid: u64,
    },
    StreamAbort {
        xid: u64,
        sub_xid: u64,
    },
}
use Event::*;

/// An accepted message, and where history stood before it.
#[derive(Clone)]
struct Entry {
    event: Event,
    place: Place,
}

#[derive(Clone)]
pub struct History {
    version: u32,
    entries: Vec<Entry>,
}

/// A streamed transaction holds what is announced in its blocks; 0 holds the common ones.
fn holder_at(place: Place) -> u64 {
    match place {
        Block(t) => t,
        _ => 0,
    }
}

/// Whether an event closes the streamed transaction t.
fn ends(event: &Event, t: u64) -> bool {
    match *event {
        StreamCommit { xid } => xid == t,
        StreamAbort { xid, sub_xid } => xid == t && sub_xid == t,
        _ => false,
    }
}

/// t's own latest announcement of an OID.
fn own(entries: &[Entry], t: u64, wanted: u64) -> Option<Announcement> {
    for entry in entries.iter().rev() {
        match entry.event {
            Relation { oid, announcement } if entry.place == Block(t) && oid == wanted => return Some(announcement),
            ref event if ends(event, t) => return None,
            _ => {}
        }
    }
    None
}

fn common(entries: &[Entry], wanted: u64) -> Option<Announcement> {
    for (i, entry) in entries.iter().enumerate().rev() {
        match entry.event {
            Relation { oid, announcement } if matches!(entry.place, Transaction(_)) && oid == wanted => return Some(announcement),
            StreamCommit { xid } => {
                if let Some(released) = own(&entries[..i], xid, wanted) {
                    return Some(released);
                }
            }
            _ => {}
        }
    }
    None
}

fn test(is_good: bool, refusal: u32) -> Result<(), Refused> {
    if is_good {
        Ok(())
    } else {
        Err((refusal, 0))
    }
}

impl History {
    pub fn new(version: u32) -> History {
        History { version, entries: vec![] }
    }

    pub fn place(&self) -> Place {
        let last = self.entries.iter().rev().find_map(|entry| match entry.event {
            Begin { final_lsn } => Some(Transaction(final_lsn)),
            StreamStart { xid, .. } => Some(Block(xid)),
            Commit | StreamStop => Some(Idle),
            _ => None,
        });
        last.unwrap_or(Idle)
    }

    pub fn in_block(&self) -> bool {
        matches!(self.place(), Block(_))
    }

    pub fn is_open(&self, t: u64) -> bool {
        let last = self.entries.iter().rev().find_map(|entry| match entry.event {
            StreamStart { xid, .. } if xid == t => Some(true),
            ref event if ends(event, t) => Some(false),
            _ => None,
        });
        last == Some(true)
    }

    pub fn open(&self) -> BTreeSet<u64> {
        let started = self.entries.iter().filter_map(|entry| match entry.event {
            StreamStart { xid, .. } => Some(xid),
            _ => None,
        });
        started.filter(|&xid| self.is_open(xid)).collect()
    }

    /// Whether the transaction that stands here had a change since it opened.
    fn changed(&self) -> bool {
        let here = self.place();
        for entry in self.entries.iter().rev() {
            match (&entry.event, here) {
                (Change, _) if entry.place == here => return true,
                (Begin { .. }, Transaction(_)) => return false,
                (StreamStart { xid, first: true }, Block(t)) if *xid == t => return false,
                _ => {}
            }
        }
        false
    }

    pub fn visible(&self, oid: u64) -> Option<Announcement> {
        match self.place() {
            Idle => None,
            Transaction(_) => common(&self.entries, oid),
            Block(t) => own(&self.entries, t, oid).or_else(|| common(&self.entries, oid)),
        }
    }

    fn held(&self, holder: u64, oid: u64) -> Option<Announcement> {
        if holder == 0 {
            common(&self.entries, oid)
        } else {
            own(&self.entries, holder, oid)
        }
    }

    /// The pairs of a holder and an OID that are or were live.
    fn pairs(&self) -> BTreeSet<(u64, u64)> {
        let mut pairs = BTreeSet::new();
        for entry in &self.entries {
            if let Relation { oid, .. } = entry.event {
                pairs.insert((holder_at(entry.place), oid));
                pairs.insert((0, oid));
            }
        }
        pairs
    }

    /// How many pairs of a holder and an OID are live.
    pub fn live(&self) -> usize {
        self.pairs().into_iter().filter(|&(holder, oid)| self.held(holder, oid).is_some()).count()
    }

    fn is_full(&self) -> bool {
        self.pairs().len() >= 256 && self.live() == 256
    }

    fn change(&self, oid: u64, tuples: &[(u64, u64)]) -> Result<Announcement, Refused> {
        test(self.place() != Idle, 7)?;
        let seen = self.visible(oid).ok_or((9, 0))?;
        let full = seen.identity == u64::from(b'f');
        for &(letter, count) in tuples {
            test(count == seen.columns && (letter != u64::from(b'O') || full) && (letter != u64::from(b'K') || !full), 10)?;
        }
        Ok(seen)
    }

    /// The event that a flat form is, and what it is answered, or the refusal.
    fn judge(&self, flat: &[u64; 16], bytes: &[u8], tag: u64) -> Result<(Event, Option<Announcement>), Refused> {
        let here = self.place();
        let count = |start: u64| Reader { bytes, at: start }.any(2).unwrap();
        let [kind, a, b, c, d, e, ..] = *flat;
        Ok(match kind {
            1 => {
                test(here == Idle, 7)?;
                test(!self.is_open(c), 8)?;
                (Begin { final_lsn: a }, None)
            }
            2 => {
                let Transaction(final_lsn) = here else { return Err((7, 0)) };
                test(b == final_lsn, 8)?;
                (Commit, None)
            }
            3 => {
                test(here != Idle && !self.changed(), 7)?;
                (Other, None)
            }
            4 => {
                test(here != Idle, 7)?;
                test(self.held(holder_at(here), b).is_some() || !self.is_full(), 11)?;
                let announcement = Announcement { tag, identity: flat[7], columns: flat[8] };
                (Relation { oid: b, announcement }, None)
            }
            5 => {
                test(here != Idle, 7)?;
                (Other, None)
            }
            6 => (Change, Some(self.change(b, &[(0, count(c))])?)),
            7 if c == 0 => (Change, Some(self.change(b, &[(0, count(e))])?)),
            7 => (Change, Some(self.change(b, &[(c, count(d)), (0, count(e))])?)),
            8 => (Change, Some(self.change(b, &[(c, count(d))])?)),
            9 => {
                let mut oids = Reader { bytes, at: d };
                let seen: Result<Vec<_>, _> = (0..b).map(|_| self.change(oids.oid()?[0], &[])).collect();
                (Change, Some(seen?[0]))
            }
            10 => {
                // only a transactional one needs a transaction
                test(b == 0 || here != Idle, 7)?;
                (Other, None)
            }
            11 => {
                test(here == Idle, 7)?;
                test(self.is_open(a) == (b == 0), 8)?;
                test(b == 0 || self.open().len() < 16, 12)?;
                (StreamStart { xid: a, first: b == 1 }, None)
            }
            12 => {
                test(self.in_block(), 7)?;
                (StreamStop, None)
            }
            13 => {
                test(here == Idle, 7)?;
                test(self.is_open(a), 8)?;
                (StreamCommit { xid: a }, None)
            }
            _ => {
                test(here == Idle, 7)?;
                test(self.is_open(a), 8)?;
                (StreamAbort { xid: a, sub_xid: b }, None)
            }
        })
    }

    /// Reads and judges a message; an accepted one joins the list.
    pub fn give(&mut self, bytes: &[u8], tag: u64) -> Result<Option<Announcement>, Refused> {
        self.give_if(bytes, tag, |_| Ok(()))
    }

    /// The same, but of those that are accepted here only what `more` accepts too, which is told the place.
    pub fn give_if(
        &mut self,
        bytes: &[u8],
        tag: u64,
        more: impl FnOnce(Place) -> Result<(), Refused>,
    ) -> Result<Option<Announcement>, Refused> {
        let flat = layouts::read(self.version, self.in_block(), bytes)?;
        let (event, answer) = self.judge(&flat, bytes, tag)?;
        let place = self.place();
        more(place)?;
        self.entries.push(Entry { event, place });
        Ok(answer)
    }
}
