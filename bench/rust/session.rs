//! The session: a hash map of announcements by holder and OID, and one of the open streamed transactions.
use crate::{read_message, refuse, Message, Refusal, Result, Tuple};
use std::collections::HashMap;

const MOST_STREAMS: usize = 16;
const MOST_ANNOUNCEMENTS: usize = 256;

#[derive(Clone, Copy, Debug, PartialEq, Eq)]
pub struct Announcement {
    pub tag: u64,
    pub identity: u8,
    pub columns: u16,
}

#[derive(Clone, Copy, PartialEq, Eq)]
enum Place {
    Idle,
    Transaction { final_lsn: u64 },
    Block { xid: u32 },
}

/// Who holds an announcement.
#[derive(Clone, Copy, PartialEq, Eq, Hash)]
enum Holder {
    Common,
    Stream(u32),
}

#[derive(Clone)]
pub struct Session {
    version: u32,
    place: Place,
    /// Whether the transaction had a change.
    changed: bool,
    /// The open streamed transactions, and whether each had one.
    streams: HashMap<u32, bool>,
    announcements: HashMap<(Holder, u32), Announcement>,
}

impl Session {
    pub fn new(version: u32) -> Session {
        Session { version, place: Place::Idle, changed: false, streams: HashMap::new(), announcements: HashMap::new() }
    }

    /// Gives the session one message: the announcement that a change names, nothing for another message, or a refusal.
    pub fn give(&mut self, bytes: &[u8], tag: u64) -> Result<Option<Announcement>> {
        let message = read_message(self.version, matches!(self.place, Place::Block { .. }), bytes)?;
        match message {
            Message::Insert { relation, new, .. } => return self.change(relation, None, Some(new)).map(Some),
            Message::Update { relation, old, new, .. } => return self.change(relation, old, Some(new)).map(Some),
            Message::Delete { relation, letter, old, .. } => return self.change(relation, Some((letter, old)), None).map(Some),
            Message::Truncate { relations, .. } => return self.truncate(relations).map(Some),
            Message::Begin { final_lsn, xid, .. } => self.begin(final_lsn, xid)?,
            Message::Commit { commit_lsn, .. } => self.commit(commit_lsn)?,
            Message::Relation { relation, identity, count, .. } => {
                self.announce(relation, Announcement { tag, identity, columns: count })?
            }
            Message::Origin { .. } => test(self.place != Place::Idle && !*self.changed()?, Refusal::PLACE)?,
            Message::Type { .. } => test(self.place != Place::Idle, Refusal::PLACE)?,
            Message::Logical { flags, .. } => test(flags == 0 || self.place != Place::Idle, Refusal::PLACE)?,
            Message::StreamStart { xid, first } => self.stream_start(xid, first)?,
            Message::StreamStop => {
                test(matches!(self.place, Place::Block { .. }), Refusal::PLACE)?;
                self.place = Place::Idle;
            }
            Message::StreamCommit { xid, .. } => self.stream_commit(xid)?,
            Message::StreamAbort { xid, sub_xid } => self.stream_abort(xid, sub_xid)?,
        }
        Ok(None)
    }

    /// The streamed transaction whose block stands here.
    pub fn block(&self) -> Option<u32> {
        match self.place {
            Place::Block { xid } => Some(xid),
            _ => None,
        }
    }

    /// Where it is noted that the transaction that stands here had a change.
    fn changed(&mut self) -> Result<&mut bool> {
        match self.place {
            Place::Idle => refuse(Refusal::PLACE, 0),
            Place::Transaction { .. } => Ok(&mut self.changed),
            Place::Block { xid } => Ok(self.streams.entry(xid).or_default()),
        }
    }

    fn begin(&mut self, final_lsn: u64, xid: u32) -> Result<()> {
        test(self.place == Place::Idle, Refusal::PLACE)?;
        test(!self.streams.contains_key(&xid), Refusal::TRANSACTION)?;
        self.place = Place::Transaction { final_lsn };
        self.changed = false;
        Ok(())
    }

    fn commit(&mut self, commit_lsn: u64) -> Result<()> {
        let Place::Transaction { final_lsn } = self.place else { return refuse(Refusal::PLACE, 0) };
        test(commit_lsn == final_lsn, Refusal::TRANSACTION)?;
        self.place = Place::Idle;
        Ok(())
    }

    fn stream_start(&mut self, xid: u32, first: bool) -> Result<()> {
        test(self.place == Place::Idle, Refusal::PLACE)?;
        test(self.streams.contains_key(&xid) != first, Refusal::TRANSACTION)?;
        if first {
            test(self.streams.len() < MOST_STREAMS, Refusal::STREAMS)?;
            self.streams.insert(xid, false);
        }
        self.place = Place::Block { xid };
        Ok(())
    }

    fn stream_commit(&mut self, xid: u32) -> Result<()> {
        test(self.place == Place::Idle, Refusal::PLACE)?;
        test(self.streams.remove(&xid).is_some(), Refusal::TRANSACTION)?;
        let own: Vec<_> = self.announcements.extract_if(|(holder, _), _| *holder == Holder::Stream(xid)).collect();
        self.announcements.extend(own.into_iter().map(|((_, oid), announcement)| ((Holder::Common, oid), announcement)));
        Ok(())
    }

    fn stream_abort(&mut self, xid: u32, sub_xid: u32) -> Result<()> {
        test(self.place == Place::Idle, Refusal::PLACE)?;
        test(self.streams.contains_key(&xid), Refusal::TRANSACTION)?;
        if sub_xid == xid {
            self.streams.remove(&xid);
            self.announcements.retain(|(holder, _), _| *holder != Holder::Stream(xid));
        }
        Ok(())
    }

    fn announce(&mut self, relation: u32, announcement: Announcement) -> Result<()> {
        let holder = match self.place {
            Place::Idle => return refuse(Refusal::PLACE, 0),
            Place::Transaction { .. } => Holder::Common,
            Place::Block { xid } => Holder::Stream(xid),
        };
        let key = (holder, relation);
        let has_room = self.announcements.len() < MOST_ANNOUNCEMENTS || self.announcements.contains_key(&key);
        test(has_room, Refusal::ANNOUNCEMENTS)?;
        self.announcements.insert(key, announcement);
        Ok(())
    }

    /// The announcement that a change here sees.
    fn visible(&self, relation: u32) -> Result<Announcement> {
        let own = match self.place {
            Place::Idle => return refuse(Refusal::PLACE, 0),
            Place::Transaction { .. } => None,
            Place::Block { xid } => self.announcements.get(&(Holder::Stream(xid), relation)),
        };
        match own.or_else(|| self.announcements.get(&(Holder::Common, relation))) {
            Some(announcement) => Ok(*announcement),
            None => refuse(Refusal::RELATION, 0),
        }
    }

    fn change(&mut self, relation: u32, old: Option<(u8, Tuple<'_>)>, new: Option<Tuple<'_>>) -> Result<Announcement> {
        let seen = self.visible(relation)?;
        if let Some((letter, old)) = old {
            test(old.count == seen.columns && (letter == b'O') == (seen.identity == b'f'), Refusal::SHAPE)?;
        }
        if let Some(new) = new {
            test(new.count == seen.columns, Refusal::SHAPE)?;
        }
        *self.changed()? = true;
        Ok(seen)
    }

    fn truncate(&mut self, relations: &[u8]) -> Result<Announcement> {
        let mut oids = relations.chunks_exact(4).map(|oid| u32::from_be_bytes(oid.try_into().unwrap()));
        let first = self.visible(oids.next().unwrap_or_default())?;
        oids.try_for_each(|oid| self.visible(oid).map(|_| ()))?;
        *self.changed()? = true;
        Ok(first)
    }
}

fn test(is_good: bool, refusal: u8) -> Result<()> {
    if is_good {
        Ok(())
    } else {
        refuse(refusal, 0)
    }
}
