//! The keeper: for each streamed transaction its records, packed.
use crate::{refuse, Announcement, Refusal, Result, Session};
use std::collections::HashMap;

/// The mark, two xids and a length.
const HEADER: usize = 14;

#[derive(Clone)]
pub struct Keeper {
    room: usize,
    held: usize,
    kept: HashMap<u32, Vec<u8>>,
}

fn word(bytes: &[u8], at: usize) -> u32 {
    u32::from_be_bytes(bytes[at..at + 4].try_into().unwrap())
}

impl Keeper {
    pub fn new(room: usize) -> Keeper {
        Keeper { room, held: 0, kept: HashMap::new() }
    }

    /// Gives the session one message: its answer, and how many bytes are released to the start of `out`.
    pub fn give(&mut self, session: &mut Session, bytes: &[u8], tag: u64, out: &mut [u8]) -> Result<(Option<Announcement>, usize)> {
        let block = session.block();
        if let Err(refusal) = self.test_room(block, bytes, out.len()) {
            // a refusal of the session's comes first, and nothing changes
            session.clone().give(bytes, tag)?;
            return Err(refusal);
        }
        let seen = session.give(bytes, tag)?;
        let released = match (bytes[0], block) {
            (b'I' | b'U' | b'D' | b'T', Some(top)) => {
                self.keep(top, bytes);
                0
            }
            (b'c', _) => self.release(word(bytes, 1), out),
            (b'A', _) => {
                self.drop(word(bytes, 1), word(bytes, 5));
                0
            }
            _ => 0,
        };
        Ok((seen, released))
    }

    /// Of any bytes, whether what they say has room, if it is accepted.
    fn test_room(&self, block: Option<u32>, bytes: &[u8], output: usize) -> Result<()> {
        match (bytes, block) {
            ([b'I' | b'U' | b'D' | b'T', ..], Some(_)) if self.held + HEADER + bytes.len() > self.room => refuse(Refusal::KEEPER, 0),
            ([b'c', _, _, _, _, ..], _) if self.kept.get(&word(bytes, 1)).map_or(0, Vec::len) > output => refuse(Refusal::OUTPUT, 0),
            _ => Ok(()),
        }
    }

    fn keep(&mut self, top: u32, bytes: &[u8]) {
        let records = self.kept.entry(top).or_default();
        records.extend_from_slice(&[0xC3, 0x4D]);
        records.extend_from_slice(&top.to_be_bytes());
        records.extend_from_slice(&bytes[1..5]);
        records.extend_from_slice(&(bytes.len() as u32).to_be_bytes());
        records.extend_from_slice(bytes);
        self.held += HEADER + bytes.len();
    }

    fn release(&mut self, xid: u32, out: &mut [u8]) -> usize {
        let records = self.kept.remove(&xid).unwrap_or_default();
        self.held -= records.len();
        out[..records.len()].copy_from_slice(&records);
        records.len()
    }

    fn drop(&mut self, xid: u32, sub_xid: u32) {
        if xid == sub_xid {
            self.held -= self.kept.remove(&xid).map_or(0, |records| records.len());
        } else if let Some(records) = self.kept.get_mut(&xid) {
            let stay = without(records, sub_xid);
            self.held -= records.len() - stay.len();
            *records = stay;
        }
    }
}

/// The records that did not come under an xid.
fn without(mut records: &[u8], xid: u32) -> Vec<u8> {
    let mut stay = Vec::with_capacity(records.len());
    while !records.is_empty() {
        let (record, rest) = records.split_at(HEADER + word(records, 10) as usize);
        if word(record, 6) != xid {
            stay.extend_from_slice(record);
        }
        records = rest;
    }
    stay
}
