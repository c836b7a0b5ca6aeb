//! A feed with its changes spread over many tables.
use crate::feed::Made;
use crate::messages::{begin, commit, relation};
use std::collections::HashMap;

/// Each table stands for one of the feed's relations, and all are announced at first. Left out are changes of relations that no table
/// stands for, and whatever a session then refuses: Truncates, and changes of another shape than the relation's first.
pub fn spread(version: u32, messages: &[&[u8]], tables: usize) -> Made {
    let mut spread = vec![begin()];
    let mut of_relation: HashMap<u32, Vec<u32>> = HashMap::new();
    for (table, (known, behind)) in relations(version, messages).iter().cycle().take(tables).enumerate() {
        let oid = 100_000 + table as u32;
        of_relation.entry(*known).or_default().push(oid);
        spread.push(relation(&[], oid, behind));
    }
    spread.push(commit());
    for (i, (message, in_block)) in with_places(messages.iter().copied()).enumerate() {
        let at = if in_block { 5 } else { 1 };
        let mut message = message.to_vec();
        match message.first() {
            Some(b'R') => continue,
            Some(b'I' | b'U' | b'D') => {
                let oid: &mut [u8; 4] = (&mut message[at..at + 4]).try_into().unwrap();
                let Some(tables) = of_relation.get(&u32::from_be_bytes(*oid)) else { continue };
                // in no simple order
                *oid = tables[i * 7919 % tables.len()].to_be_bytes();
            }
            _ => {}
        }
        spread.push(message);
    }
    let mut session = baseline::Session::new(version);
    spread.retain(|message| session.give(message, 0).is_ok());
    let name = if tables == 1 { "1 table".into() } else { format!("{tables} tables") };
    Made { name, version, messages: spread }
}

/// Each message, and whether it stands in a block.
pub fn with_places<'a>(messages: impl Iterator<Item = &'a [u8]>) -> impl Iterator<Item = (&'a [u8], bool)> {
    let mut in_block = false;
    messages.map(move |message| {
        let before = in_block;
        match message.first() {
            Some(b'S') => in_block = true,
            Some(b'E') => in_block = false,
            _ => {}
        }
        (message, before)
    })
}

/// The first announcement of each relation: its OID, and the bytes behind that.
fn relations<'a>(version: u32, messages: &'a [&'a [u8]]) -> Vec<(u32, &'a [u8])> {
    let mut relations: Vec<(u32, &[u8])> = vec![];
    for (bytes, in_block) in with_places(messages.iter().copied()) {
        if let Ok(baseline::Message::Relation { relation, .. }) = baseline::read_message(version, in_block, bytes) {
            let behind = if in_block { 9 } else { 5 };
            if relations.iter().all(|(known, _)| *known != relation) {
                relations.push((relation, &bytes[behind..]));
            }
        }
    }
    relations
}
