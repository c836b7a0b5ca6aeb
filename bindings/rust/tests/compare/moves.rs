//! Where announcements come and go, so that a test can say that they did everywhere: among the live pairs of a holder and an OID, in order.
use crate::history::Place;
use std::collections::BTreeSet;

type Pairs = BTreeSet<(u32, u32)>;

/// How many pairs came to the front, the middle and the end, and how many went.
#[derive(Default, Debug)]
pub struct Moves {
    came: [u32; 3],
    went: [u32; 3],
}

/// Counts the pairs that the others lack, by where they stand.
fn count_lacking(pairs: &Pairs, others: &Pairs, counts: &mut [u32; 3]) {
    for (i, pair) in pairs.iter().enumerate() {
        if !others.contains(pair) {
            let place = match i {
                0 => 0,
                _ if i + 1 < pairs.len() => 1,
                _ => 2,
            };
            counts[place] += 1;
        }
    }
}

/// The pairs after an accepted message, which came where this place was.
fn after(live: &Pairs, place: Place, bytes: &[u8]) -> Pairs {
    let word = |at: usize| u32::from_be_bytes(bytes[at..at + 4].try_into().unwrap());
    let mut pairs = live.clone();
    match (bytes[0], place) {
        (b'R', Place::Block(xid)) => {
            pairs.insert((xid as u32, word(5)));
        }
        (b'R', _) => {
            pairs.insert((0, word(1)));
        }
        (b'c', _) => pairs = pairs.into_iter().map(|(holder, oid)| (if holder == word(1) { 0 } else { holder }, oid)).collect(),
        (b'A', _) if word(1) == word(5) => pairs.retain(|&(holder, _)| holder != word(1)),
        _ => {}
    }
    pairs
}

impl Moves {
    pub fn note(&mut self, live: &mut Pairs, place: Place, bytes: &[u8]) {
        let pairs = after(live, place, bytes);
        count_lacking(&pairs, live, &mut self.came);
        count_lacking(live, &pairs, &mut self.went);
        *live = pairs;
    }

    /// Each at least so often.
    pub fn have_been_everywhere(&self, least: u32) {
        println!("{self:?}");
        assert!(self.came.iter().chain(&self.went).all(|&times| times >= least), "{self:?}");
    }
}
