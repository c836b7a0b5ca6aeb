//! Two imports that stream in turns, made of a feed's changes.
use crate::feed::Made;
use crate::messages::{stream_abort, stream_commit, stream_start, stream_stop};
use crate::spread::with_places;

/// How many changes a block has, and an import.
const BLOCK: usize = 50;
const IMPORT: usize = 300;

/// Of an import's blocks this one is a sub-transaction's.
const SUB_BLOCK: usize = 3;

/// A change: its letter, and what stands behind its xid's place.
type Change<'a> = (u8, &'a [u8]);

/// The announcements of a feed that `spread` made, and its changes.
pub struct Parts<'a> {
    announcements: &'a [Vec<u8>],
    changes: Vec<Change<'a>>,
}

impl<'a> Parts<'a> {
    pub fn of(spread: &'a Made) -> Parts<'a> {
        let commit = spread.messages.iter().position(|message| message[0] == b'C').expect("the announcements' transaction");
        let (announcements, rest) = spread.messages.split_at(commit + 1);
        let changes = with_places(rest.iter().map(|message| &message[..])).filter(|(message, _)| is_change(message));
        let changes = changes.map(|(message, in_block)| (message[0], &message[if in_block { 5 } else { 1 }..]));
        Parts { announcements, changes: changes.collect() }
    }

    fn made(&self, name: String, streamed: Vec<Vec<u8>>) -> Made {
        Made { name, version: 2, messages: [self.announcements, &streamed].concat() }
    }

    /// The first changes, or all of them more than once.
    fn first(&self, count: usize) -> Vec<Change<'a>> {
        self.changes.iter().copied().cycle().take(count).collect()
    }
}

pub fn is_change(message: &[u8]) -> bool {
    matches!(message[0], b'I' | b'U' | b'D')
}

/// The xids of an import: its own, and its sub-transaction's.
type Xids = [[u8; 4]; 2];

fn xids(import: usize) -> Xids {
    let top = 1_000 + 2 * import as u32;
    [top, top + 1].map(u32::to_be_bytes)
}

fn block([top, sub]: Xids, number: usize, changes: &[Change]) -> Vec<Vec<u8>> {
    let xid = if number == SUB_BLOCK { sub } else { top };
    let inside = changes.iter().map(|(letter, behind)| [&[*letter], &xid[..], behind].concat());
    [stream_start(&top, number == 0)].into_iter().chain(inside).chain([stream_stop()]).collect()
}

/// The blocks of two imports, in turns.
fn turns(two: [Xids; 2], changes: &[Change]) -> Vec<Vec<u8>> {
    changes.chunks(BLOCK).enumerate().flat_map(|(i, changes)| block(two[i % 2], i / 2, changes)).collect()
}

/// Two imports after two: of the first the sub-transaction is rolled back, then the second is as a whole, and the first commits.
pub fn imports(parts: &Parts) -> Made {
    let pair = |(i, changes): (usize, &[Change])| {
        let [first, second] = [xids(2 * i), xids(2 * i + 1)];
        let [top, sub] = first;
        let ends = [stream_abort(&top, &sub), stream_abort(&second[0], &second[0]), stream_commit(&top)];
        turns([first, second], changes).into_iter().chain(ends)
    };
    let changes = parts.first(parts.changes.len().max(2 * IMPORT));
    parts.made("imports".into(), changes.chunks_exact(2 * IMPORT).enumerate().flat_map(pair).collect())
}

/// Two imports of so many changes each that do not end.
pub fn open_imports(parts: &Parts, changes: usize) -> Made {
    parts.made(format!("{} changes in blocks", 2 * changes), turns([xids(0), xids(1)], &parts.first(2 * changes)))
}

/// The same, and the first commits.
pub fn committed_import(parts: &Parts, changes: usize) -> Made {
    let mut messages = turns([xids(0), xids(1)], &parts.first(2 * changes));
    messages.push(stream_commit(&xids(0)[0]));
    parts.made(format!("Stream Commit of {changes} held records"), messages)
}
