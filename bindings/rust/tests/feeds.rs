//! The recorded feeds of `crates/feeds`, each given to a fresh session and to one with a keeper: the answers are those that its program
//! prints. What is released of the streamed ones follows from the list of messages. Their binary values are summed, and their blocks
//! exchanged, as that program does it.
use kitsoriqu::{read, write, Answer, Decoded, Keeper, Message, Record, Refusal, Reply, Session};
use std::fmt::Write;
use std::fs;
use std::path::Path;

#[path = "support/sums.rs"]
mod sums;
#[path = "support/trace.rs"]
mod trace;
#[path = "support/tuples.rs"]
mod tuples;

const FEEDS: &str = concat!(env!("CARGO_MANIFEST_DIR"), "/../../crates/feeds");

/// A session alone, and one with a keeper.
struct Both {
    alone: Session,
    session: Session,
    keeper: Keeper,
    out: Vec<u8>,
}

impl Both {
    /// With room for all.
    fn start(version: u32, messages: &[&[u8]]) -> Both {
        let room = messages.iter().map(|message| 14 + message.len()).sum();
        let session = Session::new(version);
        Both { alone: session.clone(), session, keeper: Keeper::with_room(room), out: vec![0; room] }
    }

    /// Gives both a message, which they answer alike.
    fn give(&mut self, bytes: &[u8], tag: u64) -> Result<Reply<'_>, Refusal> {
        let reply = self.keeper.give(&mut self.session, bytes, tag, &mut self.out);
        assert_eq!(reply.clone().map(|reply| reply.answer), self.alone.give(bytes, tag));
        reply
    }
}

/// Gives each message, tagged with its index, and prints each refusal, what each Stream Commit releases and how many were accepted.
fn answers(version: u32, messages: &[&[u8]]) -> String {
    let mut both = Both::start(version, messages);
    let mut lines = String::new();
    let mut accepted = 0;
    for (index, bytes) in messages.iter().enumerate() {
        match both.give(bytes, index as u64) {
            Ok(Reply { released, .. }) => {
                accepted += 1;
                if bytes[0] == b'c' {
                    writeln!(lines, "{index}: released {} bytes in {} records", released.as_bytes().len(), released.count()).unwrap();
                }
            }
            Err(refusal) => writeln!(lines, "{index}: {} at {}", refusal.number, refusal.offset).unwrap(),
        }
    }
    assert_eq!(both.keeper.held(), 0);
    writeln!(lines, "{} messages, {accepted} accepted", messages.len()).unwrap();
    lines
}

/// Each message that is read is written back to the same bytes, and every column is stepped through.
fn back(version: u32, messages: &[&[u8]]) {
    let mut in_block = false;
    for bytes in messages {
        let Ok(decoded) = Decoded::read(version, in_block, bytes) else { continue };
        let mut out = vec![0; bytes.len()];
        assert_eq!(write(version, in_block, decoded.fields(), bytes, &mut out), Ok(bytes.len()));
        assert_eq!(&out, bytes);
        match read(version, in_block, bytes).unwrap() {
            Message::Relation { columns, .. } => assert_eq!(columns.len(), columns.count()),
            Message::Insert { new, .. } | Message::Update { new, .. } => assert_eq!(new.len(), new.count()),
            Message::Truncate { relations, .. } => assert!(relations.into_iter().all(|oid| oid != 0)),
            Message::StreamStart { .. } => in_block = true,
            Message::StreamStop => in_block = false,
            _ => {}
        }
    }
}

fn trace_of(name: &str) -> Vec<u8> {
    fs::read(Path::new(FEEDS).join("data").join(name)).unwrap()
}

/// The lines of a feed.
fn feed(name: &str) -> String {
    let bytes = trace_of(name);
    let messages = trace::messages(&bytes).unwrap();
    let version = trace::version(name).unwrap();
    back(version, &messages);
    format!("{name}\n{}{}", answers(version, &messages), sums::lines(version, &messages))
}

#[test]
fn recorded_feeds() {
    let args = fs::read_to_string(Path::new(FEEDS).join("args")).unwrap();
    let mut words = args.lines();
    let mut printed = String::new();
    while let Some(word) = words.next() {
        printed += &match word {
            "turns" => turns([(); 2].map(|()| words.next().unwrap())),
            name => feed(name),
        };
    }
    assert_eq!(printed, fs::read_to_string(Path::new(FEEDS).join("stdout")).unwrap());
}

/// What a message gets: its answer, and the bytes that it releases.
type Got = Result<(Answer, Vec<u8>), Refusal>;

/// Messages in parts, each message with its index in all: block after block, and behind them those outside of blocks.
struct Mix<'a> {
    messages: Vec<&'a [u8]>,
    parts: Vec<Vec<(usize, &'a [u8])>>,
}

impl<'a> Mix<'a> {
    fn of(messages: Vec<&'a [u8]>) -> Mix<'a> {
        let (mut parts, mut others, mut in_block) = (vec![], vec![], false);
        for &message in &messages {
            if message[0] == b'S' {
                parts.push(vec![]);
                in_block = true;
            }
            parts.last_mut().filter(|_| in_block).unwrap_or(&mut others).push(message);
            in_block &= message[0] != b'E';
        }
        parts.push(others);
        let mut index = 0..;
        Mix {
            parts: parts.into_iter().map(|part| part.into_iter().map(|message| (index.next().unwrap(), message)).collect()).collect(),
            messages,
        }
    }

    /// What each message gets, where the parts are given in this order.
    fn give(&self, order: &[usize]) -> Vec<Got> {
        let mut both = Both::start(2, &self.messages);
        let mut got: Vec<Got> = self.messages.iter().map(|_| Ok((Answer::Accepted, vec![]))).collect();
        for &(index, bytes) in order.iter().flat_map(|&part| &self.parts[part]) {
            got[index] = both.give(bytes, index as u64).map(|reply| (reply.answer, reply.released.as_bytes().to_vec()));
        }
        got
    }

    fn xid(&self, block: usize) -> u32 {
        word(self.parts[block][0].1, 1)
    }

    fn is_accepted(&self, block: usize, got: &[Got]) -> bool {
        self.parts[block].iter().all(|&(index, _)| got[index].is_ok())
    }

    /// Exchanges neighbouring blocks, by the numbers of a generator. Those of different transactions whose messages are accepted stay so.
    fn walk(&self) -> String {
        let mut order: Vec<_> = (0..self.parts.len()).collect();
        let first = self.give(&order);
        let [mut exchanges, mut others, mut tries, mut differences] = [0; 4];
        let mut number = 1;
        for _ in 0..1_000_000 / self.messages.len() {
            number = number * 48_271 % 2_147_483_647;
            let k = number % (self.parts.len() - 2);
            order.swap(k, k + 1);
            let now = self.give(&order);
            let other = now.iter().zip(&first).filter(|(a, b)| a != b).count();
            let (a, b) = (order[k], order[k + 1]);
            if self.xid(a) == self.xid(b) {
                tries += 1;
                differences += usize::from(other != 0);
                order.swap(k, k + 1);
            } else if [a, b].iter().all(|&block| self.is_accepted(block, &first) && self.is_accepted(block, &now)) {
                exchanges += 1;
                others += other;
            } else {
                order.swap(k, k + 1);
            }
        }
        format!(
            "{exchanges} exchanges of blocks of different transactions: {others} messages got something else\n\
             {tries} exchanges of blocks of one transaction: {differences} made a difference\n"
        )
    }
}

/// The lines of two feeds whose blocks take turns.
fn turns(names: [&str; 2]) -> String {
    let traces = names.map(trace_of);
    let mix = Mix::of(traces.iter().flat_map(|bytes| trace::messages(bytes).unwrap()).collect());
    let order: Vec<_> = (0..mix.parts.len()).collect();
    let (all, blocks) = (mix.messages.len(), mix.parts.len() - 1);
    let accepted = mix.give(&order).iter().filter(|got| got.is_ok()).count();
    let in_blocks = all - mix.parts[blocks].len();
    let counts = format!("{all} messages, {accepted} accepted\n{in_blocks} of them in {blocks} blocks\n");
    format!("turns of {}\n{counts}{}", names.join(" "), mix.walk())
}

fn word(bytes: &[u8], at: usize) -> u32 {
    u32::from_be_bytes(bytes[at..at + 4].try_into().unwrap())
}

/// Each change in a block, and which message it is.
fn streamed_changes<'a>(messages: &[&'a [u8]]) -> Vec<(usize, Record<'a>)> {
    let mut block = None;
    let mut changes = vec![];
    for (index, &message) in messages.iter().enumerate() {
        match (message[0], block) {
            (b'S', _) => block = Some(word(message, 1)),
            (b'E', _) => block = None,
            (b'I' | b'U' | b'D' | b'T', Some(top_xid)) => changes.push((index, Record { top_xid, own_xid: word(message, 1), message })),
            _ => {}
        }
    }
    changes
}

/// Whether a message releases or drops a record.
fn ends(message: &[u8], record: &Record) -> bool {
    match message[0] {
        b'c' => word(message, 1) == record.top_xid,
        b'A' => word(message, 1) == record.top_xid && [record.top_xid, record.own_xid].contains(&word(message, 5)),
        _ => false,
    }
}

/// What is held after so many messages: the changes in blocks that none of the later ones ended.
fn held_after<'a>(count: usize, messages: &[&'a [u8]], changes: &[(usize, Record<'a>)]) -> Vec<Record<'a>> {
    let is_held =
        |(index, record): &&(usize, Record)| *index < count && !messages[*index..count].iter().any(|message| ends(message, record));
    changes.iter().filter(is_held).map(|(_, record)| *record).collect()
}

/// How many records are released and how many dropped, of a feed that is accepted as a whole.
fn released_and_dropped(version: u32, messages: &[&[u8]]) -> [usize; 2] {
    let changes = streamed_changes(messages);
    let mut both = Both::start(version, messages);
    let mut counts = [0; 2];
    for (index, bytes) in messages.iter().enumerate() {
        let released: Vec<_> = both.give(bytes, index as u64).unwrap().released.collect();
        if let b'c' | b'A' = bytes[0] {
            let mut ended = held_after(index, messages, &changes);
            ended.retain(|record| ends(bytes, record));
            assert_eq!(released, if bytes[0] == b'c' { ended.clone() } else { vec![] });
            assert!(both.keeper.held_records().eq(held_after(index + 1, messages, &changes)));
            counts[usize::from(bytes[0] == b'A')] += ended.len();
        } else {
            assert_eq!(released, []);
        }
    }
    counts
}

#[test]
fn streamed_feeds_with_a_keeper() {
    let feeds = [
        ("stream_abort.v2peek.trace", [1200, 0]),
        ("stream_marker.v2.trace", [900, 0]),
        ("stream_subabort_drop_race.v2.trace", [300, 287]),
        ("stream_unpublished.v2.trace", [300, 0]),
        ("two_imports.v2.trace", [21, 25]),
    ];
    for (name, counts) in feeds {
        let bytes = trace_of(name);
        let messages = trace::messages(&bytes).unwrap();
        assert_eq!(released_and_dropped(trace::version(name).unwrap(), &messages), counts, "{name}");
    }
}
