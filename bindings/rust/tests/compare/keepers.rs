use crate::answers::typed_numbers;
use crate::deeds::{Deed, Deeds};
use crate::ffi::{self, Record};
use crate::generate::{damage, Draft};
use crate::kept::{joined, laid, word, Kept, Piece};
use crate::lent::{refused, Lent, LentBytes};
use crate::model::{any_bytes, end, next_streamed, output, streamed, Model};
use crate::rng::Rng;
use crate::sequences::{any_next, commit, stream_abort, stream_commit, stream_start, Pool};
use crate::sessions::{self, made_up_session};
use crate::tally::{Counts, Tally};
use kitsoriqu::{Keeper, Records, Refusal, Reply, Session};

/// A keeper's buffer, and how many bytes are held.
#[derive(Clone, PartialEq, Debug)]
struct Hold {
    buffer: Vec<u8>,
    held: usize,
}

/// What a message gets.
#[derive(PartialEq, Debug)]
pub struct Got {
    pub number: u32,
    pub reply: [u64; ffi::REPLY],
    pub out: Vec<u8>,
}

/// What a message gets and leaves.
#[derive(PartialEq, Debug)]
struct Outcome {
    got: Got,
    hold: Hold,
}

pub fn reply_of([a, b, c, d]: [u64; 4], released: usize) -> [u64; 5] {
    [a, b, c, d, released as u64]
}

/// Gives a record and a keeper's buffer one message; a refusal must leave the record as it was.
fn give(record: &mut Lent<Record>, hold: &Hold, bytes: &[u8], tag: u64, out: &[u8]) -> Outcome {
    let (session_before, bytes_before) = (record.value.clone(), bytes.to_vec());
    let (mut buffer, mut held) = (LentBytes::of(&hold.buffer), Lent::of(hold.held));
    let (mut out, mut reply) = (LentBytes::of(out), Lent::numbers());
    let number = ffi::keeper_give(&mut record.value, bytes, tag, buffer.value(), &mut held.value, out.value(), &mut reply.value);
    assert!(bytes == bytes_before, "the message was touched");
    assert!(number == 0 || record.value == session_before, "a refusal changed the session");
    let got = Got { number, reply: reply.back(), out: out.back() };
    Outcome { got, hold: Hold { buffer: buffer.back(), held: held.back() } }
}

/// Of an answer and what is released and kept then, in the buffer and the output as they were lent.
fn outcome_of((number, answer): (u32, [u64; 4]), released: &[u8], kept: &Kept, lent: &Hold, out: &[u8]) -> Outcome {
    let hold = Hold { buffer: laid(&kept.bytes(), &lent.buffer), held: kept.held };
    Outcome { got: Got { number, reply: reply_of(answer, released.len()), out: laid(released, out) }, hold }
}

/// The pieces that records are, which written down are the records' bytes.
fn pieces_of(records: Records) -> Vec<Piece> {
    let bytes = records.as_bytes();
    let pieces: Vec<_> = records.map(|record| Piece::record(record.top_xid, record.own_xid, record.message)).collect();
    assert!(bytes.starts_with(&joined(&pieces)));
    pieces
}

/// One session with a keeper three times: the library's, the typed one, and the model. Beside them a session alone.
#[derive(Clone)]
pub struct Keepers {
    record: Lent<Record>,
    hold: Hold,
    session: Session,
    keeper: Keeper,
    pub model: Model,
    alone: Lent<Record>,
}

impl Keepers {
    pub fn start(version: u32, buffer: Vec<u8>) -> Keepers {
        let mut started = Record::ZERO;
        ffi::session_start(&mut started, version);
        Keepers {
            record: Lent::of(started.clone()),
            hold: Hold { buffer: buffer.clone(), held: 0 },
            session: Session::new(version),
            keeper: Keeper::from_parts(buffer, 0),
            model: Model::start(version),
            alone: Lent::of(started),
        }
    }

    fn room(&self) -> usize {
        self.hold.buffer.len()
    }

    /// What the model says.
    fn expected(&mut self, bytes: &[u8], tag: u64, out: &[u8]) -> Outcome {
        let (answer, released) = self.model.give(bytes, tag, self.room(), out.len());
        outcome_of(answer, &released, &self.model.kept, &self.hold, out)
    }

    fn typed(&mut self, bytes: &[u8], tag: u64, out: &[u8]) -> Outcome {
        let mut out = out.to_vec();
        let (answer, released) = match self.keeper.give(&mut self.session, bytes, tag, &mut out) {
            Ok(Reply { answer, released }) => (Ok(answer), joined(&pieces_of(released))),
            Err(refusal) => (Err(refusal), vec![]),
        };
        assert!(out.starts_with(&released));
        let (number, answer) = typed_numbers(answer);
        let (buffer, held) = self.keeper.clone().into_parts();
        assert_eq!((self.keeper.room(), self.keeper.held()), (buffer.len(), held));
        Outcome { got: Got { number, reply: reply_of(answer, released.len()), out }, hold: Hold { buffer, held } }
    }

    /// The session alone answers the same, but where only the keeper refuses, and its record stays the same.
    fn compare_alone(&mut self, bytes: &[u8], tag: u64, got: &Got) {
        if let Refusal::OUTPUT | Refusal::KEEPER = got.number {
            let mut copied = Lent::of(self.alone.value.clone());
            assert_eq!(sessions::give(&mut copied, bytes, tag).0, 0, "a refusal of the session's comes first");
        } else {
            let (number, answer) = sessions::give(&mut self.alone, bytes, tag);
            assert_eq!((number, &answer[..]), (got.number, &got.reply[..4]));
        }
        assert!(self.record.value == self.alone.value);
    }

    /// Gives each the message, with the same output: all get and leave the same.
    pub fn give(&mut self, bytes: &[u8], tag: u64, out: &[u8], deeds: &mut Deeds) -> Got {
        let before = self.model.kept.clone();
        let expected = self.expected(bytes, tag, out);
        let outcome = give(&mut self.record, &self.hold, bytes, tag, out);
        assert_eq!(outcome, expected, "{bytes:02X?} to {:02X?}", self.hold);
        assert_eq!(self.typed(bytes, tag, out), expected);
        let Outcome { got, hold } = outcome;
        self.compare_alone(bytes, tag, &got);
        let after = &self.model.kept;
        deeds.note(&Deed { bytes, before: &before, after, number: got.number, room: self.room(), output: out.len() });
        self.hold = hold;
        got
    }

    /// The buffer gets so much room, but keeps what is held.
    fn make_room(&mut self, room: usize) {
        let Hold { buffer, held } = &mut self.hold;
        let room = room.max(*held);
        match room.checked_sub(buffer.len()) {
            Some(more) => self.keeper.grow(more),
            None => self.keeper = Keeper::from_parts(buffer[..room].to_vec(), *held),
        }
        buffer.resize(room, 0);
    }

    /// The buffer is replaced.
    fn lend(&mut self, hold: Hold) {
        self.keeper = Keeper::from_parts(hold.buffer.clone(), hold.held);
        self.hold = hold;
    }

    /// The same keepers with what is held at the front of another buffer.
    pub fn moved_to(&self, buffer: &[u8]) -> Keepers {
        let mut keepers = self.clone();
        keepers.lend(Hold { buffer: laid(&self.model.kept.bytes(), buffer), held: self.hold.held });
        keepers
    }
}

/// A sequence of messages. Now and then the buffer gets about as much room as the next message needs; and a message that got too little,
/// in the buffer or in the output, is given again with enough.
fn compare(rng: &mut Rng, version: u32, length: usize, tally: &mut Tally, deeds: &mut Deeds) -> Keepers {
    let pool = streamed(rng);
    let room = rng.pick(&[0, 100, 300, 1000, 5000, 5000]);
    let mut keepers = Keepers::start(version, any_bytes(rng, room));
    let is_fitted = rng.one_in(2);
    deeds.start();
    for _ in 0..length {
        let bytes = next_streamed(rng, &keepers.model, &pool);
        let tag = rng.any() >> rng.below(64);
        let needed = keepers.hold.held + 14 + bytes.len();
        if is_fitted && rng.one_in(3) {
            let more = rng.below(300) as usize;
            let room = rng.pick(&[0, needed - 1, needed, needed + 1, needed + more]);
            keepers.make_room(room);
        }
        let out = output(rng, keepers.model.released(&bytes));
        let number = keepers.give(&bytes, tag, &out, deeds).number;
        tally.note(number);
        if matches!(number, Refusal::OUTPUT | Refusal::KEEPER) && rng.one_in(2) {
            keepers.make_room(needed.max(keepers.room()));
            let out = any_bytes(rng, keepers.model.released(&bytes));
            assert_eq!(keepers.give(&bytes, tag, &out, deeds).number, 0);
        }
    }
    keepers
}

#[test]
fn sequences_with_a_keeper() {
    let mut rng = Rng::new(41);
    let (mut tally, mut deeds) = (Tally::new(), Deeds::new());
    for _ in 0..5_000 {
        let version = if rng.one_in(30) { rng.pick(&[1, 3]) } else { 2 };
        let length = 20 + rng.below(150) as usize;
        let Keepers { record, alone, keeper, model, .. } = compare(&mut rng, version, length, &mut tally, &mut deeds);
        assert_eq!(pieces_of(keeper.held_records()), model.kept.pieces);
        record.back();
        alone.back();
    }
    tally.has_seen(&[0, 1, 2, 3, 4, 5, 6, 7, 8, 9, 10, 13, 14], 100);
    deeds.have_all_been_done(100);
}

/// A change of one column, of a table that `announced` announces.
fn insert(xid: u32, length: usize) -> Vec<u8> {
    let draft = Draft::new(b'I').word(xid).word(1).byte(b'N').short(1).byte(b't').word(length as u32);
    [draft.0, (0..length).map(|i| (i as u32 ^ xid) as u8).collect()].concat()
}

fn announced(rng: &mut Rng) -> [Draft; 3] {
    let relation = Draft::new(b'R').word(1).byte(0).byte(0).byte(b'd').columns(rng, 1);
    [Draft::new(b'B').long(1).long(0).word(1), relation, commit(1)]
}

/// Records of any length are moved down by any distance: one is dropped before two, of which the first is then released, into a buffer
/// and outputs with and without room behind them.
#[test]
fn records_of_every_length() {
    let mut rng = Rng::new(44);
    for (gap, moved) in (0..=70).flat_map(|gap| (0..=70).map(move |moved| (gap, moved))) {
        let blocks = [(7, gap), (8, moved), (9, 3)];
        let size = blocks.iter().map(|&(xid, length)| 14 + insert(xid, length).len()).sum::<usize>();
        let more = rng.pick(&[0, 50]);
        let mut keepers = Keepers::start(2, any_bytes(&mut rng, size + more));
        let streamed = |(xid, length)| [stream_start(xid, true), Draft(insert(xid, length)), Draft::new(b'E')];
        let ends = [stream_abort(7, 7), stream_commit(8), stream_commit(9)];
        for Draft(bytes) in announced(&mut rng).into_iter().chain(blocks.into_iter().flat_map(streamed)).chain(ends) {
            let out = any_bytes(&mut rng, keepers.model.released(&bytes) + more);
            assert_eq!(keepers.give(&bytes, 0, &out, &mut Deeds::new()).number, 0);
        }
        assert_eq!(keepers.hold.held, 0);
    }
}

/// Made-up buffers: records under a pool's xids, or any bytes, or what a keeper left; damaged or not; with any number for what is held.
fn made_up(rng: &mut Rng, pool: &Pool, left: &Hold) -> Hold {
    let mut buffer = match rng.below(4) {
        0 => any_bytes(rng, 50),
        1 => left.buffer.clone(),
        _ => joined(&(0..rng.below(8)).map(|_| made_up_record(rng, pool)).collect::<Vec<_>>()),
    };
    for _ in 0..rng.below(3) {
        damage(rng, &mut buffer);
    }
    let room = buffer.len();
    let within = rng.below(room as u64 + 1) as usize;
    let held = rng.pick(&[0, within, within, left.held, room, room, room + 1, room + 14, usize::MAX - 13, usize::MAX, 1 << 63]);
    Hold { buffer, held }
}

fn made_up_record(rng: &mut Rng, pool: &Pool) -> Piece {
    let length = rng.below(20) as usize;
    Piece::record(pool.xid(rng), pool.xid(rng), &any_bytes(rng, length))
}

const ODD: [&str; 6] = [
    "released before bytes that are nobody's",
    "dropped before bytes that are nobody's",
    "kept behind bytes that are nobody's",
    "released with a number past the buffer",
    "dropped with a number past the buffer",
    "no room with a number past the buffer",
];

/// What a message did to a made-up buffer of which this was held.
fn note_odd(odd: &mut Counts, bytes: &[u8], number: u32, before: &Kept, after: &Kept, room: usize) {
    let has_nobodys = before.pieces.last().is_some_and(|piece| piece.xids.is_none());
    let is_past = before.held > room;
    let has_removed = after.pieces.len() < before.pieces.len();
    let letter = if number == 0 { bytes[0] } else { 0 };
    odd.note("released before bytes that are nobody's", letter == b'c' && has_removed && has_nobodys);
    odd.note("dropped before bytes that are nobody's", letter == b'A' && has_removed && has_nobodys);
    odd.note("kept behind bytes that are nobody's", number == 0 && after.pieces.len() > before.pieces.len() && has_nobodys);
    odd.note("released with a number past the buffer", letter == b'c' && has_removed && is_past);
    odd.note("dropped with a number past the buffer", letter == b'A' && has_removed && is_past);
    odd.note("no room with a number past the buffer", number == Refusal::KEEPER && is_past);
}

/// Any buffer, with any number for what is held, is read as pieces.
#[test]
fn made_up_buffers() {
    let mut rng = Rng::new(42);
    let (mut tally, mut odd) = (Tally::new(), Counts::of(ODD));
    for _ in 0..5_000 {
        let length = rng.pick(&[20, 60]);
        let mut keepers = compare(&mut rng, 2, length, &mut Tally::new(), &mut Deeds::new());
        let pool = streamed(&mut rng);
        for tag in 0..20 {
            if rng.one_in(2) {
                let hold = made_up(&mut rng, &pool, &keepers.hold);
                keepers.lend(hold);
            }
            let before = Kept::read(&keepers.hold.buffer, keepers.hold.held);
            keepers.model.kept = before.clone();
            assert!(pieces_of(keepers.keeper.held_records()).iter().eq(before.pieces.iter().filter(|piece| piece.xids.is_some())));
            let bytes = next_streamed(&mut rng, &keepers.model, &pool);
            let out = output(&mut rng, keepers.model.released(&bytes));
            let number = keepers.give(&bytes, tag, &out, &mut Deeds::new()).number;
            tally.note(number);
            note_odd(&mut odd, &bytes, number, &before, &keepers.model.kept, keepers.room());
        }
    }
    tally.has_seen(&[0, 2, 3, 4, 5, 6, 7, 8, 9, 10, 13, 14], 10);
    odd.have_all_been(100);
}

/// The block that a message of a made-up session must have come in, by what it got and left.
fn block_of(outcome: &Outcome, held: usize) -> Option<u32> {
    let is_kept = outcome.got.number == 0 && outcome.hold.held > held;
    match outcome.got.number {
        Refusal::KEEPER => Some(1),
        _ => is_kept.then(|| word(&outcome.hold.buffer, held + 2)),
    }
}

/// A made-up session with a made-up buffer: the session answers as it does alone, and the keeper reads its buffer as pieces.
#[test]
fn made_up_sessions_with_a_keeper() {
    let mut rng = Rng::new(43);
    let mut tally = Tally::new();
    for i in 0..2_000 {
        let (mut record, history, pool) = made_up_session(&mut rng, i);
        let mut hold = Hold { buffer: vec![], held: 0 };
        for _ in 0..20 {
            hold = made_up(&mut rng, pool, &hold);
            let mut kept = Kept::read(&hold.buffer, hold.held);
            let mut alone = Lent::of(record.value.clone());
            let bytes = if rng.one_in(4) { end(&mut rng, &kept, pool) } else { any_next(&mut rng, &history, pool) };
            let length = rng.pick(&[0, 40, 400]);
            let out = any_bytes(&mut rng, length);
            let outcome = give(&mut record, &hold, &bytes, 1, &out);
            let mut answer = sessions::give(&mut alone, &bytes, 1);
            let mut released = vec![];
            if answer.0 == 0 {
                match kept.give(block_of(&outcome, hold.held), &bytes, hold.buffer.len(), out.len()) {
                    Ok(bytes) => released = bytes,
                    Err((number, offset)) => answer = (number, refused(offset)),
                }
            }
            assert_eq!(outcome, outcome_of(answer, &released, &kept, &hold, &out));
            assert!(outcome.got.number != 0 || record.value == alone.back());
            tally.note(outcome.got.number);
        }
        record.back();
    }
    tally.has_seen(&[0, 1, 2, 3, 4, 5, 6, 7, 8, 9, 10, 11, 12, 13, 14], 1);
}
