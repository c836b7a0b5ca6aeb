use crate::answers::{numbers_of, typed_numbers};
use crate::ffi::{self, Record};
use crate::generate::Draft;
use crate::history::{History, Place};
use crate::lent::Lent;
use crate::moves::Moves;
use crate::rng::Rng;
use crate::sequences::{any_next, begin, commit, logical, next, spread, stream_start, Pool, MANY_OIDS, MANY_STREAMS, MIXED};
use crate::tally::Tally;
use kitsoriqu::Session;
use std::collections::BTreeSet;

/// Gives a record one message; a refusal must leave it as it was.
pub fn give(record: &mut Lent<Record>, bytes: &[u8], tag: u64) -> (u32, [u64; 4]) {
    let before = record.value.clone();
    let mut answer = Lent::numbers();
    let number = ffi::session_give(&mut record.value, bytes, tag, &mut answer.value);
    assert!(number == 0 || record.value == before, "a refusal changed the session");
    (number, answer.back())
}

/// One session three times: the library's record, the typed one, and the history.
#[derive(Clone)]
pub struct Sessions {
    record: Lent<Record>,
    typed: Session,
    history: History,
}

impl Sessions {
    pub fn start(version: Option<u32>) -> Sessions {
        let mut record = Lent::of(Record::ZERO);
        let typed = match version {
            Some(version) => {
                ffi::session_start(&mut record.value, version);
                Session::new(version)
            }
            None => {
                ffi::session_start_default(&mut record.value);
                Session::default()
            }
        };
        Sessions { record, typed, history: History::new(version.unwrap_or(1)) }
    }

    /// Gives each the message, which all answer alike.
    pub fn answer(&mut self, bytes: &[u8], tag: u64) -> (u32, [u64; 4]) {
        let expected = numbers_of(self.history.give(bytes, tag));
        assert_eq!(give(&mut self.record, bytes, tag), expected, "{bytes:02X?}");
        assert_eq!(typed_numbers(self.typed.give(bytes, tag)), expected);
        expected
    }

    fn give(&mut self, bytes: &[u8], tag: u64) -> u32 {
        self.answer(bytes, tag).0
    }

    /// Ends the transaction or block that stands here.
    fn leave(&mut self) {
        match self.history.place() {
            Place::Idle => 0,
            Place::Transaction(lsn) => self.give(&commit(lsn).0, 0),
            Place::Block(_) => self.give(b"E", 0),
        };
    }

    /// What each OID of a pool names at this place.
    fn look(&mut self, pool: &Pool) {
        let xid = self.history.in_block().then_some(1);
        for oid in (0..pool.oids).map(spread) {
            let bytes = Draft::new(b'T').xid(xid).oids(&[oid], 0).0;
            let expected = self.history.visible(oid.into()).map(Some).ok_or((9, 0));
            assert_eq!(give(&mut self.record, &bytes, 0), numbers_of(expected), "{oid}");
        }
    }

    /// Announces OIDs of no pool: there is room for just those that are not live.
    fn fill(&mut self) {
        for n in self.history.live()..=256 {
            let bytes = Draft::new(b'R').word(0x1000_0000 + n as u32).byte(0).byte(0).byte(b'd').byte(0).byte(0).0;
            let expected = if n < 256 { (0, [0; 4]) } else { (11, [0; 4]) };
            assert_eq!(give(&mut self.record, &bytes, 0), expected, "{n} live");
        }
    }

    /// What each OID names in a transaction and in a block of each open stream, and that the record holds no more.
    fn look_everywhere(mut self, rng: &mut Rng, pool: &Pool) {
        let open = self.history.open();
        let free = (1..).find(|xid| !open.contains(xid)).unwrap();
        let begins = open.iter().map(|&xid| stream_start(xid as u32, false)).chain([begin(rng, free as u32)]);
        for begin in begins {
            self.leave();
            if self.give(&begin.0, 0) == 0 {
                self.look(pool);
            }
        }
        if self.history.place() != Place::Idle {
            self.fill();
        }
        self.record.back();
    }
}

/// A sequence of messages, each judged by the library and by the history.
fn compare(rng: &mut Rng, version: Option<u32>, length: usize, pool: &Pool, tally: &mut Tally, moves: &mut Moves) -> Sessions {
    let mut sessions = Sessions::start(version);
    let mut live = BTreeSet::new();
    for _ in 0..length {
        let bytes = next(rng, &sessions.history, pool);
        let tag = rng.any() >> rng.below(64);
        let place = sessions.history.place();
        let number = sessions.give(&bytes, tag);
        tally.note(number);
        if number == 0 {
            moves.note(&mut live, place, &bytes);
        }
        if rng.one_in(50) {
            sessions.typed = sessions.typed.clone();
        }
    }
    sessions
}

#[test]
fn sequences() {
    let mut rng = Rng::new(31);
    let (mut tally, mut moves) = (Tally::new(), Moves::default());
    for i in 0..4_000 {
        let version = match i % 20 {
            0 => None,
            1 => Some(rng.pick(&[0, 3, u32::MAX])),
            2..=5 => Some(1),
            _ => Some(2),
        };
        let length = 20 + rng.below(100) as usize;
        compare(&mut rng, version, length, &MIXED, &mut tally, &mut moves).look_everywhere(&mut rng, &MIXED);
    }
    tally.has_seen(&[0, 1, 2, 3, 4, 5, 6, 7, 8, 9, 10], 100);
    moves.have_been_everywhere(100);
}

#[test]
fn room_for_streams() {
    let mut rng = Rng::new(32);
    let (mut tally, mut moves) = (Tally::new(), Moves::default());
    for _ in 0..800 {
        compare(&mut rng, Some(2), 400, &MANY_STREAMS, &mut tally, &mut moves).look_everywhere(&mut rng, &MANY_STREAMS);
    }
    tally.has_seen(&[0, 2, 3, 4, 5, 6, 7, 8, 9, 10, 12], 1);
    moves.have_been_everywhere(1);
}

#[test]
fn room_for_announcements() {
    let mut rng = Rng::new(33);
    let (mut tally, mut moves) = (Tally::new(), Moves::default());
    for _ in 0..40 {
        // of few holders, mostly announcements that are there already
        let pool = Pool { xids: rng.pick(&[1, 3, 12]), ..MANY_OIDS };
        compare(&mut rng, Some(2), 1_200, &pool, &mut tally, &mut moves).look_everywhere(&mut rng, &pool);
    }
    tally.has_seen(&[0, 2, 3, 4, 5, 6, 7, 8, 9, 10, 11], 1);
    moves.have_been_everywhere(10);
}

/// Before each message of a sequence the record is given a logical one, of which the history is not told: it is accepted anywhere with
/// flag 0 and outside idle with flag 1, it leaves the record as it was, and the sequence is answered as without it.
#[test]
fn logical_messages() {
    let mut rng = Rng::new(35);
    let mut seen = [[0; 2]; 3];
    for _ in 0..400 {
        let mut sessions = Sessions::start(Some(2));
        for tag in 0..60 {
            let place = sessions.history.place();
            let xid = sessions.history.in_block().then(|| MIXED.xid(&mut rng));
            let transactional = rng.one_in(2);
            let bytes = logical(&mut rng, xid, transactional).0;
            let expected = if transactional && place == Place::Idle { 7 } else { 0 };
            let before = sessions.record.value.clone();
            assert_eq!(give(&mut sessions.record, &bytes, tag), (expected, [0; 4]));
            assert!(sessions.record.value == before, "a logical message changed the session");
            let at = match place {
                Place::Idle => 0,
                Place::Transaction(_) => 1,
                Place::Block(_) => 2,
            };
            seen[at][usize::from(transactional)] += 1;
            let bytes = next(&mut rng, &sessions.history, &MIXED);
            sessions.give(&bytes, tag);
        }
        sessions.look_everywhere(&mut rng, &MIXED);
    }
    println!("{seen:?}");
    assert!(seen.iter().flatten().all(|&times| times >= 100), "{seen:?}");
}

/// Makes a record up: of one that was driven some bytes are changed, the front ones more often, or a part, or all.
fn make_up(rng: &mut Rng, record: &mut Record) {
    let words = &mut record.opaque;
    let count = words.len() as u64;
    match rng.below(8) {
        0 => words.iter_mut().for_each(|word| *word = rng.any()),
        1 | 2 => {
            let start = rng.below(count) as usize;
            let end = start + rng.below(count - start as u64) as usize;
            let any = rng.any();
            words[start..=end].fill(rng.pick(&[0, 1, any, u64::MAX]));
        }
        _ => {
            for _ in 0..rng.below(200) >> rng.below(8) {
                let at = rng.below(8 * count) >> rng.below(12);
                let any = rng.byte();
                let byte: u64 = rng.pick(&[0, 1, 2, any, 0xFF]).into();
                let (word, shift) = (&mut words[at as usize / 8], at % 8 * 8);
                *word = *word & !(0xFF << shift) | byte << shift;
            }
        }
    }
}

/// The i-th made-up session, of one that was driven: its record, the history of what it had accepted, and where that drew from.
pub fn made_up_session(rng: &mut Rng, i: u64) -> (Lent<Record>, History, &'static Pool) {
    let pool = if i % 4 == 0 { &MANY_STREAMS } else { &MIXED };
    let length = rng.pick(&[0, 20, 60, 300]);
    let Sessions { mut record, history, .. } = compare(rng, Some(2), length, pool, &mut Tally::new(), &mut Moves::default());
    make_up(rng, &mut record.value);
    (record, history, pool)
}

/// A record of any bytes is answered, as is its copy, and a refusal leaves all of them as they were.
#[test]
fn made_up_records() {
    let mut rng = Rng::new(34);
    let mut tally = Tally::new();
    for i in 0..2_000 {
        let (mut record, history, pool) = made_up_session(&mut rng, i);
        for _ in 0..20 {
            let mut copied = Lent::of(record.value.clone());
            let bytes = any_next(&mut rng, &history, pool);
            let (number, answer) = give(&mut record, &bytes, 1);
            let is_filled = if number != 0 { answer[1..] == [0; 3] } else { answer[0] == 1 || answer == [0; 4] };
            assert!(is_filled, "{number} {answer:?}");
            assert_eq!(give(&mut copied, &bytes, 1), (number, answer));
            assert!(record.value == copied.back());
            tally.note(number);
        }
        record.back();
    }
    tally.has_seen(&[0, 1, 2, 3, 4, 5, 6, 7, 8, 9, 10, 11, 12], 1);
}
