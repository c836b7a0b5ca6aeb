//! Sequences of messages made at random: what may come next, by a history of what was accepted.
use crate::generate::{damage, message, Draft};
use crate::history::{Announcement, History, Place};
use crate::rng::Rng;

/// What a sequence draws from: so many OIDs and xids; and how likely it is to end a transaction or block, to announce a relation and
/// to close a stream.
#[derive(Clone, Copy)]
pub struct Pool {
    pub oids: u64,
    pub xids: u64,
    pub ends: u64,
    pub announces: u64,
    pub closes: u64,
}

pub const MIXED: Pool = Pool { oids: 5, xids: 6, ends: 2, announces: 5, closes: 3 };

/// More xids than there is room for, and few streams closed.
pub const MANY_STREAMS: Pool = Pool { xids: 40, ends: 10, closes: 0, ..MIXED };

/// More OIDs than there is room for, and mostly announcements.
pub const MANY_OIDS: Pool = Pool { oids: 300, xids: 12, announces: 45, closes: 6, ..MIXED };

/// The n-th OID or xid: by turns from the least up, from the middle up and from the greatest down.
pub fn spread(n: u64) -> u32 {
    let step = n as u32 / 3;
    match n % 3 {
        0 => 1 + step,
        1 => 0x7FFF_FFFF + step,
        _ => u32::MAX - step,
    }
}

impl Pool {
    fn oid(&self, rng: &mut Rng) -> u32 {
        spread(rng.below(self.oids))
    }

    pub fn xid(&self, rng: &mut Rng) -> u32 {
        spread(rng.below(self.xids))
    }
}

pub fn begin(rng: &mut Rng, xid: u32) -> Draft {
    Draft::new(b'B').long(rng.below(3)).long(0).word(xid)
}

pub fn commit(lsn: u64) -> Draft {
    Draft::new(b'C').byte(0).long(lsn).long(9).long(0)
}

pub fn stream_start(xid: u32, first: bool) -> Draft {
    Draft::new(b'S').word(xid).byte(first.into())
}

pub fn stream_commit(xid: u32) -> Draft {
    Draft::new(b'c').word(xid).byte(0).long(1).long(2).long(3)
}

pub fn stream_abort(xid: u32, sub_xid: u32) -> Draft {
    Draft::new(b'A').word(xid).word(sub_xid)
}

pub fn logical(rng: &mut Rng, xid: Option<u32>, transactional: bool) -> Draft {
    Draft::new(b'M').xid(xid).byte(transactional.into()).long(7).text(rng, 4).value(rng, 4)
}

fn relation(rng: &mut Rng, xid: Option<u32>, oid: u32) -> Draft {
    let count = rng.below(3) as u16;
    Draft::new(b'R').xid(xid).word(oid).text(rng, 2).text(rng, 2).byte(rng.pick(b"dnfi")).columns(rng, count)
}

/// An Insert, Update or Delete that fits what is announced, or nearly.
fn change(rng: &mut Rng, xid: Option<u32>, oid: u32, seen: Option<Announcement>) -> Draft {
    let mut count = seen.map_or(1, |seen| seen.columns as u16);
    let is_full = seen.is_some_and(|seen| seen.identity == u64::from(b'f'));
    let mut image = if is_full { b'O' } else { b'K' };
    if rng.one_in(20) {
        count += 1;
    }
    if rng.one_in(20) {
        image = rng.pick(b"KO");
    }
    let letter = rng.pick(b"IUUD");
    let mut draft = Draft::new(letter).xid(xid).word(oid);
    if letter == b'D' || letter == b'U' && rng.one_in(2) {
        draft = draft.byte(image).tuple(rng, count);
    }
    if letter != b'D' {
        draft = draft.byte(b'N').tuple(rng, count);
    }
    draft
}

fn idle(rng: &mut Rng, history: &History, pool: &Pool) -> Draft {
    let open: Vec<u64> = history.open().into_iter().collect();
    let xid = pool.xid(rng);
    let known = if open.is_empty() || rng.one_in(10) { xid } else { rng.pick(&open) as u32 };
    if rng.one_in(12) {
        let transactional = rng.one_in(4);
        return logical(rng, None, transactional);
    }
    match rng.below(9 + pool.closes) {
        0..=3 => begin(rng, xid),
        4 | 5 => stream_start(xid, !history.is_open(xid.into())),
        6..=8 => stream_start(known, !history.is_open(known.into())),
        n if n % 3 == 0 => stream_commit(known),
        n if n % 3 == 1 => stream_abort(known, known),
        _ => stream_abort(known, xid),
    }
}

fn inside(rng: &mut Rng, history: &History, pool: &Pool) -> Draft {
    // inside a block the xid may be a sub-transaction's
    let xid = history.in_block().then(|| pool.xid(rng));
    let oid = pool.oid(rng);
    let n = rng.below(pool.ends + 13 + pool.announces);
    if n < pool.ends {
        return match history.place() {
            Place::Transaction(lsn) => commit(lsn),
            _ => Draft::new(b'E'),
        };
    }
    match n - pool.ends {
        0 => Draft::new(b'O').long(7).text(rng, 4),
        1 => {
            let transactional = rng.one_in(2);
            logical(rng, xid, transactional)
        }
        2 => Draft::new(b'Y').xid(xid).word(8).text(rng, 4).text(rng, 4),
        3 | 4 => {
            let oids: Vec<u32> = (0..=rng.below(3)).map(|_| pool.oid(rng)).collect();
            Draft::new(b'T').xid(xid).oids(&oids, 0)
        }
        5..=12 => change(rng, xid, oid, history.visible(oid.into())),
        _ => relation(rng, xid, oid),
    }
}

/// The next message: mostly one that fits, now and then one that does not, or that is damaged.
pub fn next(rng: &mut Rng, history: &History, pool: &Pool) -> Vec<u8> {
    if rng.one_in(12) {
        let xid = pool.xid(rng);
        let in_block = history.in_block();
        let out_of_place = match rng.below(8) {
            0 => begin(rng, xid),
            1 => commit(rng.below(3)),
            2 => stream_start(xid, rng.one_in(2)),
            3 => Draft::new(b'E'),
            4 => stream_commit(xid),
            5 => stream_abort(xid, xid),
            6 => Draft(message(rng, in_block)),
            _ => inside(rng, history, pool),
        };
        return out_of_place.0;
    }
    let mut bytes = if history.place() == Place::Idle { idle(rng, history, pool) } else { inside(rng, history, pool) }.0;
    if rng.one_in(30) {
        damage(rng, &mut bytes);
    }
    bytes
}

/// A message that can be read at the history's place, or one that is damaged.
pub fn any_next(rng: &mut Rng, history: &History, pool: &Pool) -> Vec<u8> {
    let mut bytes = match rng.below(4) {
        0 => message(rng, history.in_block()),
        1 => idle(rng, history, pool).0,
        _ => inside(rng, history, pool).0,
    };
    if rng.one_in(10) {
        damage(rng, &mut bytes);
    }
    bytes
}
