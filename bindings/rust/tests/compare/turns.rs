//! Two neighbouring blocks of different transactions are exchanged. Where every message of both is accepted in one order, it is in the
//! other, and each message of the whole list gets the same.
use crate::deeds::Deeds;
use crate::generate::Draft;
use crate::keepers::{reply_of, Got, Keepers};
use crate::kept::word;
use crate::lists::{two_xids, Call, List, Maker, Turns, NO_STREAM};
use crate::model::{any_bytes, streamed};
use crate::rng::Rng;
use crate::sequences::{commit, spread, stream_commit, stream_start, Pool, MIXED};
use crate::sessions::Sessions;
use crate::tally::{Counts, Tally};
use kitsoriqu::{Records, Refusal};

const ORDERS: [[usize; 2]; 2] = [[0, 1], [1, 0]];

impl Turns<Got> {
    fn are_blocks_accepted(&self) -> bool {
        self.blocks.iter().flatten().all(|got| got.number == 0)
    }

    fn is_refused_in_blocks(&self, number: u32) -> bool {
        self.blocks.iter().flatten().any(|got| got.number == number)
    }
}

/// Where lists start: a session with a keeper that holds nothing, and one without.
struct Start {
    keepers: Keepers,
    sessions: Sessions,
}

impl Start {
    fn new() -> Start {
        Start { keepers: Keepers::start(2, vec![]), sessions: Sessions::start(Some(2)) }
    }

    fn give(&mut self, Draft(bytes): Draft) {
        assert_eq!(self.keepers.give(&bytes, 0, &[], &mut Deeds::new()).number, 0);
        assert_eq!(self.sessions.answer(&bytes, 0).0, 0);
    }

    /// Relations are announced in the first block of a stream, or in a transaction.
    fn announce(&mut self, stream: Option<u32>, oids: impl IntoIterator<Item = u32>) {
        let transaction = Draft::new(b'B').long(1).long(0).word(NO_STREAM);
        self.give(stream.map_or(transaction, |xid| stream_start(xid, true)));
        oids.into_iter().for_each(|oid| self.give(relation(stream, oid)));
        self.give(if stream.is_some() { Draft::new(b'E') } else { commit(1) });
    }

    fn list(&self, rng: &mut Rng, pool: Pool, lengths: [u64; 2], xids: [u32; 2]) -> List {
        Maker::new(self.keepers.model.clone(), pool).list(rng, lengths, xids)
    }

    /// What the messages get in both orders, with a keeper whose buffer has another content each time.
    fn with_a_keeper(&self, rng: &mut Rng, turns: &Turns<Call>, room: usize, deeds: &mut Deeds) -> [Turns<Got>; 2] {
        ORDERS.map(|order| {
            let mut keepers = self.keepers.moved_to(&any_bytes(rng, room));
            deeds.start();
            turns.give(order, |call| keepers.give(&call.bytes, call.tag, &call.out, deeds))
        })
    }

    fn without_a_keeper(&self, turns: &Turns<Call>) -> [Turns<Got>; 2] {
        ORDERS.map(|order| {
            let mut sessions = self.sessions.clone();
            turns.give(order, |call| {
                let (number, answer) = sessions.answer(&call.bytes, call.tag);
                Got { number, reply: reply_of(answer, 0), out: vec![] }
            })
        })
    }
}

/// A relation without columns.
fn relation(xid: Option<u32>, oid: u32) -> Draft {
    Draft::new(b'R').xid(xid).word(oid).byte(0).byte(0).byte(b'd').short(0)
}

/// Whether every message of both blocks is accepted, in both orders or in none; and if so, each message gets the same in both.
fn compare(turns: &Turns<Call>, [got, exchanged]: &[Turns<Got>; 2]) -> bool {
    let is_accepted = got.are_blocks_accepted();
    assert_eq!(is_accepted, exchanged.are_blocks_accepted(), "accepted in one order only: {turns:02X?}");
    assert!(!is_accepted || got == exchanged, "{got:02X?} and {exchanged:02X?} of {turns:02X?}");
    is_accepted
}

/// Whether something of a block is kept under another xid than the block's.
fn keeps_under_sub_xids(turns: &Turns<Call>, got: &Turns<Got>, block: usize) -> bool {
    let mut pairs = turns.blocks[block].iter().zip(&got.blocks[block]);
    pairs.any(|(call, got)| got.reply[0] == 1 && word(&call.bytes, 1) != turns.xid(block))
}

/// Whether something of a block is released afterwards.
fn is_released(turns: &Turns<Call>, got: &Turns<Got>, block: usize) -> bool {
    let mut released = got.after.iter().flat_map(|got| Records::new(&got.out[..got.reply[4] as usize]));
    let came_in_block = |message: &[u8]| turns.blocks[block].iter().any(|call| call.bytes == message);
    released.any(|record| record.top_xid == turns.xid(block) && came_in_block(record.message))
}

/// Whether a change afterwards sees an announcement of a block.
fn is_seen(turns: &Turns<Call>, got: &Turns<Got>, block: usize) -> bool {
    let mut changes = got.after.iter().filter(|got| got.number == 0 && got.reply[0] == 1);
    changes.any(|change| turns.blocks[block].iter().any(|call| call.tag == change.reply[1]))
}

/// A room that blocks may fill: its refusal, and whether those of a list do, as it was made.
struct Limit {
    number: u32,
    is_filled: fn(&List) -> bool,
}

/// What lists did: how often all of both blocks was accepted, and what else was so; where all was accepted, the first bytes of the blocks'
/// messages and the answers behind the blocks; and what keepers did.
struct Seen {
    accepted: Counts,
    done: Counts,
    letters: Tally,
    answers: Tally,
    deeds: Deeds,
}

impl Seen {
    fn nothing() -> Seen {
        let done = [
            "kept under sub-xids in both blocks",
            "seen through both blocks",
            "released from both blocks",
            "room filled",
            "room too small",
            "other answers where not all was accepted",
        ];
        let (accepted, done) = (Counts::of(["with a keeper", "without a keeper"]), Counts::of(done));
        Seen { accepted, done, letters: Tally::new(), answers: Tally::new(), deeds: Deeds::new() }
    }

    /// Gives a list in both orders.
    fn exchange(&mut self, rng: &mut Rng, start: &Start, list: &List, limit: &Limit) {
        let turns = &list.turns;
        let alone = start.without_a_keeper(turns);
        self.accepted.note("without a keeper", compare(turns, &alone));
        let both = start.with_a_keeper(rng, turns, list.room, &mut self.deeds);
        let is_accepted = compare(turns, &both);
        self.accepted.note("with a keeper", is_accepted);
        let [got, exchanged] = both;
        if is_accepted {
            self.note_accepted(turns, &got);
        }
        // where the keeper lacked room before, it holds less than in the making
        let is_as_made = got.before.iter().all(|got| got.number != Refusal::KEEPER);
        self.done.note("room filled", is_accepted && is_as_made && (limit.is_filled)(list));
        self.done.note("room too small", got.is_refused_in_blocks(limit.number));
        self.done.note("other answers where not all was accepted", got.after != exchanged.after);
    }

    fn note_accepted(&mut self, turns: &Turns<Call>, got: &Turns<Got>) {
        turns.blocks.iter().flatten().for_each(|call| self.letters.note(call.bytes[0].into()));
        got.after.iter().for_each(|got| self.answers.note(got.number));
        let in_both = |is_so: fn(&Turns<Call>, &Turns<Got>, usize) -> bool| is_so(turns, got, 0) && is_so(turns, got, 1);
        self.done.note("kept under sub-xids in both blocks", in_both(keeps_under_sub_xids));
        self.done.note("seen through both blocks", in_both(is_seen));
        self.done.note("released from both blocks", in_both(is_released));
    }
}

#[test]
fn blocks_exchanged() {
    let mut rng = Rng::new(51);
    let (mut seen, start) = (Seen::nothing(), Start::new());
    let limit = Limit { number: Refusal::KEEPER, is_filled: |list| list.held == list.room && list.held > 0 };
    for _ in 0..6_000 {
        let pool = Pool { ends: 2, ..streamed(&mut rng) };
        let xids = two_xids(&mut rng, &pool);
        let list = start.list(&mut rng, pool, [40, 30], xids);
        seen.exchange(&mut rng, &start, &list, &limit);
    }
    seen.accepted.have_all_been(4_000);
    seen.done.have_all_been(100);
    seen.letters.has_seen(&b"SRIUDTYMOE".map(u32::from), 100);
    seen.answers.has_seen(&[0, 2, 3, 4, 5, 6, 7, 8, 9, 10, 13, 14], 10);
    seen.deeds.have_all_been_done(10);
}

/// A start with so many open streams of a pool.
fn with_streams(rng: &mut Rng, pool: &Pool, count: usize) -> Start {
    let mut start = Start::new();
    while start.keepers.model.history.open().len() < count {
        let xid = pool.xid(rng);
        if !start.keepers.model.history.is_open(xid.into()) {
            start.announce(Some(xid), []);
        }
    }
    start
}

#[test]
fn blocks_of_the_last_streams() {
    let mut rng = Rng::new(52);
    let mut seen = Seen::nothing();
    let limit = Limit { number: Refusal::STREAMS, is_filled: |list| list.open == 16 };
    let pool = Pool { oids: 2, xids: 20, closes: 1, ..MIXED };
    for _ in 0..3_000 {
        let count = rng.pick(&[13, 14, 15, 16]);
        let start = with_streams(&mut rng, &pool, count);
        let xids = two_xids(&mut rng, &pool);
        let list = start.list(&mut rng, pool, [8, 30], xids);
        seen.exchange(&mut rng, &start, &list, &limit);
    }
    seen.accepted.have_all_been(2_000);
    seen.done.have_all_been(20);
    seen.answers.has_seen(&[0, 2, 3, 4, 5, 6, 7, 8, 9, 10, 12, 13, 14], 1);
}

/// A start with so many live announcements, of each stream of a pool and common ones.
fn with_announcements(pool: &Pool, count: u64) -> Start {
    let mut start = Start::new();
    let mut left = count;
    for stream in (0..pool.xids).map(|n| Some(spread(n))).chain([None]) {
        let share = left.min(pool.oids * 3 / 4);
        start.announce(stream, (0..share).map(spread));
        left -= share;
    }
    start
}

#[test]
fn blocks_of_the_last_announcements() {
    let mut rng = Rng::new(53);
    let mut seen = Seen::nothing();
    let limit = Limit { number: Refusal::ANNOUNCEMENTS, is_filled: |list| list.live == 256 };
    let pool = Pool { oids: 40, xids: 8, announces: 20, ..MIXED };
    for count in [250, 252, 253, 254, 255, 256] {
        let start = with_announcements(&pool, count);
        for _ in 0..120 {
            let xids = two_xids(&mut rng, &pool);
            let list = start.list(&mut rng, pool, [4, 20], xids);
            seen.exchange(&mut rng, &start, &list, &limit);
        }
    }
    seen.accepted.have_all_been(400);
    seen.done.have_all_been(20);
    seen.answers.has_seen(&[0, 2, 3, 4, 5, 6, 7, 8, 9, 10, 11, 13, 14], 1);
}

/// A block of one message.
fn block(xid: u32, first: bool, inside: Draft) -> Vec<Draft> {
    vec![stream_start(xid, first), inside, Draft::new(b'E')]
}

/// An Insert of no columns, whose record has 26 bytes.
fn insert(xid: u32) -> Draft {
    Draft::new(b'I').word(xid).word(5).byte(b'N').short(0)
}

/// What the last message gets in both orders, with room for one record. Messages of the first block have tag 1, those of the second 2.
fn last_got(start: &Start, [first, second]: [Vec<Draft>; 2], after: Vec<Draft>) -> [Got; 2] {
    let calls = |drafts: Vec<Draft>, tag| drafts.into_iter().map(|Draft(bytes)| Call { bytes, tag, out: vec![0; 26] }).collect();
    let turns = Turns { before: vec![], blocks: [calls(first, 1), calls(second, 2)], after: calls(after, 3) };
    start.with_a_keeper(&mut Rng::new(54), &turns, 26, &mut Deeds::new()).map(|mut got| got.after.pop().unwrap())
}

/// Where both blocks announce relation 5, the one that comes last is seen.
#[test]
fn blocks_of_one_transaction() {
    let mut start = Start::new();
    start.announce(Some(7), []);
    let blocks = [(); 2].map(|()| block(7, false, relation(Some(7), 5)));
    let got = last_got(&start, blocks, vec![stream_start(7, false), insert(7)]);
    assert_eq!(got.map(|got| got.reply), [2, 1].map(|tag| [1, tag, b'd'.into(), 0, 0]));
}

/// Lists with two blocks of one transaction: some are accepted in both orders, and get other answers.
#[test]
fn lists_with_blocks_of_one_transaction() {
    let mut rng = Rng::new(55);
    let start = Start::new();
    let mut others = 0;
    for _ in 0..1_500 {
        let pool = Pool { ends: 2, ..streamed(&mut rng) };
        let xid = pool.xid(&mut rng);
        let List { turns, room, .. } = start.list(&mut rng, pool, [40, 30], [xid, xid]);
        let [got, exchanged] = start.with_a_keeper(&mut rng, &turns, room, &mut Deeds::new());
        others += u32::from(got.are_blocks_accepted() && exchanged.are_blocks_accepted() && got != exchanged);
    }
    println!("{others} get other answers");
    assert!(others >= 50, "{others}");
}

/// Where there is room for one of two blocks only, the one that comes first gets it.
#[test]
fn blocks_without_room() {
    let mut start = Start::new();
    start.announce(None, [5]);
    let blocks = [7, 8].map(|xid| block(xid, true, insert(xid)));
    let got = last_got(&start, blocks, vec![stream_commit(7)]);
    assert_eq!(got.map(|got| (got.number, got.reply[4])), [(0, 26), (0, 0)], "in the buffer");

    let mut start = Start::new();
    (101..=115).for_each(|xid| start.announce(Some(xid), []));
    let blocks = [7, 8].map(|xid| block(xid, true, Draft::new(b'O').long(1).byte(0)));
    let got = last_got(&start, blocks, vec![stream_commit(7)]);
    assert_eq!(got.map(|got| got.number), [0, Refusal::TRANSACTION], "for a stream");

    let mut start = Start::new();
    start.announce(None, 1001..=1255);
    let blocks = [7, 8].map(|xid| block(xid, true, relation(Some(xid), 5)));
    let got = last_got(&start, blocks, vec![stream_start(7, false), insert(7)]);
    assert_eq!(got.map(|got| got.number), [0, Refusal::RELATION], "for an announcement");
}
