//! Lists of messages with two neighbouring blocks in them, made at random.
use crate::generate::Draft;
use crate::history::Place;
use crate::kept::word;
use crate::model::{next_streamed, output, Model};
use crate::rng::Rng;
use crate::sequences::{begin, commit, next, spread, stream_commit, stream_start, Pool};

/// A message with its tag and the output that is lent with it.
#[derive(Debug)]
pub struct Call {
    pub bytes: Vec<u8>,
    pub tag: u64,
    pub out: Vec<u8>,
}

/// Messages, or what each of them gets: some, then two neighbouring blocks, then the rest.
#[derive(PartialEq, Debug)]
pub struct Turns<T> {
    pub before: Vec<T>,
    pub blocks: [Vec<T>; 2],
    pub after: Vec<T>,
}

impl Turns<Call> {
    /// What each message gets, where the blocks are given in this order.
    pub fn give<G>(&self, order: [usize; 2], mut give: impl FnMut(&Call) -> G) -> Turns<G> {
        let mut give_all = |calls: &[Call]| calls.iter().map(&mut give).collect();
        let before = give_all(&self.before);
        let mut blocks = [vec![], vec![]];
        for i in order {
            blocks[i] = give_all(&self.blocks[i]);
        }
        Turns { before, blocks, after: give_all(&self.after) }
    }

    pub fn xid(&self, block: usize) -> u32 {
        word(&self.blocks[block][0].bytes, 1)
    }
}

/// A list, with what its maker had behind both blocks: bytes held, streams open and announcements live. And the room for its keeper.
pub struct List {
    pub turns: Turns<Call>,
    pub held: usize,
    pub open: usize,
    pub live: usize,
    pub room: usize,
}

/// Two different xids of a pool.
pub fn two_xids(rng: &mut Rng, pool: &Pool) -> [u32; 2] {
    loop {
        let xids = [pool.xid(rng), pool.xid(rng)];
        if xids[0] != xids[1] {
            return xids;
        }
    }
}

/// An xid of no pool.
pub const NO_STREAM: u32 = 0x1000_0000;

/// Makes a list by what a model, with so much room, answers.
#[derive(Clone)]
pub struct Maker {
    model: Model,
    pool: Pool,
    room: usize,
}

impl Maker {
    pub fn new(model: Model, pool: Pool) -> Maker {
        Maker { model, pool, room: usize::MAX }
    }

    /// Gives the model a message, with a tag that no other has and about as much output as it needs.
    fn give(&mut self, rng: &mut Rng, bytes: Vec<u8>) -> (Call, u32) {
        let out = output(rng, self.model.released(&bytes));
        let tag = rng.any();
        let ((number, _), _) = self.model.give(&bytes, tag, self.room, out.len());
        (Call { bytes, tag, out }, number)
    }

    fn call(&mut self, rng: &mut Rng, Draft(bytes): Draft) -> Call {
        self.give(rng, bytes).0
    }

    fn stream_start(&mut self, rng: &mut Rng, xid: u32) -> Call {
        let first = !self.model.history.is_open(xid.into());
        self.call(rng, stream_start(xid, first))
    }

    /// So many messages, and one more if need be, that ends what they started.
    fn messages(&mut self, rng: &mut Rng, length: u64) -> Vec<Call> {
        let mut calls = vec![];
        for _ in 0..length {
            let bytes = next_streamed(rng, &self.model, &self.pool);
            calls.push(self.give(rng, bytes).0);
        }
        match self.model.history.place() {
            Place::Idle => {}
            Place::Transaction(lsn) => calls.push(self.call(rng, commit(lsn))),
            Place::Block(_) => calls.push(self.call(rng, Draft::new(b'E'))),
        }
        calls
    }

    /// A block: what is accepted in it, and with `any` what is refused too.
    fn block(mut self, rng: &mut Rng, xid: u32, any: bool) -> Vec<Call> {
        let mut calls = vec![self.stream_start(rng, xid)];
        if !self.model.history.in_block() {
            calls.push(self.call(rng, Draft::new(b'E')));
        }
        while self.model.history.in_block() {
            let bytes = next(rng, &self.model.history, &self.pool);
            let (call, number) = self.give(rng, bytes);
            if number == 0 || any {
                calls.push(call);
            }
        }
        calls
    }

    /// A Truncate of each relation, whose answer is what it sees.
    fn look(&mut self, rng: &mut Rng) -> Vec<Call> {
        let xid = self.model.history.in_block().then(|| self.pool.xid(rng));
        (0..self.pool.oids).map(|n| self.call(rng, Draft::new(b'T').xid(xid).oids(&[spread(n)], 0))).collect()
    }

    /// A look in a block of each of these, their commits, and a look at what is common then.
    fn ends(&mut self, rng: &mut Rng, xids: [u32; 2]) -> Vec<Call> {
        let mut calls = vec![];
        for xid in xids {
            calls.push(self.stream_start(rng, xid));
            calls.extend(self.look(rng));
            calls.push(self.call(rng, Draft::new(b'E')));
        }
        calls.extend(xids.map(|xid| self.call(rng, stream_commit(xid))));
        let begin = begin(rng, NO_STREAM);
        calls.push(self.call(rng, begin));
        calls.extend(self.look(rng));
        calls
    }

    /// A list of fewer messages than these before and after, with blocks of these xids between, each made as if it came first. Of the room
    /// that is needed to hold what both keep there is a byte too little, enough or more.
    pub fn list(mut self, rng: &mut Rng, [before, after]: [u64; 2], xids: [u32; 2]) -> List {
        let length = rng.below(before);
        let before = self.messages(rng, length);
        let any = rng.one_in(20);
        let blocks = xids.map(|xid| self.clone().block(rng, xid, any));
        for call in blocks.iter().flatten() {
            self.model.give(&call.bytes, call.tag, self.room, call.out.len());
        }
        let Model { history, kept } = &self.model;
        let (held, open, live) = (kept.held, history.open().len(), history.live());
        let more = rng.below(200) as usize;
        self.room = rng.pick(&[held.saturating_sub(1), held, held + 1, held + more, held + more, held + 2_000]);
        let length = rng.below(after);
        let mut after = self.messages(rng, length);
        after.extend(self.ends(rng, xids));
        List { turns: Turns { before, blocks, after }, held, open, live, room: self.room }
    }
}
