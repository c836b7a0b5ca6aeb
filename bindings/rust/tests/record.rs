//! A session takes up the record that is declared for it: no byte less, and none before or behind it.
use kitsoriqu::Refusal;
use std::hint::black_box;
use std::mem::size_of;

#[path = "../src/ffi.rs"]
#[allow(dead_code)]
mod ffi;
use ffi::Record;

const SIZE: usize = size_of::<Record>();

/// A record in the middle of a buffer that is filled with one byte.
#[repr(C, align(8))]
struct Filled {
    bytes: [u8; 3 * SIZE],
    fill: u8,
}

impl Filled {
    fn with(fill: u8) -> Filled {
        Filled { bytes: [fill; 3 * SIZE], fill }
    }

    /// Lends the record to a call, and looks at the bytes around it.
    fn lend<T>(&mut self, call: impl FnOnce(&mut Record) -> T) -> T {
        // SAFETY: the record lies in the buffer at a multiple of 8, and every content is a value of it.
        let answer = call(unsafe { &mut *self.bytes.as_mut_ptr().add(SIZE).cast::<Record>() });
        let Filled { bytes, fill } = black_box(self);
        assert!(bytes[..SIZE].iter().all(|byte| byte == fill), "written before the record");
        assert!(bytes[2 * SIZE..].iter().all(|byte| byte == fill), "written behind the record");
        answer
    }

    fn give(&mut self, bytes: &[u8]) -> u32 {
        self.lend(|record| ffi::session_give(record, bytes, u64::MAX, &mut [0; ffi::ANSWER]))
    }

    fn record(&self) -> &[u8] {
        &self.bytes[SIZE..2 * SIZE]
    }
}

fn begin(xid: u32) -> Vec<u8> {
    [b"B".as_slice(), &[0xFF; 8], &[0; 8], &xid.to_be_bytes()].concat()
}

fn commit() -> Vec<u8> {
    [b"C\0".as_slice(), &[0xFF; 8], &[0; 16]].concat()
}

fn stream_start(xid: u32, first: bool) -> Vec<u8> {
    [b"S".as_slice(), &xid.to_be_bytes(), &[first.into()]].concat()
}

fn stream_commit(xid: u32) -> Vec<u8> {
    [b"c".as_slice(), &xid.to_be_bytes(), &[0; 25]].concat()
}

/// A Relation of 1,600 columns.
fn relation(xid: Option<u32>, oid: u32) -> Vec<u8> {
    let xid = xid.map_or(vec![], |xid| xid.to_be_bytes().to_vec());
    let columns = b"\0c\0\0\0\0\x17\xFF\xFF\xFF\xFF".repeat(1600);
    [b"R".as_slice(), &xid, &oid.to_be_bytes(), b"\0t\0f", &1600u16.to_be_bytes(), &columns].concat()
}

/// The record of a session that starts where there was one byte throughout.
fn started(fill: u8, start: impl FnOnce(&mut Record)) -> Vec<u8> {
    let mut session = Filled::with(fill);
    session.lend(start);
    session.record().to_vec()
}

/// A start writes each byte of the record, whatever was there: it has no padding.
#[test]
fn a_start_writes_the_whole_record() {
    let named = |fill| started(fill, |record| ffi::session_start(record, 2));
    assert!(named(0xAA) == named(0x55));

    let unnamed = |fill| started(fill, ffi::session_start_default);
    assert!(unnamed(0xAA) == unnamed(0x55));
}

/// A session with as many announcements and open streams as there is room for stays in its record, and so it does while they go.
#[test]
fn a_full_session_stays_in_its_record() {
    let mut session = Filled::with(0xAA);
    session.lend(|record| ffi::session_start(record, 2));
    let xids = (0..16).map(|n| u32::MAX - n);
    for (xid, n) in xids.clone().zip(0..) {
        assert_eq!(session.give(&stream_start(xid, true)), 0);
        for oid in (1..=16).map(|k| n * 16 + k) {
            assert_eq!(session.give(&relation(Some(xid), oid)), 0);
        }
        assert_eq!(session.give(b"E"), 0);
    }

    let full = session.record().to_vec();
    assert_eq!(session.give(&stream_start(1, true)), Refusal::STREAMS);
    assert!(session.record() == full);
    assert_eq!(session.give(&begin(1)), 0);
    let begun = session.record().to_vec();
    assert_eq!(session.give(&relation(None, 1)), Refusal::ANNOUNCEMENTS);
    assert!(session.record() == begun);
    assert_eq!(session.give(&commit()), 0);

    for xid in xids {
        assert_eq!(session.give(&stream_commit(xid)), 0);
    }
    assert_eq!(session.give(&begin(1)), 0);
    for oid in 1..=256 {
        assert_eq!(session.give(&relation(None, oid)), 0);
    }
    assert_eq!(session.give(&relation(None, 257)), Refusal::ANNOUNCEMENTS);
}
