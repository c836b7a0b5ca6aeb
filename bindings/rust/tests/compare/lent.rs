//! What is lent to a call stands between two marks, so that a touch next to it shows; numbers to be filled in are marked too.
use std::hint::black_box;

pub const MARK: u64 = 0xA5A5_5A5A_A5A5_5A5A;

#[derive(Clone)]
#[repr(C)]
pub struct Lent<T> {
    before: u64,
    pub value: T,
    behind: u64,
}

impl<T> Lent<T> {
    pub fn of(value: T) -> Lent<T> {
        Lent { before: MARK, value, behind: MARK }
    }

    /// What was lent, after the call.
    pub fn back(self) -> T {
        let Lent { before, value, behind } = black_box(self);
        assert_eq!((before, behind), (MARK, MARK), "touched next to what was lent");
        value
    }
}

impl<const N: usize> Lent<[u64; N]> {
    pub fn numbers() -> Self {
        Lent::of([MARK; N])
    }
}

/// Longer than what is moved at once.
const FENCE: [u8; 64] = [0xA5; 64];

/// Bytes that are lent to a call, between marks too.
pub struct LentBytes(Vec<u8>);

impl LentBytes {
    pub fn of(bytes: &[u8]) -> LentBytes {
        LentBytes([&FENCE, bytes, &FENCE].concat())
    }

    pub fn value(&mut self) -> &mut [u8] {
        let end = self.0.len() - FENCE.len();
        &mut self.0[FENCE.len()..end]
    }

    /// What was lent, after the call.
    pub fn back(mut self) -> Vec<u8> {
        let value = black_box(&mut self).value().to_vec();
        assert!(self.0.starts_with(&FENCE) && self.0.ends_with(&FENCE), "touched next to what was lent");
        value
    }
}

/// An offset and zeros: what a refusal fills in.
pub fn refused<const N: usize>(offset: u64) -> [u64; N] {
    let mut numbers = [0; N];
    numbers[0] = offset;
    numbers
}
