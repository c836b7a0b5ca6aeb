use crate::feed::{Feed, Span};
use std::ops::Add;

/// A refusal's number and offset.
pub type Refused = (u32, u64);

/// How many messages are read ahead, to be written or stepped through.
pub const BATCH: usize = 128;

/// How many copies of a session are given a message, one after another.
pub const COPIES: usize = 32;

/// What a run adds up; all contenders must come to the same.
#[repr(C)]
#[derive(Clone, Copy, Debug, Default, PartialEq, Eq)]
pub struct Totals {
    /// Messages, or columns where those are stepped through, or binary values.
    pub accepted: u64,
    pub refused: u64,
    /// Of the tags that a session answers and the bytes that a keeper releases, the lengths that were written, or the lengths of values.
    pub sum: u64,
}

impl Add for Totals {
    type Output = Totals;

    fn add(self, more: Totals) -> Totals {
        Totals { accepted: self.accepted + more.accepted, refused: self.refused + more.refused, sum: self.sum + more.sum }
    }
}

/// One of those that are compared.
pub trait Contender<'a> {
    fn name(&self) -> &'static str;

    // one message, for the check

    /// Its flat form.
    fn flat(&self, version: u32, in_block: bool, bytes: &[u8]) -> Result<[u64; 16], Refused>;
    /// What it is written back to, in an output of so many bytes.
    fn written(&self, version: u32, in_block: bool, bytes: &[u8], room: usize) -> Result<Vec<u8>, Refused>;
    fn session_start(&mut self, version: u32);
    /// 1, tag, identity and column count for a change; zeros for another message.
    fn session_give(&mut self, bytes: &[u8], tag: u64) -> Result<[u64; 4], Refused>;
    /// Starts a session with a keeper of so much room.
    fn keeper_start(&mut self, version: u32, room: usize);
    /// The same numbers, and how many bytes are released to the start of the output.
    fn keeper_give(&mut self, bytes: &[u8], tag: u64, out: &mut [u8]) -> Result<[u64; 5], Refused>;
    /// Writes one of the accepted values that `fill_values` read to the front of the output: how many bytes it has.
    fn written_value(&self, index: usize, out: &mut [u8]) -> Result<u64, Refused>;

    // what is measured

    fn read(&self, feed: &Feed<'a>) -> Totals;
    fn session(&self, feed: &Feed<'a>) -> Totals;
    /// Reads a batch, to be written or stepped through (not measured).
    fn fill(&mut self, version: u32, in_block: &mut bool, messages: &[&'a [u8]], spans: &[Span]);
    fn write(&self, version: u32, out: &mut [u8]) -> Totals;
    fn steps(&self) -> Totals;
    /// Reads the binary values of the batch by the types of each message's columns, to be written (not measured): each one's flat form.
    fn fill_values(&mut self, types: &[&'static [u32]]) -> Vec<Result<[u64; 3], Refused>>;
    /// Reads them again.
    fn values(&self) -> Totals;
    fn write_values(&self, out: &mut [u8]) -> Totals;
    /// Copies the session that `session_give` was given to (not measured).
    fn copy_session(&mut self);
    fn give_copies(&mut self, message: &[u8]) -> Totals;
    /// By the session and keeper that `keeper_start` started.
    fn keeper(&mut self, feed: &Feed<'a>, out: &mut [u8]) -> Totals;
    /// Copies them (not measured).
    fn copy_keeper(&mut self);
    fn give_keeper_copy(&mut self, message: &[u8], out: &mut [u8]) -> Totals;
}

/// So many bytes, all written to, so that no page is missing when they are measured.
pub fn touched(length: usize) -> Vec<u8> {
    vec![0xA5; length]
}

/// Whether the next message stands in a block, after one whose flat form has this kind.
pub fn block_after(in_block: bool, kind: u64) -> bool {
    match kind {
        11 => true,
        12 => false,
        _ => in_block,
    }
}
