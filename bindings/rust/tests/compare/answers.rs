//! Answers as the numbers that the library fills in for them.
use crate::history::Announcement;
use crate::layouts::Refused;
use crate::lent::refused;
use kitsoriqu::{Answer, Refusal};

/// What the library fills in for an answer of the history's.
pub fn numbers_of(expected: Result<Option<Announcement>, Refused>) -> (u32, [u64; 4]) {
    match expected {
        Ok(None) => (0, [0; 4]),
        Ok(Some(seen)) => (0, [1, seen.tag, seen.identity, seen.columns]),
        Err((number, offset)) => (number, refused(offset)),
    }
}

pub fn typed_numbers(answer: Result<Answer, Refusal>) -> (u32, [u64; 4]) {
    match answer {
        Ok(Answer::Accepted) => (0, [0; 4]),
        Ok(Answer::Change { tag, identity, columns }) => (0, [1, tag, identity.letter().into(), columns.into()]),
        Err(refusal) => (refusal.number, refused(refusal.offset)),
    }
}
