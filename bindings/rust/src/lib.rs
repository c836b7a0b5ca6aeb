#![doc = include_str!("../README.md")]
#![deny(unsafe_code)]
#![warn(missing_debug_implementations)]

#[allow(unsafe_code)]
mod ffi;

mod fields;
mod keeper;
mod message;
mod refusal;
mod session;
mod steps;
mod timestamp;
mod value;

pub use fields::{kind, write, Fields, Span};
pub use keeper::{Keeper, Record, Records, Reply};
pub use message::{read, Decoded, Identity, Message, OldTuple};
pub use refusal::Refusal;
pub use session::{Answer, Session};
pub use steps::{Column, Columns, Oids, Position, RelationColumn, Section, Tuple};
pub use timestamp::{Calendar, TimestampTz};
pub use value::{type_oid, Value};
