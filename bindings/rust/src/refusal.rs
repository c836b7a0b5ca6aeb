use std::fmt;

/// Why something was refused: a number of the refusal table, and the offset in the message at which it arose.
#[derive(Clone, Copy, Debug, PartialEq, Eq, Hash)]
pub struct Refusal {
    pub number: u32,
    pub offset: u64,
}

impl Refusal {
    /// The version is not 1 or 2; or it is 1 inside a block.
    pub const VERSION: u32 = 1;
    /// A field, text or value goes past the message's end; in writing, past the source.
    pub const SHORT: u32 = 2;
    /// The first byte is no kind of this version.
    pub const KIND: u32 = 3;
    /// A field holds what its layout forbids; or a section was asked for that the message lacks.
    pub const FIELD: u32 = 4;
    /// Bytes are left after the last field.
    pub const LEFT_OVER: u32 = 5;
    /// A count is outside its range, or the message is too long (then at 0).
    pub const RANGE: u32 = 6;
    /// The kind can't stand here.
    pub const PLACE: u32 = 7;
    /// An xid or LSN doesn't fit what is open.
    pub const TRANSACTION: u32 = 8;
    /// A named relation has no visible announcement.
    pub const RELATION: u32 = 9;
    /// The shape differs from the announcement.
    pub const SHAPE: u32 = 10;
    /// There is no room for an announcement.
    pub const ANNOUNCEMENTS: u32 = 11;
    /// There is no room for a streamed transaction.
    pub const STREAMS: u32 = 12;
    /// The output is shorter than the message or value to be written, or than what a Stream Commit releases.
    pub const OUTPUT: u32 = 13;
    /// There is no room for a change in the keeper's buffer.
    pub const KEEPER: u32 = 14;
    /// A binary value has the wrong length for its type, or is a bool that is neither 0 nor 1.
    pub const VALUE: u32 = 17;

    /// The refusal in words.
    pub fn words(&self) -> &'static str {
        match self.number {
            Refusal::VERSION => "the version is not known here",
            Refusal::SHORT => "a field, text or value goes past the end",
            Refusal::KIND => "the first byte is no kind of this version",
            Refusal::FIELD => "a field holds what its layout forbids",
            Refusal::LEFT_OVER => "bytes are left after the last field",
            Refusal::RANGE => "a count or the message's length is out of range",
            Refusal::PLACE => "the kind can't stand here",
            Refusal::TRANSACTION => "an xid or LSN doesn't fit what is open",
            Refusal::RELATION => "a relation has no visible announcement",
            Refusal::SHAPE => "the shape differs from the announcement",
            Refusal::ANNOUNCEMENTS => "there is no room for an announcement",
            Refusal::STREAMS => "there is no room for a streamed transaction",
            Refusal::OUTPUT => "the output is too short",
            Refusal::KEEPER => "there is no room for a change in the keeper's buffer",
            Refusal::VALUE => "a binary value is none of its type",
            _ => "no such refusal",
        }
    }
}

impl fmt::Display for Refusal {
    fn fmt(&self, f: &mut fmt::Formatter<'_>) -> fmt::Result {
        write!(f, "{} (refusal {} at offset {})", self.words(), self.number, self.offset)
    }
}

impl std::error::Error for Refusal {}
