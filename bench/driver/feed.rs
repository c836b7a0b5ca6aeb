//! The messages that are measured.
use crate::imports::is_change;

/// A part of memory as C sees it.
#[repr(C)]
#[derive(Clone, Copy)]
pub struct Span {
    at: *const u8,
    length: usize,
}

impl Span {
    pub fn of(bytes: &[u8]) -> Span {
        Span { at: bytes.as_ptr(), length: bytes.len() }
    }
}

pub struct Feed<'a> {
    pub name: String,
    pub version: u32,
    pub messages: Vec<&'a [u8]>,
    /// The same for C.
    pub spans: Vec<Span>,
    pub bytes: usize,
    /// By which types the binary values of each message are read, where they are.
    pub types: Vec<&'static [u32]>,
}

impl<'a> Feed<'a> {
    pub fn new(name: String, version: u32, messages: Vec<&'a [u8]>) -> Feed<'a> {
        let spans = messages.iter().map(|message| Span::of(message)).collect();
        let bytes = messages.iter().map(|message| message.len()).sum();
        Feed { name, version, messages, spans, bytes, types: vec![] }
    }

    pub fn of(made: &'a Made) -> Feed<'a> {
        Feed::new(made.name.clone(), made.version, made.messages.iter().map(|message| &message[..]).collect())
    }

    pub fn with_types(self, types: Vec<&'static [u32]>) -> Feed<'a> {
        Feed { types, ..self }
    }

    /// How many bytes the records of all changes in blocks have, where there are no others.
    pub fn records(&self) -> usize {
        self.messages.iter().filter(|message| is_change(message)).map(|message| 14 + message.len()).sum()
    }
}

/// A feed that was made, not recorded.
pub struct Made {
    pub name: String,
    pub version: u32,
    pub messages: Vec<Vec<u8>>,
}

pub struct Feeds<'a> {
    pub recorded: Feed<'a>,
    /// The same with its changes spread over so many tables.
    pub spread: Vec<Feed<'a>>,
    /// Streamed transactions, each with its end.
    pub ends: Vec<Feed<'a>>,
    /// Two imports after two, which stream in turns and end.
    pub imports: Feed<'a>,
    /// Two imports that do not end.
    pub open_imports: Feed<'a>,
    /// Two imports of which one commits, shorter and longer ones.
    pub releases: Vec<Feed<'a>>,
    /// Logical messages with shorter and longer prefixes, and Relations.
    pub texts: Vec<Feed<'a>>,
    /// A recorded feed of binary values.
    pub binary: Feed<'a>,
    /// The same with bytes changed, and read by the types of other columns.
    pub mistaken: Vec<Feed<'a>>,
}
