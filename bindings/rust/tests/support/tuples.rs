//! The tuples of a message.
use kitsoriqu::{Message, OldTuple, Tuple};

pub fn tuples(message: Message) -> Vec<Tuple> {
    match message {
        Message::Insert { new, .. } | Message::Update { old: None, new, .. } => vec![new],
        Message::Update { old: Some(OldTuple::Key(old) | OldTuple::Full(old)), new, .. } => vec![old, new],
        Message::Delete { old: OldTuple::Key(old) | OldTuple::Full(old), .. } => vec![old],
        _ => vec![],
    }
}
