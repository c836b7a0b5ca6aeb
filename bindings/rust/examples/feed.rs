//! Gives a small feed to a session and looks at what it inserts.
use kitsoriqu::{read, Answer, Column, Message, Session};

const FEED: [&[u8]; 5] = [
    b"B\0\0\0\0\0\0\0\x10\0\0\0\0\0\0\0\0\0\0\0\x07",
    b"R\0\0\0\x05public\0shelf\0d\0\x02\x01id\0\0\0\0\x17\xFF\xFF\xFF\xFF\0note\0\0\0\0\x19\xFF\xFF\xFF\xFF",
    b"I\0\0\0\x05N\0\x02t\0\0\0\x0242n",
    b"C\0\0\0\0\0\0\0\0\x10\0\0\0\0\0\0\0\x20\0\0\0\0\0\0\0\0",
    b"I\0\0\0\x05N\0\x02t\0\0\0\x0243n", // outside a transaction
];

fn main() {
    let mut session = Session::new(1);
    for (index, bytes) in FEED.into_iter().enumerate() {
        match session.give(bytes, index as u64) {
            Ok(Answer::Accepted) => println!("message {index}: accepted"),
            Ok(Answer::Change { tag, .. }) => {
                println!("message {index}: accepted, of the announcement in message {tag}");
                show(bytes);
            }
            Err(refusal) => println!("message {index}: refusal {} at {}", refusal.number, refusal.offset),
        }
    }
}

fn show(bytes: &[u8]) {
    if let Ok(Message::Insert { relation, new, .. }) = read(1, false, bytes) {
        let values: Vec<_> = new
            .map(|column| match column {
                Column::Text(value) => String::from_utf8_lossy(value).into_owned(),
                Column::Binary(value) => format!("{} bytes", value.len()),
                Column::Null => "null".into(),
                Column::Unchanged => "unchanged".into(),
            })
            .collect();
        println!("  relation {relation}: {}", values.join(", "));
    }
}
