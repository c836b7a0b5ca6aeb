//! Feeds whose messages are mostly texts.
use crate::feed::Made;
use crate::messages::{begin, commit, logical, relation};

/// About how many bytes each has.
const BYTES: usize = 200_000;

/// How many bytes the prefixes of logical messages have.
const PREFIXES: [usize; 3] = [16, 200, 4_000];

/// Of 8 columns, with names as tables have them.
const SHELF: [&str; 10] =
    ["public", "shelf_stock", "pharmacy_id", "product", "batch_number", "quantity", "price", "expires_on", "counted_by", "changed_at"];

pub fn texts() -> Vec<Made> {
    PREFIXES.into_iter().map(prefixes).chain([relations()]).collect()
}

fn prefixes(length: usize) -> Made {
    let prefix: Vec<u8> = (b'a'..=b'z').cycle().take(length).collect();
    let message = |lsn| logical(lsn, &prefix, b"mark");
    let count = BYTES / message(0).len();
    Made { name: format!("prefixes of {length} bytes"), version: 2, messages: (0..count as u64).map(message).collect() }
}

/// Of one table, announced again and again in one transaction.
fn relations() -> Made {
    let [namespace, name, columns @ ..] = SHELF;
    let mut behind = [namespace, "\0", name, "\0d\0"].concat().into_bytes();
    behind.push(columns.len() as u8);
    for (i, column) in columns.into_iter().enumerate() {
        behind.extend([&[(i == 0).into()], column.as_bytes(), b"\0", &23u32.to_be_bytes(), &(-1i32).to_be_bytes()].concat());
    }
    let announced = relation(&[], 100_000, &behind);
    let count = BYTES / announced.len();
    let messages = [vec![begin()], vec![announced; count], vec![commit()]].concat();
    Made { name: format!("Relations of {} columns", columns.len()), version: 2, messages }
}
