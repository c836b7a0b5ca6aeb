//! The contenders must agree: on what each message is, on each refusal, on what is written, on each answer of a session, and on binary
//! values.
use crate::contender::{block_after, Contender, Refused};
use crate::feed::Feed;
use crate::values::binary_columns;

/// How many messages a session accepts.
pub fn agree<'a>(contenders: &mut [Box<dyn Contender<'a> + 'a>], feed: &Feed<'a>) -> usize {
    let mut accepted = 0;
    let mut in_block = false;
    contenders.iter_mut().for_each(|contender| contender.session_start(feed.version));
    for (index, bytes) in feed.messages.iter().enumerate() {
        let answer = same(contenders, index, |contender| contender.session_give(bytes, index as u64));
        accepted += usize::from(answer.is_ok());
        let read = same(contenders, index, |contender| contender.flat(feed.version, in_block, bytes));
        let written = same(contenders, index, |contender| contender.written(feed.version, in_block, bytes, bytes.len()));
        let _ = same(contenders, index, |contender| contender.written(feed.version, in_block, bytes, bytes.len().saturating_sub(1)));
        if let Ok(flat) = read {
            assert_eq!(written.as_deref(), Ok(*bytes), "message {index} is written back to the same bytes");
            damaged(contenders, feed.version, in_block, index, bytes);
            in_block = block_after(in_block, flat[0]);
        }
    }
    accepted
}

/// How often a change has no room in a keeper of so much room, and how often an output of 1,000 bytes is too short; the message is then
/// given again with a longer one.
pub fn agree_kept<'a>(contenders: &mut [Box<dyn Contender<'a> + 'a>], feed: &Feed<'a>, room: usize) -> [usize; 2] {
    let [mut no_room, mut short] = [0; 2];
    contenders.iter_mut().for_each(|contender| contender.keeper_start(feed.version, room));
    for (index, bytes) in feed.messages.iter().enumerate() {
        let mut reply = same(contenders, index, |contender| kept(contender, index, bytes, 1_000));
        if reply == Err((13, 0)) {
            short += 1;
            reply = same(contenders, index, |contender| kept(contender, index, bytes, room));
        }
        no_room += usize::from(reply == Err((14, 0)));
        assert!(reply.is_ok() || no_room > 0, "message {index}: {reply:?}");
    }
    [no_room, short]
}

/// How many binary values are accepted, and how many are refused.
pub fn agree_values<'a>(contenders: &mut [Box<dyn Contender<'a> + 'a>], feed: &Feed<'a>) -> [usize; 2] {
    let mut refused = 0;
    let mut accepted = 0;
    for (index, (bytes, types)) in feed.messages.iter().zip(&feed.types).enumerate() {
        let values = same(contenders, index, |contender| {
            contender.fill(feed.version, &mut false, &[bytes], &feed.spans[index..=index]);
            contender.fill_values(&[types])
        });
        let good = values.iter().flatten().count();
        let written: Vec<_> = (0..good).map(|value| write_back(contenders, index, value, bytes.len())).collect();
        if good == values.len() && good > 0 {
            assert_eq!(written, binary_columns(feed.version, bytes), "message {index}: its values are written back to the same bytes");
        }
        accepted += good;
        refused += values.len() - good;
    }
    [accepted, refused]
}

/// What all write a value to; with less room they refuse it.
fn write_back<'a>(contenders: &mut [Box<dyn Contender<'a> + 'a>], index: usize, value: usize, room: usize) -> Vec<u8> {
    let written = |contender: &mut Box<dyn Contender<'a> + 'a>, room: usize| {
        let mut out = vec![0xA5; room];
        (contender.written_value(value, &mut out), out)
    };
    let (length, mut out) = same(contenders, index, |contender| written(contender, room));
    let length = length.expect("there is room") as usize;
    if length > 0 {
        assert_eq!(same(contenders, index, |contender| written(contender, length - 1)).0, Err((13, 0)));
    }
    out.truncate(length);
    out
}

/// The reply, and the whole output.
fn kept<'a>(contender: &mut Box<dyn Contender<'a> + 'a>, index: usize, bytes: &[u8], room: usize) -> Result<([u64; 5], Vec<u8>), Refused> {
    let mut out = vec![0xA5; room];
    contender.keeper_give(bytes, index as u64, &mut out).map(|reply| (reply, out))
}

/// A message cut short, and one with a byte changed.
fn damaged<'a>(contenders: &mut [Box<dyn Contender<'a> + 'a>], version: u32, in_block: bool, index: usize, bytes: &[u8]) {
    let cut = &bytes[..index % bytes.len()];
    let _ = same(contenders, index, |contender| contender.flat(version, in_block, cut));
    let mut changed = bytes.to_vec();
    changed[index * 31 % bytes.len()] ^= 1 << (index % 8);
    let _ = same(contenders, index, |contender| contender.flat(version, in_block, &changed));
}

/// What all contenders give.
fn same<'a, T: PartialEq + std::fmt::Debug>(
    contenders: &mut [Box<dyn Contender<'a> + 'a>],
    index: usize,
    mut give: impl FnMut(&mut Box<dyn Contender<'a> + 'a>) -> T,
) -> T {
    let first = give(&mut contenders[0]);
    for contender in &mut contenders[1..] {
        let other = give(contender);
        assert_eq!(other, first, "{} on message {index}", contender.name());
    }
    first
}
