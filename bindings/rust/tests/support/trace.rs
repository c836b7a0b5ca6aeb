//! A trace: for each message the mark C3 4D, a length of 32 bits and the message.

/// The messages of a trace, or the offset of the first record that is damaged.
pub fn messages(mut trace: &[u8]) -> Result<Vec<&[u8]>, usize> {
    let all = trace.len();
    let mut messages = vec![];
    while !trace.is_empty() {
        let (message, rest) = record(trace).ok_or(all - trace.len())?;
        messages.push(message);
        trace = rest;
    }
    Ok(messages)
}

fn record(trace: &[u8]) -> Option<(&[u8], &[u8])> {
    let rest = trace.strip_prefix(b"\xC3\x4D")?;
    let (length, rest) = rest.split_first_chunk()?;
    rest.split_at_checked(u32::from_be_bytes(*length) as usize)
}

/// The protocol version in a trace's name: `NAME.v1.trace`, `NAME.v2peek.trace`.
pub fn version(name: &str) -> Option<u32> {
    let (_, behind) = name.rsplit_once(".v")?;
    behind.chars().next()?.to_digit(10)
}
