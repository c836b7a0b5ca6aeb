//! Columns with binary values made at random: good ones, and some that are wrong in each way there is.
use crate::rng::Rng;
use crate::typed::TYPES;

/// OIDs next to listed ones, and of other types: text, timestamp, uuid, numeric.
pub const UNLISTED: [u32; 16] = [0, 1, 15, 17, 19, 22, 24, 25, 699, 702, 1114, 1183, 1185, 1700, 2950, u32::MAX];

/// Numbers at the edges, and the patterns of special floats, for as many bytes.
fn special(rng: &mut Rng, width: usize) -> u64 {
    let sign = rng.below(2) << (8 * width - 1);
    let (infinity, fraction) = if width == 4 { (0x7F80_0000, 0x7F_FFFF) } else { (0x7FF0_0000_0000_0000, 0xF_FFFF_FFFF_FFFF) };
    let quiet = fraction / 2 + 1;
    let pattern = match rng.below(6) {
        0 => infinity,
        1 => infinity | quiet | rng.any() & fraction,
        2 => infinity | 1 + rng.below(quiet - 1),
        3 => 1 + rng.below(fraction),
        4 => rng.pick(&[0, 1, fraction, fraction + 1, infinity - 1, infinity + 1]),
        _ => rng.pick(&[u64::MAX, u64::MAX - 1, u64::MAX >> (65 - 8 * width), 0]),
    };
    pattern ^ sign
}

/// The bytes of a value of so many.
fn content(rng: &mut Rng, width: usize) -> Vec<u8> {
    match width {
        1 => vec![if rng.one_in(6) { rng.byte() } else { rng.below(2) as u8 }],
        2 | 4 | 8 if rng.one_in(3) => special(rng, width).to_be_bytes()[8 - width..].to_vec(),
        _ => (0..width).map(|_| rng.byte()).collect(),
    }
}

/// A column with a value of a type, or of none that is listed; mostly binary, of the right length.
fn column(rng: &mut Rng) -> (u32, Vec<u8>) {
    let (_, type_oid, width) = if rng.one_in(9) { ("", rng.pick(&UNLISTED), rng.below(40) as usize) } else { rng.pick(&TYPES) };
    let width = if rng.one_in(12) { rng.pick(&[0, 1, 2, 3, 4, 5, 7, 8, 9, 16]) } else { width };
    let any = rng.any() as u32;
    let letter = if rng.one_in(20) { rng.pick(&[b'n', b'u', b't', b'B', b'a', b'c', 0, any as u8]) } else { b'b' };
    let mut bytes = vec![letter];
    if letter != b'n' && letter != b'u' {
        let content = content(rng, width);
        let length = if rng.one_in(40) {
            rng.pick(&[width as u32 + 1, u32::MAX, 1 << 31, (1 << 31) - 1, any, width as u32 | 1 << 31])
        } else {
            width as u32
        };
        bytes.extend(length.to_be_bytes());
        bytes.extend(content);
    }
    (type_oid, bytes)
}

/// Columns one behind the other, at times cut off: each one's type and where it starts, and all bytes.
pub fn columns(rng: &mut Rng) -> (Vec<(u32, u64)>, Vec<u8>) {
    let mut bytes = vec![0xEE; rng.below(4) as usize];
    let mut starts = vec![];
    for _ in 0..1 + rng.below(6) {
        let (type_oid, column) = column(rng);
        starts.push((type_oid, bytes.len() as u64));
        bytes.extend(column);
    }
    if rng.one_in(8) {
        bytes.truncate(bytes.len() - 1 - rng.below(bytes.len().min(14) as u64) as usize);
    }
    (starts, bytes)
}

/// A position that no tuple leads to.
pub fn made_up(rng: &mut Rng, length: u64) -> [u64; 2] {
    let far = [length, length + 1, u64::MAX - 5, u64::MAX - 4, u64::MAX - 1, u64::MAX, 1 << 32, i64::MAX as u64];
    let offset = if rng.one_in(3) { rng.pick(&far) } else { rng.below(length + 1) };
    [offset, rng.pick(&[0, 1, 2, 1 << 16, u64::MAX])]
}
