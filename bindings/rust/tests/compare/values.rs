use crate::binary::{columns, made_up, UNLISTED};
use crate::cases::Cases;
use crate::ffi;
use crate::lent::{refused, Lent, LentBytes, MARK};
use crate::rng::Rng;
use crate::tally::{Counts, Tally};
use crate::typed::{self, TYPES};
use kitsoriqu::{Position, Refusal, Value};

/// The library's step, as numbers and as a typed value, is that of Rust's conversions. Gives what it returned and where it stands.
fn compare_step(bytes: &[u8], position: [u64; 2], type_oid: u32) -> (u32, [u64; 2]) {
    let expected = typed::step(bytes, position, type_oid);
    let mut lent = LentBytes::of(bytes);
    let mut at = Lent::of(position);
    let mut out = Lent::numbers();
    let number = ffi::value_step(lent.value(), &mut at.value, type_oid, &mut out.value);
    assert!(lent.back() == bytes, "the message was touched");
    let given = (number, out.back(), at.back());
    let answer = match expected {
        Ok(Some((value, _, next))) => (0, typed::numbers_of(value, bytes), next),
        Ok(None) => (ffi::OVER, [0; 3], position),
        Err((number, offset)) => (number, refused(offset), position),
    };
    assert_eq!(given, answer, "type {type_oid} at {position:?}: {bytes:02X?}");
    compare_typed(bytes, position, type_oid, answer);
    if let Ok(Some((value, part, _))) = expected {
        compare_written(value, part, bytes);
    }
    (number, answer.2)
}

fn compare_typed(bytes: &[u8], [offset, left]: [u64; 2], type_oid: u32, (number, numbers, next): (u32, [u64; 3], [u64; 2])) {
    let mut position = Position { offset, left };
    let given = position.value(bytes, type_oid).map(|value| value.map(|value| typed::numbers_of(value, bytes)));
    assert_eq!([position.offset, position.left], next);
    match number {
        0 => assert_eq!(given, Ok(Some(numbers))),
        ffi::OVER => assert_eq!(given, Ok(None)),
        number => assert_eq!(given, Err(Refusal { number, offset: numbers[0] })),
    }
}

/// A value that was read is written back to its bytes, into outputs that are too short, exact and longer.
fn compare_written(value: Value, part: &[u8], bytes: &[u8]) {
    let length = part.len();
    let flat = typed::numbers_of(value, bytes);
    assert_eq!(value.type_oid().map_or(0, u64::from), flat[0]);
    for room in [length.saturating_sub(1), length, length + 3] {
        compare_write(flat, bytes, room);
        let before = vec![0x5A; room];
        let mut out = before.clone();
        let given = value.write(&mut out);
        if room < length {
            assert_eq!((given, out), (Err(Refusal { number: Refusal::OUTPUT, offset: 0 }), before));
        } else {
            assert_eq!((given, &out[..length], &out[length..]), (Ok(length), part, &before[length..]));
        }
    }
}

/// The library's answer, and the whole output, are those of Rust's conversions. Gives the refusal's number or 0.
fn compare_write(flat: [u64; 3], source: &[u8], room: usize) -> u32 {
    let before: Vec<u8> = (0..room).map(|i| i as u8 ^ 0x5A).collect();
    let (mut lent, mut out, mut result) = (LentBytes::of(source), LentBytes::of(&before), Lent::of(MARK));
    let number = ffi::value_write(&flat, lent.value(), out.value(), &mut result.value);
    assert!(lent.back() == source, "the source was touched");
    let given = (number, result.back(), out.back());
    let expected = match typed::write(flat, source, room) {
        Ok(bytes) => (0, bytes.len() as u64, [&bytes, &before[bytes.len()..]].concat()),
        Err((number, offset)) => (number, offset, before),
    };
    assert_eq!(given, expected, "{flat:?} of {source:02X?}, room {room}");
    number
}

/// A million values and more, and what is refused between them: column after column, by their types and now and then by another.
#[test]
fn a_million_values() {
    let mut rng = Rng::new(71);
    let mut tally = Tally::new();
    let mut cases = Cases::none();
    let mut values = 0;
    while values < 1_000_000 {
        let (starts, bytes) = columns(&mut rng);
        let mut left = starts.len() as u64;
        let mut position = [starts[0].1, left];
        for (type_oid, start) in starts {
            let type_oid = if rng.one_in(30) { rng.pick(&TYPES).1 } else { type_oid };
            // past what was refused
            position = if position[0] == start { position } else { [start, left] };
            cases.note(&bytes, position, type_oid);
            let (number, next) = compare_step(&bytes, position, type_oid);
            tally.note(number);
            values += u64::from(number == 0);
            position = next;
            left -= 1;
        }
        tally.note(compare_step(&bytes, [position[0], 0], rng.pick(&UNLISTED)).0);
    }
    println!("{values} values");
    tally.has_seen(&[0, 2, 4, 17, ffi::OVER], 1000);
    cases.have_all_been(500);
}

#[test]
fn from_made_up_positions() {
    let mut rng = Rng::new(72);
    let mut tally = Tally::new();
    for _ in 0..300_000 {
        let (_, bytes) = columns(&mut rng);
        let position = made_up(&mut rng, bytes.len() as u64);
        let type_oid = if rng.one_in(3) { rng.pick(&UNLISTED) } else { rng.pick(&TYPES).1 };
        tally.note(compare_step(&bytes, position, type_oid).0);
    }
    tally.has_seen(&[0, 2, 4, 17, ffi::OVER], 1000);
}

/// Each letter, each length up to 20, each byte of a bool and each int2, for each type and for one that is not listed.
#[test]
fn all_of_few() {
    let mut tally = Tally::new();
    for type_oid in TYPES.map(|(_, oid, _)| oid).into_iter().chain([25]) {
        for letter in 0..=255 {
            tally.note(compare_step(&[letter, 0, 0, 0, 1, 1], [0, 1], type_oid).0);
            tally.note(compare_step(&[b'b', 0, 0, 0, 1, letter], [0, 1], type_oid).0);
        }
        for length in 0..=20 {
            let column = [b"b\0\0\0".as_slice(), &[length], &vec![0xFF; length.into()]].concat();
            for end in 0..=column.len() {
                tally.note(compare_step(&column[..end], [0, 1], type_oid).0);
            }
        }
    }
    for number in 0..=u16::MAX {
        let [high, low] = number.to_be_bytes();
        tally.note(compare_step(&[b'b', 0, 0, 0, 2, high, low], [0, 1], 21).0);
    }
    tally.has_seen(&[0, 2, 4, 17], 100);
}

/// A first number about as large as a type's values may be, or a part's start.
fn first_number(rng: &mut Rng, length: u64) -> u64 {
    match rng.below(4) {
        0 => rng.below(4),
        1 => rng.pick(&[0xFFFF, 0x1_0000, 0xFFFF_FFFF, 1 << 32, u64::MAX, 1 << 63, 255, 256]),
        2 => rng.any() >> rng.below(64),
        _ => rng.below(length + 2),
    }
}

/// An OID that is listed or 0, or another; at times with bits above an OID's.
fn oid(rng: &mut Rng) -> u64 {
    let oid = match rng.below(10) {
        0 => rng.pick(&UNLISTED),
        1..=3 => 0,
        _ => rng.pick(&TYPES).1,
    };
    let above = if rng.one_in(30) { 1 << (32 + rng.below(32)) } else { 0 };
    above | u64::from(oid)
}

const ROWS: [&str; 8] = [
    "written",
    "written of the source",
    "no listed OID",
    "OID with bits above",
    "number too big",
    "second number",
    "past the source and the output",
    "no flat form, past the output",
];

fn note_row(cases: &mut Counts, [oid, first, second]: [u64; 3], number: u32, source: &[u8], room: usize) {
    let listed = TYPES.iter().find(|row| u64::from(row.1) == oid);
    let is_too_big = |width: usize| oid == 16 && first > 1 || width < 8 && first >> (8 * width) != 0;
    cases.note("written", number == 0 && oid != 0);
    cases.note("written of the source", number == 0 && oid == 0 && second != 0);
    cases.note("no listed OID", number == 4 && oid != 0 && oid <= u32::MAX.into() && listed.is_none());
    cases.note("OID with bits above", number == 4 && oid > u32::MAX.into());
    cases.note("number too big", number == 4 && second == 0 && listed.is_some_and(|row| is_too_big(row.2)));
    cases.note("second number", number == 4 && second != 0 && listed.is_some_and(|row| !is_too_big(row.2)));
    cases.note("past the source and the output", number == 2 && second > source.len() as u64 && second > room as u64);
    cases.note("no flat form, past the output", number == 4 && listed.is_some_and(|row| row.2 > room));
}

/// Three numbers, flat forms and not, of sources and into outputs of any length.
#[test]
fn made_up_rows() {
    let mut rng = Rng::new(73);
    let mut tally = Tally::new();
    let mut cases = Counts::of(ROWS);
    for _ in 0..1_000_000 {
        let source: Vec<u8> = (0..rng.below(40)).map(|_| rng.byte()).collect();
        let length = source.len() as u64;
        let oid = oid(&mut rng);
        let second = if oid != 0 && !rng.one_in(8) { 0 } else { first_number(&mut rng, length) };
        let row = [oid, first_number(&mut rng, length), second];
        let room = rng.below(20) as usize;
        let number = compare_write(row, &source, room);
        tally.note(number);
        note_row(&mut cases, row, number, &source, room);
    }
    tally.has_seen(&[0, 2, 4, 13], 1000);
    cases.have_all_been(1000);
}

/// Raw values of every length up to some times what is copied at once, with and without room behind them.
#[test]
fn raw_values_of_every_length() {
    let source: Vec<u8> = (0..400).map(|i| (i % 251) as u8).collect();
    for length in 0..=320 {
        for start in [0, 1, 13, 80] {
            for room in [length, length + 1, length + 40] {
                assert_eq!(compare_write([0, start, length], &source, room as usize), 0);
            }
        }
    }
}
