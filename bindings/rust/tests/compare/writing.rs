use crate::ffi;
use crate::generate::{damage, message, setting};
use crate::layouts;
use crate::lent::{Lent, MARK};
use crate::rng::Rng;
use crate::tally::Tally;
use kitsoriqu::{write, Fields, Identity, OldTuple, Refusal, Span};

/// The library's answer, and the whole output, are those of the layouts. Gives the refusal's number or 0.
fn compare(version: u32, in_block: bool, flat: &[u64; 16], source: &[u8], room: usize) -> u32 {
    let before: Vec<u8> = (0..room).map(|i| i as u8 ^ 0x5A).collect();
    let mut out = before.clone();
    let source_before = source.to_vec();
    let mut result = Lent::of(MARK);
    let number = ffi::write(version, in_block, flat, source, &mut out, &mut result.value);
    let given = (number, result.back());
    assert!(source == source_before, "the source was touched");
    let shown = || format!("version {version}, in block {in_block}, room {room}, {flat:?} of {source:02X?}");
    match layouts::write(version, in_block, flat, source, room) {
        Ok(bytes) => {
            assert_eq!(given, (0, bytes.len() as u64), "{}", shown());
            assert!(out[..bytes.len()] == bytes, "{}", shown());
            assert!(out[bytes.len()..] == before[bytes.len()..], "the rest of the output was touched: {}", shown());
        }
        Err(refused) => {
            assert_eq!(given, refused, "{}", shown());
            assert!(out == before, "a refusal touched the output: {}", shown());
        }
    }
    let typed = write(version, in_block, &Fields(*flat), source, &mut out);
    assert_eq!(typed.map_err(|refusal| (refusal.number, refusal.offset)), if number == 0 { Ok(given.1 as usize) } else { Err(given) });
    number
}

/// A message that was read, described again by the functions of `Fields`.
fn described(flat: &[u64; 16]) -> Fields {
    let [kind, a, b, c, d, e, f, g, h, i, ..] = *flat;
    let id = |n: u64| u32::try_from(n).unwrap();
    let xid = (a != 0).then_some(a as u32);
    let span = |start: u64, length: u64| Span { start: start as usize, length: length as usize };
    let old =
        |letter: u64, start: u64| if letter == u64::from(b'K') { OldTuple::Key(start as usize) } else { OldTuple::Full(start as usize) };
    let identities = [Identity::Default, Identity::Nothing, Identity::Full, Identity::Index];
    match kind {
        1 => Fields::begin(a, b as i64, id(c)),
        2 => Fields::commit(b, c, d as i64),
        3 => Fields::origin(a, span(b, c)),
        4 => {
            let identity = identities.into_iter().find(|identity| u64::from(identity.letter()) == g).unwrap();
            Fields::relation(xid, id(b), span(c, d), span(e, f), identity, h as u16, i as usize)
        }
        5 => Fields::type_name(xid, id(b), span(c, d), span(e, f)),
        6 => Fields::insert(xid, id(b), c as usize),
        7 => Fields::update(xid, id(b), (c != 0).then(|| old(c, d)), e as usize),
        8 => Fields::delete(xid, id(b), old(c, d)),
        9 => Fields::truncate(xid, id(b), c as u8, d as usize),
        10 => Fields::logical(xid, b == 1, c, span(d, e), span(f, g)),
        11 => Fields::stream_start(id(a), b == 1),
        12 => Fields::stream_stop(),
        13 => Fields::stream_commit(id(a), c, d, e as i64),
        _ => Fields::stream_abort(id(a), id(b)),
    }
}

/// Numbers at the edges of fields and of the source.
fn odd_number(rng: &mut Rng, length: u64) -> u64 {
    match rng.below(4) {
        0 => rng.pick(&[0, 1, 2, 3, 4, 255, 256, 257, 1600, 1601, 65_535, 65_536]),
        1 => rng.pick(&[u64::MAX, u64::MAX - 1, 1 << 31, (1 << 32) - 1, 1 << 32, 1 << 63, MARK]),
        2 => rng.pick(&[length, length + 1, length.saturating_sub(1), u64::from(b'K'), u64::from(b'O'), u64::from(b'f')]),
        _ => rng.below(length + 2),
    }
}

/// What was read is written back, into too small, exact and larger outputs; then with odd numbers, sources and places.
#[test]
fn back_and_changed() {
    let mut rng = Rng::new(21);
    let mut tally = Tally::new();
    let mut messages = 0;
    while messages < 100_000 {
        let (version, in_block) = setting(&mut rng);
        let mut bytes = message(&mut rng, in_block);
        let Ok(mut flat) = layouts::read(version, in_block, &bytes) else { continue };
        messages += 1;
        assert_eq!(described(&flat), Fields(flat));
        let length = bytes.len();
        for room in [length - 1, length, length + 5] {
            tally.note(compare(version, in_block, &flat, &bytes, room));
        }
        for _ in 0..3 {
            match rng.below(8) {
                0 => damage(&mut rng, &mut bytes),
                1 => bytes.truncate(rng.below(length as u64 + 1) as usize),
                2 => flat[0] = rng.below(17),
                3 => flat[15] = odd_number(&mut rng, length as u64),
                _ => flat[1 + rng.below(10) as usize] = odd_number(&mut rng, length as u64),
            }
            let (other_version, other_place) = if rng.one_in(10) { setting(&mut rng) } else { (version, in_block) };
            let room = rng.pick(&[0, 20, length, 2 * length + 40]);
            tally.note(compare(other_version, other_place, &flat, &bytes, room));
        }
    }
    tally.has_seen(&[0, 1, 2, 3, 4, 6, 13], 100);
}

/// Texts and contents of every length up to ten times the longest block that is copied at once, with and without room behind them.
#[test]
fn parts_of_every_length() {
    let source: Vec<u8> = (0..400).map(|i| 1 + (i % 251) as u8).collect();
    for length in 0..=320 {
        for start in [0, 1, 13, 80] {
            let part = Span { start, length };
            let Fields(flat) = Fields::logical(None, true, 5, part, part);
            let whole = 1 + 1 + 8 + length + 1 + 4 + length;
            for room in [whole, whole + 1, whole + 40] {
                assert_eq!(compare(1, false, &flat, &source, room), 0);
            }
        }
    }
}

/// Sixteen numbers that mean nothing.
#[test]
fn made_up_numbers() {
    let mut rng = Rng::new(22);
    let mut tally = Tally::new();
    for _ in 0..100_000 {
        let (version, in_block) = setting(&mut rng);
        let source: Vec<u8> = (0..rng.below(40)).map(|_| rng.byte() & rng.byte() & rng.byte()).collect();
        let mut flat = [0; 16];
        flat[0] = rng.below(16);
        for number in &mut flat[1..] {
            if !rng.one_in(3) {
                *number = odd_number(&mut rng, source.len() as u64);
            } else if rng.one_in(2) {
                break;
            }
        }
        tally.note(compare(version, in_block, &flat, &source, 100));
    }
    tally.has_seen(&[0, 1, 2, 3, 4, 6], 100);
}

/// Lengths past the largest message, in a source of zero bytes of which few pages are touched.
#[test]
fn past_the_largest_message() {
    let largest = layouts::LARGEST;
    let mut source = vec![0; (1 << 31) + 100];
    let mut check = |head: &[u8], flat: &[u64]| {
        source[..head.len()].copy_from_slice(head);
        let mut fields = [0; 16];
        fields[..flat.len()].copy_from_slice(flat);
        let mut out = [7; 8];
        let given = write(1, false, &Fields(fields), &source, &mut out).map_err(|Refusal { number, offset }| (number, offset));
        assert_eq!(given, layouts::write(1, false, &fields, &source, 8).map(|bytes| bytes.len()), "{flat:?}");
        assert_eq!(out, [7; 8]);
    };
    // a Message's content, whose bytes lie behind 15 others
    let lengths = [largest - 16, largest - 15, largest - 14, 1 << 30, (1 << 31) - 1, 1 << 31, (1 << 31) + 100, (1 << 31) + 101, 1 << 32];
    for length in lengths {
        check(&[], &[10, 0, 0, 9, 0, 0, 0, length]);
        check(&[], &[10, 0, 0, 9, 0, 0, 1, length]);
    }
    // an Insert whose tuple has a long value, and behind it a null (or, in zero bytes, no column)
    for length in [largest - 14, largest - 13, largest - 12, largest - 11, (1 << 31) - 1] {
        for count in [1, 2] {
            let mut head = vec![0, count, b't'];
            head.extend((length as u32).to_be_bytes());
            check(&head, &[6, 0, 5, 0]);
        }
    }
}
