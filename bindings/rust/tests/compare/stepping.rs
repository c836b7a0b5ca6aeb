use crate::ffi;
use crate::generate::{damage, message, setting};
use crate::layouts::{self, Reader, Refused};
use crate::lent::{refused, Lent};
use crate::rng::Rng;
use crate::tally::Tally;
use kitsoriqu::{Column, Position, Refusal, RelationColumn, Section};

const SECTIONS: [Section; 4] = [Section::NewTuple, Section::OldTuple, Section::Columns, Section::Oids];

/// The position at which a section starts: the message is read whole first.
fn start(version: u32, in_block: bool, bytes: &[u8], section: Section) -> Result<[u64; 2], Refused> {
    let [kind, _, b, c, d, e, _, _, h, i, ..] = layouts::read(version, in_block, bytes)?;
    let tuple = |start| Ok([start + 2, Reader { bytes, at: start }.any(2).unwrap()]);
    match (section, kind) {
        (Section::NewTuple, 6) => tuple(c),
        (Section::NewTuple, 7) => tuple(e),
        (Section::OldTuple, 7) if c != 0 => tuple(d),
        (Section::OldTuple, 8) => tuple(d),
        (Section::Columns, 4) => Ok([i, h]),
        (Section::Oids, 9) => Ok([d, b]),
        _ => Err((4, 0)),
    }
}

/// What a step gives: what stood there and the position behind it, nothing where none were left, or a refusal.
type Step = Result<Option<([u64; 5], [u64; 2])>, Refused>;

fn step(section: Section, bytes: &[u8], [at, left]: [u64; 2]) -> Step {
    if left == 0 {
        return Ok(None);
    }
    let mut reader = Reader { bytes, at };
    let item = match section {
        Section::NewTuple | Section::OldTuple => reader.column()?,
        Section::Columns => reader.relation_column()?,
        Section::Oids => reader.oid()?,
    };
    Ok(Some((item, [reader.at, left - 1])))
}

/// One step of the library's is that of the layouts. Gives where it stands then, or nothing where it is over or refused.
fn compare_step(section: Section, bytes: &[u8], position: [u64; 2], tally: &mut Tally) -> Option<[u64; 2]> {
    let expected = step(section, bytes, position);
    let mut at = Lent::of(position);
    let mut out = Lent::numbers();
    let number = ffi::column_step(section as u32, bytes, &mut at.value, &mut out.value);
    tally.note(number);
    let given = (number, out.back(), at.back());
    let next = match expected {
        Ok(Some((item, next))) => {
            assert_eq!(given, (0, item, next), "{section:?} at {position:?}: {bytes:02X?}");
            Some(next)
        }
        Ok(None) => {
            assert_eq!(given, (ffi::OVER, [0; 5], position));
            None
        }
        Err((number, offset)) => {
            assert_eq!(given, (number, refused(offset), position), "{section:?} at {position:?}: {bytes:02X?}");
            None
        }
    };
    compare_typed(section, bytes, position, expected);
    next
}

fn compare_typed(section: Section, bytes: &[u8], [offset, left]: [u64; 2], expected: Step) {
    let mut position = Position { offset, left };
    let given = match section {
        Section::NewTuple | Section::OldTuple => position.column(bytes).map(|column| column.map(|column| numbers_of(column, bytes))),
        Section::Columns => position.relation_column(bytes).map(|column| column.map(|column| relation_numbers_of(column, bytes))),
        Section::Oids => position.oid(bytes).map(|oid| oid.map(|oid| [oid.into(), 0, 0, 0, 0])),
    };
    match expected {
        Ok(Some((item, [offset, left]))) => assert_eq!((given, position), (Ok(Some(item)), Position { offset, left })),
        Ok(None) => assert_eq!((given, position), (Ok(None), Position { offset, left })),
        Err((number, at)) => assert_eq!((given, position), (Err(Refusal { number, offset: at }), Position { offset, left })),
    }
}

fn span(part: &[u8], bytes: &[u8]) -> [u64; 2] {
    [part.as_ptr() as u64 - bytes.as_ptr() as u64, part.len() as u64]
}

fn numbers_of(column: Column, bytes: &[u8]) -> [u64; 5] {
    let (letter, [start, length]) = match column {
        Column::Null => (b'n', [0, 0]),
        Column::Unchanged => (b'u', [0, 0]),
        Column::Text(value) => (b't', span(value, bytes)),
        Column::Binary(value) => (b'b', span(value, bytes)),
    };
    [letter.into(), start, length, 0, 0]
}

fn relation_numbers_of(column: RelationColumn, bytes: &[u8]) -> [u64; 5] {
    let [start, length] = span(column.name, bytes);
    [column.is_key.into(), start, length, column.type_oid.into(), u64::from(column.modifier as u32)]
}

/// Starting at each section; where there is one, every step to its end and one more.
fn compare_all(version: u32, in_block: bool, bytes: &[u8], tally: &mut Tally) {
    for section in SECTIONS {
        let mut position = Lent::numbers();
        let number = ffi::column_start(version, in_block, bytes, section as u32, &mut position.value);
        tally.note(number);
        let given = (number, position.back());
        let typed = Position::start(version, in_block, bytes, section);
        match start(version, in_block, bytes, section) {
            Ok(first) => {
                assert_eq!(given, (0, first), "{section:?} of {bytes:02X?}");
                assert_eq!(typed, Ok(Position { offset: first[0], left: first[1] }));
                let mut at = Some(first);
                while let Some(position) = at {
                    at = compare_step(section, bytes, position, tally);
                }
            }
            Err((number, offset)) => {
                assert_eq!(given, (number, [offset, 0]), "{section:?} of {bytes:02X?}");
                assert_eq!(typed, Err(Refusal { number, offset }));
            }
        }
    }
}

#[test]
fn through_messages() {
    let mut rng = Rng::new(11);
    let mut tally = Tally::new();
    for _ in 0..50_000 {
        let (version, in_block) = setting(&mut rng);
        let mut bytes = message(&mut rng, in_block);
        compare_all(version, in_block, &bytes, &mut tally);
        damage(&mut rng, &mut bytes);
        compare_all(version, in_block, &bytes, &mut tally);
    }
    tally.has_seen(&[0, 1, 2, 3, 4, 5, 6, ffi::OVER], 1000);
}

#[test]
fn from_made_up_positions() {
    let mut rng = Rng::new(12);
    let mut tally = Tally::new();
    for _ in 0..300_000 {
        let in_block = rng.one_in(2);
        let mut bytes = message(&mut rng, in_block);
        if rng.one_in(2) {
            damage(&mut rng, &mut bytes);
        }
        let length = bytes.len() as u64;
        let offset = if rng.one_in(20) {
            rng.pick(&[length, length + 1, u64::MAX - 5, u64::MAX - 4, u64::MAX - 1, u64::MAX, 1 << 32, i64::MAX as u64])
        } else {
            rng.below(length + 2)
        };
        let left = if rng.one_in(20) { rng.pick(&[0, u64::MAX, 1 << 16]) } else { 1 + rng.below(4) };
        let mut at = Some([offset, left]);
        // a step that is accepted leads to the next
        for section in [rng.pick(&SECTIONS); 3] {
            at = at.and_then(|position| compare_step(section, &bytes, position, &mut tally));
        }
    }
    tally.has_seen(&[0, 2, 4, ffi::OVER], 1000);
}

/// A number that is no section is refused before all else, by both functions.
#[test]
fn unknown_sections() {
    let bytes = b"I\0\0\0\x05N\0\x02nt\0\0\0\x01a";
    for section in [4, 5, 255, u32::MAX] {
        for length in [bytes.len(), 8] {
            let mut position = [9, 9];
            assert_eq!((ffi::column_start(1, false, &bytes[..length], section, &mut position), position), (4, [0, 0]));
        }
        for left in [0, 1] {
            let (mut position, mut out) = ([8, left], [9; 5]);
            assert_eq!((ffi::column_step(section, bytes, &mut position, &mut out), position, out), (4, [8, left], [0; 5]));
        }
    }
}
