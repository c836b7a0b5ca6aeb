//! The header's constants and the size and alignment of its record, as a C compiler sees them, are those of the Rust declarations.
use kitsoriqu::{kind, type_oid, Refusal, Section};
use std::fmt::Write;
use std::mem::{align_of, size_of};
use std::path::Path;

#[path = "support/cc.rs"]
mod cc;
#[path = "../src/ffi.rs"]
#[allow(dead_code)]
mod ffi;
use ffi::Record;

/// Names of the header with their values here.
fn constants() -> Vec<(&'static str, u64)> {
    vec![
        ("KQ_VERSION", Refusal::VERSION.into()),
        ("KQ_SHORT", Refusal::SHORT.into()),
        ("KQ_KIND", Refusal::KIND.into()),
        ("KQ_FIELD", Refusal::FIELD.into()),
        ("KQ_LEFT_OVER", Refusal::LEFT_OVER.into()),
        ("KQ_RANGE", Refusal::RANGE.into()),
        ("KQ_PLACE", Refusal::PLACE.into()),
        ("KQ_TRANSACTION", Refusal::TRANSACTION.into()),
        ("KQ_RELATION", Refusal::RELATION.into()),
        ("KQ_SHAPE", Refusal::SHAPE.into()),
        ("KQ_ANNOUNCEMENTS", Refusal::ANNOUNCEMENTS.into()),
        ("KQ_STREAMS", Refusal::STREAMS.into()),
        ("KQ_OUTPUT", Refusal::OUTPUT.into()),
        ("KQ_KEEPER", Refusal::KEEPER.into()),
        ("KQ_VALUE", Refusal::VALUE.into()),
        ("KQ_OVER", ffi::OVER.into()),
        ("KQ_BEGIN", kind::BEGIN),
        ("KQ_COMMIT", kind::COMMIT),
        ("KQ_ORIGIN", kind::ORIGIN),
        ("KQ_RELATION_MESSAGE", kind::RELATION),
        ("KQ_TYPE", kind::TYPE),
        ("KQ_INSERT", kind::INSERT),
        ("KQ_UPDATE", kind::UPDATE),
        ("KQ_DELETE", kind::DELETE),
        ("KQ_TRUNCATE", kind::TRUNCATE),
        ("KQ_MESSAGE", kind::MESSAGE),
        ("KQ_STREAM_START", kind::STREAM_START),
        ("KQ_STREAM_STOP", kind::STREAM_STOP),
        ("KQ_STREAM_COMMIT", kind::STREAM_COMMIT),
        ("KQ_STREAM_ABORT", kind::STREAM_ABORT),
        ("KQ_FLAT", ffi::FLAT as u64),
        ("KQ_STEP", ffi::STEP as u64),
        ("KQ_ANSWER", ffi::ANSWER as u64),
        ("KQ_REPLY", ffi::REPLY as u64),
        ("KQ_VALUE_FLAT", ffi::VALUE_FLAT as u64),
        ("KQ_NEW_TUPLE", Section::NewTuple as u64),
        ("KQ_OLD_TUPLE", Section::OldTuple as u64),
        ("KQ_COLUMNS", Section::Columns as u64),
        ("KQ_OIDS", Section::Oids as u64),
        ("KQ_BOOL", type_oid::BOOL.into()),
        ("KQ_INT8", type_oid::INT8.into()),
        ("KQ_INT2", type_oid::INT2.into()),
        ("KQ_INT4", type_oid::INT4.into()),
        ("KQ_FLOAT4", type_oid::FLOAT4.into()),
        ("KQ_FLOAT8", type_oid::FLOAT8.into()),
        ("KQ_TIMESTAMPTZ", type_oid::TIMESTAMPTZ.into()),
        ("KQ_SESSION_WORDS", ffi::SESSION_WORDS as u64),
        ("KQ_SESSION_SIZE", size_of::<Record>() as u64),
        ("sizeof(kq_session)", size_of::<Record>() as u64),
        ("_Alignof(kq_session)", align_of::<Record>() as u64),
    ]
}

#[test]
fn header_and_declarations_agree() {
    let mut program = String::from("#include <kitsoriqu.h>\n#include <stdio.h>\nint main(void) {\n");
    let mut expected = String::new();
    for (name, value) in constants() {
        writeln!(program, "    printf(\"{name} %llu\\n\", (unsigned long long)({name}));").unwrap();
        writeln!(expected, "{name} {value}").unwrap();
    }
    program += "    return 0;\n}\n";
    let source = Path::new(env!("CARGO_TARGET_TMPDIR")).join("header.c");
    std::fs::write(&source, program).unwrap();
    assert_eq!(cc::run(&source, "header"), expected);
}

/// The header names no constant that is not compared above.
#[test]
fn every_constant_is_compared() {
    let header = include_str!("../../../include/kitsoriqu.h");
    let words = header.split(|c: char| !c.is_ascii_alphanumeric() && c != '_');
    for word in words.filter(|word| word.starts_with("KQ_")) {
        assert!(constants().iter().any(|(name, _)| *name == word), "{word}");
    }
}
