//! The examples that the documents quote run and print what they say.
use std::fs;
use std::path::Path;
use std::process::Command;

#[path = "support/cc.rs"]
mod cc;

const HERE: &str = env!("CARGO_MANIFEST_DIR");

const PRINTED: &str = "\
message 0: accepted
message 1: accepted
message 2: accepted, of the announcement in message 1
  relation 5: 42, null
message 3: accepted
message 4: refusal 7 at 0
";

const KEPT: &str = "\
message 0: accepted, 0 bytes held, 0 released
message 1: accepted, 0 bytes held, 0 released
message 2: accepted, 33 bytes held, 0 released
message 3: accepted, 66 bytes held, 0 released
message 4: accepted, 99 bytes held, 0 released
message 5: accepted, 99 bytes held, 0 released
message 6: accepted, 66 bytes held, 0 released
message 7: accepted, 0 bytes held, 66 released
  xid 7: 42
  xid 7: 44
";

const VALUES: &str = "\
id: -42
kept: true
weight: 1.5
at: 762525296500000 microseconds since 2000-01-01
note: tall
by: refusal 4 at 54, letter n
written: 0, 2 bytes, FF FE
into 1 byte: refusal 13 at 0
";

#[test]
fn c_example() {
    assert_eq!(cc::run(&Path::new(HERE).join("../c/example.c"), "example"), PRINTED);
}

#[test]
fn c_keeper() {
    assert_eq!(cc::run(&Path::new(HERE).join("../c/keeper.c"), "keeper"), KEPT);
}

#[test]
fn c_values() {
    assert_eq!(cc::run(&Path::new(HERE).join("../c/values.c"), "values"), VALUES);
}

#[test]
fn rust_example() {
    let run = Command::new(env!("CARGO")).args(["run", "--quiet", "--offline", "--example", "feed"]).current_dir(HERE).output().unwrap();
    assert!(run.status.success(), "{}", String::from_utf8_lossy(&run.stderr));
    assert_eq!(String::from_utf8(run.stdout).unwrap(), PRINTED);
}

/// The first block of the repository's README after a mark.
fn quoted(readme: &str, mark: &str) -> String {
    let (_, rest) = readme.split_once(mark).expect(mark);
    let (block, _) = rest.split_once("\n```").expect("the block's end");
    block.to_owned()
}

#[test]
fn readme_quotes_the_examples() {
    let readme = fs::read_to_string(Path::new(HERE).join("../../README.md")).unwrap();
    for (mark, file) in [("```c\n", "../c/example.c"), ("```rust\n", "examples/feed.rs")] {
        let source = fs::read_to_string(Path::new(HERE).join(file)).unwrap();
        assert!(source.contains(&quoted(&readme, mark)), "{file}");
    }
}
