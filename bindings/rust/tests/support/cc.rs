//! Compiles a C file against the header and the archives, runs it and gives what it prints.
use std::path::Path;
use std::process::Command;

const INCLUDE: &str = concat!(env!("CARGO_MANIFEST_DIR"), "/../../include");

pub fn run(source: &Path, name: &str) -> String {
    let program = Path::new(env!("CARGO_TARGET_TMPDIR")).join(name);
    let mut compiler = Command::new("cc");
    compiler.args(["-std=c11", "-Wall", "-Wextra", "-Werror", "-pedantic", "-I", INCLUDE, "-o"]);
    compiler.arg(&program).arg(source);
    compiler.args([env!("KITSORIQU_ARCHIVE"), env!("KITSORIQU_KEEPER_ARCHIVE"), env!("KITSORIQU_VALUES_ARCHIVE")]);
    assert!(compiler.status().expect("cc is there").success(), "{} compiles", source.display());
    let run = Command::new(&program).output().unwrap();
    assert!(run.status.success(), "{} runs", source.display());
    String::from_utf8(run.stdout).unwrap()
}
