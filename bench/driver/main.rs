//! Measures Kitsoriqu beside an idiomatic Rust decoder and a hand-written C decoder, on the messages of a trace.
//!
//! `driver check TRACE`: whether all three agree on every message. `driver time TRACE ROUNDS`: times, as text. `driver table TRACE FILE...`:
//! the table of such texts.

#[path = "../../bindings/rust/src/ffi.rs"]
#[allow(dead_code)]
mod ffi;
#[path = "../../bindings/rust/tests/support/trace.rs"]
mod trace;

mod c;
mod check;
mod contender;
mod feed;
mod imports;
mod measure;
mod messages;
mod ours;
mod placement;
mod rust;
mod spread;
mod stream;
mod tasks;
mod texts;
mod values;

use feed::{Feed, Feeds};
use measure::Contenders;

/// Over how many tables the feed's changes are spread; a session has room for 256.
const TABLES: [usize; 4] = [1, 16, 250, 256];

/// Of which of them the imports are made.
const IMPORTED: usize = 1;

/// How many records of one import and of another are held when the first commits.
const RELEASED: [usize; 3] = [250, 1_000, 4_000];

const USAGE: &str = "usage: driver check|time|table TRACE [ROUNDS|FILE...]";

fn check_and_tell<'a>(contenders: &mut Contenders<'a>, feeds: &Feeds<'a>) {
    let mut accepted = |feed: &Feed<'a>| {
        let accepted = check::agree(contenders, feed);
        println!("{}: {} messages, {} bytes, {accepted} accepted by a session", feed.name, feed.messages.len(), feed.bytes);
        accepted
    };
    accepted(&feeds.recorded);
    for feed in &feeds.spread {
        assert_eq!(accepted(feed), feed.messages.len(), "{}: all is accepted", feed.name);
    }
    for feed in &feeds.ends {
        accepted(feed);
    }
    for feed in [&feeds.imports, &feeds.open_imports, &feeds.binary].into_iter().chain(&feeds.releases).chain(&feeds.texts) {
        assert_eq!(accepted(feed), feed.messages.len(), "{}: all is accepted", feed.name);
    }
    println!("all agree on every message, and on two damaged copies of each");
    check_keepers(contenders, feeds);
    check_values(contenders, feeds);
}

/// With room for all, and with too little for the imports.
fn check_keepers<'a>(contenders: &mut Contenders<'a>, feeds: &Feeds<'a>) {
    let mut agree = |feed: &Feed<'a>, room: usize| {
        let [no_room, short] = check::agree_kept(contenders, feed, room);
        println!("{} with a keeper of {room} bytes: {no_room} changes have no room, {short} outputs are too short", feed.name);
        [no_room, short]
    };
    for feed in [&feeds.open_imports].into_iter().chain(&feeds.releases) {
        assert_eq!(agree(feed, feed.records())[0], 0);
    }
    assert!(agree(&feeds.imports, feeds.imports.records())[1] > 0);
    assert!(agree(&feeds.imports, 5_000)[0] > 0);
    println!("all agree on every reply, and on all that is released");
}

fn check_values<'a>(contenders: &mut Contenders<'a>, feeds: &Feeds<'a>) {
    let mut agree = |feed: &Feed<'a>| {
        let [accepted, refused] = check::agree_values(contenders, feed);
        println!("{}: {accepted} binary values are accepted, {refused} are refused", feed.name);
        refused
    };
    assert_eq!(agree(&feeds.binary), 0);
    for feed in &feeds.mistaken {
        assert!(agree(feed) > 0);
    }
    println!("all agree on every value");
}

fn main() {
    placement::stand();
    let words: Vec<String> = std::env::args().skip(1).collect();
    let [what, path, rest @ ..] = &words[..] else { panic!("{USAGE}") };
    let read = |path: &String| std::fs::read(path).unwrap_or_else(|error| panic!("{path}: {error}"));
    let bytes = read(path);
    let version = trace::version(path).expect("a trace is named NAME.vVERSION.trace");
    let messages = trace::messages(&bytes).unwrap_or_else(|offset| panic!("{path}: no record at {offset}"));
    let spread = TABLES.map(|tables| spread::spread(version, &messages, tables));
    let ends = stream::ends();
    let parts = imports::Parts::of(&spread[IMPORTED]);
    let imports = imports::imports(&parts);
    let open_imports = imports::open_imports(&parts, 2_000);
    let releases = RELEASED.map(|changes| imports::committed_import(&parts, changes));
    let texts = texts::texts();
    let binary = values::recorded();
    let changed = values::changed(&binary);
    let name = std::path::Path::new(path).file_name().unwrap().display().to_string();
    let feeds = Feeds {
        recorded: Feed::new(name, version, messages),
        spread: spread.iter().map(Feed::of).collect(),
        ends: ends.iter().map(Feed::of).collect(),
        imports: Feed::of(&imports),
        open_imports: Feed::of(&open_imports),
        releases: releases.iter().map(Feed::of).collect(),
        texts: texts.iter().map(Feed::of).collect(),
        mistaken: vec![values::with_types_of(&changed, &binary), values::by_other_types(&binary)],
        binary,
    };

    let mut contenders: Contenders = vec![Box::new(ours::Ours::new()), Box::new(rust::Rust::new()), Box::new(c::C::new())];
    match (&what[..], rest) {
        ("check", []) => check_and_tell(&mut contenders, &feeds),
        ("time", [rounds]) => {
            let rounds = rounds.parse().expect("ROUNDS is a number");
            print!("{}", measure::to_text(&measure::take_turns(&mut contenders, &feeds, rounds)));
        }
        ("table", files) => {
            let texts: Vec<_> = files.iter().map(|file| String::from_utf8(read(file)).expect("text")).collect();
            measure::print_table(&contenders, &feeds, &texts);
        }
        _ => panic!("{USAGE}"),
    }
}
