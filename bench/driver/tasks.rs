//! What is timed.
use crate::contender::{touched, Contender, Totals, BATCH, COPIES};
use crate::feed::{Feed, Feeds};
use crate::stream::end_of;
use crate::values::binary_columns;
use std::hint::black_box;
use std::time::{Duration, Instant};

/// One contender's run on a feed: how long it took, and what it added up.
type Run<'a> = fn(&mut dyn Contender<'a>, &Feed<'a>) -> (Duration, Totals);

pub struct Task<'f, 'a> {
    pub title: String,
    pub feed: &'f Feed<'a>,
    pub run: Run<'a>,
    /// How many messages (or values, where the title says so) a run times, and their bytes.
    pub messages: usize,
    pub bytes: usize,
}

impl<'f, 'a> Task<'f, 'a> {
    /// Every message of the feed is timed.
    fn whole(title: &str, feed: &'f Feed<'a>, run: Run<'a>) -> Self {
        Task { title: title.into(), feed, run, messages: feed.messages.len(), bytes: feed.bytes }
    }

    fn tables(feed: &'f Feed<'a>) -> Self {
        Task::whole(&format!("reading and session, {}", feed.name), feed, session)
    }

    fn texts(feed: &'f Feed<'a>) -> Self {
        Task::whole(&format!("reading, {}", feed.name), feed, reading)
    }

    fn end(feed: &'f Feed<'a>) -> Self {
        let messages = POOLS * COPIES;
        let bytes = messages * feed.messages[end_of(&feed.messages)].len();
        Task { title: feed.name.clone(), feed, run: ending, messages, bytes }
    }

    /// Given to a session alone, and to one with a keeper.
    fn held(feed: &'f Feed<'a>) -> [Self; 2] {
        let [alone, kept] = ["session alone", "with a keeper"].map(|what| format!("{}, {what}", feed.name));
        [Task::whole(&alone, feed, session), Task::whole(&kept, feed, keeping)]
    }

    fn values(title: &str, feed: &'f Feed<'a>, run: Run<'a>) -> Self {
        let sizes: Vec<_> = feed.messages.iter().flat_map(|message| binary_columns(feed.version, message)).map(<[u8]>::len).collect();
        Task { title: format!("{title} (ns/value)"), feed, run, messages: sizes.len(), bytes: sizes.iter().sum() }
    }

    fn release(feed: &'f Feed<'a>) -> Self {
        Task { title: feed.name.clone(), feed, run: releasing, messages: RELEASES, bytes: RELEASES * feed.records() }
    }
}

pub fn tasks<'f, 'a>(feeds: &'f Feeds<'a>) -> Vec<Task<'f, 'a>> {
    let mut tasks = vec![Task::whole("reading", &feeds.recorded, reading), Task::whole("reading and session", &feeds.recorded, session)];
    tasks.extend(feeds.texts.iter().map(Task::texts));
    tasks.extend(feeds.spread.iter().map(Task::tables));
    tasks.extend(feeds.ends.iter().map(Task::end));
    tasks.extend(Task::held(&feeds.open_imports));
    tasks.extend(Task::held(&feeds.imports));
    tasks.extend(feeds.releases.iter().map(Task::release));
    tasks.push(Task::whole("writing back", &feeds.recorded, writing));
    tasks.push(Task::whole("stepping through all columns", &feeds.recorded, stepping));
    tasks.push(Task::values("reading binary values", &feeds.binary, reading_values));
    tasks.push(Task::values("writing binary values back", &feeds.binary, writing_values));
    tasks
}

fn timed<T>(run: impl FnOnce() -> T) -> (Duration, T) {
    let start = Instant::now();
    let result = run();
    (start.elapsed(), result)
}

fn reading<'a>(contender: &mut dyn Contender<'a>, feed: &Feed<'a>) -> (Duration, Totals) {
    timed(|| contender.read(feed))
}

fn session<'a>(contender: &mut dyn Contender<'a>, feed: &Feed<'a>) -> (Duration, Totals) {
    timed(|| contender.session(feed))
}

/// How often all copies of a session are made and given a message.
const POOLS: usize = 8;

/// The end of a streamed transaction alone, given to copies of the session that stands before it.
fn ending<'a>(contender: &mut dyn Contender<'a>, feed: &Feed<'a>) -> (Duration, Totals) {
    let end = end_of(&feed.messages);
    contender.session_start(feed.version);
    for (bytes, tag) in feed.messages[..end].iter().zip(0..) {
        contender.session_give(bytes, tag).expect("all is accepted before the end");
    }
    let pool = |_| {
        contender.copy_session();
        timed(|| contender.give_copies(feed.messages[end]))
    };
    let (time, totals) = all((0..POOLS).map(pool));
    assert_eq!(totals.refused, 0, "{}: the end is accepted", feed.name);
    (time, totals)
}

fn keeping<'a>(contender: &mut dyn Contender<'a>, feed: &Feed<'a>) -> (Duration, Totals) {
    let mut out = touched(feed.records());
    contender.keeper_start(feed.version, feed.records());
    timed(|| contender.keeper(feed, &mut out))
}

/// How often the session and keeper are copied and given a message.
const RELEASES: usize = 16;

/// A Stream Commit alone, given to copies of the session and keeper that stand before it.
fn releasing<'a>(contender: &mut dyn Contender<'a>, feed: &Feed<'a>) -> (Duration, Totals) {
    let end = end_of(&feed.messages);
    let mut out = touched(feed.records());
    contender.keeper_start(feed.version, feed.records());
    for (bytes, tag) in feed.messages[..end].iter().zip(0..) {
        contender.keeper_give(bytes, tag, &mut out).expect("all is accepted before the end");
    }
    let copy = |_| {
        contender.copy_keeper();
        timed(|| contender.give_keeper_copy(feed.messages[end], &mut out))
    };
    let (time, totals) = all((0..RELEASES).map(copy));
    assert_eq!(totals.refused, 0, "{}: the end is accepted", feed.name);
    (time, totals)
}

/// Several runs as one.
fn all(runs: impl Iterator<Item = (Duration, Totals)>) -> (Duration, Totals) {
    runs.fold(Default::default(), |(time, totals), (more_time, more)| (time + more_time, totals + more))
}

/// Messages are read a batch at a time, and only what is then done with the batch is timed.
fn batches<'a>(
    contender: &mut dyn Contender<'a>,
    feed: &Feed<'a>,
    mut run: impl FnMut(&mut dyn Contender<'a>) -> Totals,
) -> (Duration, Totals) {
    let mut in_block = false;
    let batch = |(messages, spans): (&[&'a [u8]], _)| {
        contender.fill(feed.version, &mut in_block, messages, spans);
        timed(|| run(contender))
    };
    all(feed.messages.chunks(BATCH).zip(feed.spans.chunks(BATCH)).map(batch))
}

/// The same of a feed with no blocks, and the batch's binary values are read too before.
fn value_batches<'a>(
    contender: &mut dyn Contender<'a>,
    feed: &Feed<'a>,
    mut run: impl FnMut(&mut dyn Contender<'a>) -> Totals,
) -> (Duration, Totals) {
    let batch = |((messages, spans), types): ((&[&'a [u8]], _), _)| {
        contender.fill(feed.version, &mut false, messages, spans);
        contender.fill_values(types);
        timed(|| run(contender))
    };
    all(feed.messages.chunks(BATCH).zip(feed.spans.chunks(BATCH)).zip(feed.types.chunks(BATCH)).map(batch))
}

/// Room for the messages of any batch.
fn output(feed: &Feed) -> Vec<u8> {
    let sizes = feed.messages.chunks(BATCH).map(|batch| batch.iter().map(|message| message.len()).sum());
    vec![0; sizes.max().unwrap_or(0)]
}

fn writing<'a>(contender: &mut dyn Contender<'a>, feed: &Feed<'a>) -> (Duration, Totals) {
    let mut out = output(feed);
    batches(contender, feed, |contender| contender.write(feed.version, &mut out))
}

fn stepping<'a>(contender: &mut dyn Contender<'a>, feed: &Feed<'a>) -> (Duration, Totals) {
    batches(contender, feed, |contender| contender.steps())
}

fn reading_values<'a>(contender: &mut dyn Contender<'a>, feed: &Feed<'a>) -> (Duration, Totals) {
    value_batches(contender, feed, |contender| contender.values())
}

fn writing_values<'a>(contender: &mut dyn Contender<'a>, feed: &Feed<'a>) -> (Duration, Totals) {
    let mut out = output(feed);
    value_batches(contender, feed, |contender| contender.write_values(&mut out))
}

/// The limit: each message copied by memcpy, a batch at a time.
pub fn copying(feed: &Feed) -> Duration {
    let mut out = output(feed);
    let mut time = Duration::ZERO;
    for messages in feed.messages.chunks(BATCH) {
        let (elapsed, ()) = timed(|| {
            let mut at = 0;
            for message in messages {
                out[at..at + message.len()].copy_from_slice(message);
                at += message.len();
            }
            black_box(&mut out);
        });
        time += elapsed;
    }
    time
}
