//! Times every contender at every task, in turns, and prints the least and the median time of each.
use crate::contender::Contender;
use crate::feed::Feeds;
use crate::tasks::{copying, tasks};
use std::time::Duration;

pub type Contenders<'a> = Vec<Box<dyn Contender<'a> + 'a>>;

/// The times of one task: of each contender, one for each round.
type Times = Vec<Vec<Duration>>;

/// Runs every task, in turns: its times, and last those of copying. The first to run in a round fetches the feed into the cache, so another
/// one is first in each.
pub fn take_turns<'a>(contenders: &mut Contenders<'a>, feeds: &Feeds<'a>, rounds: usize) -> Vec<Times> {
    let tasks = tasks(feeds);
    let mut times = vec![vec![vec![]; contenders.len()]; tasks.len()];
    let mut copies = vec![];
    for round in 0..rounds {
        for (task, times) in tasks.iter().zip(&mut times) {
            let mut first = None;
            for turn in 0..contenders.len() {
                let i = (round + turn) % contenders.len();
                let (time, totals) = (task.run)(&mut *contenders[i], task.feed);
                times[i].push(time);
                assert_eq!(*first.get_or_insert(totals), totals, "{}: {}", task.title, contenders[i].name());
            }
        }
        copies.push(copying(&feeds.recorded));
    }
    times.push(vec![copies]);
    times
}

/// Times as text: a line for each task and contender, in nanoseconds.
pub fn to_text(times: &[Times]) -> String {
    let line = |times: &Vec<Duration>| times.iter().map(|time| format!("{} ", time.as_nanos())).collect::<String>() + "\n";
    times.iter().flatten().map(line).collect()
}

/// The least and the median.
fn least_and_median(mut times: Vec<f64>) -> [f64; 2] {
    times.sort_by(f64::total_cmp);
    [times[0], times[times.len() / 2]]
}

/// So many messages of so many bytes took these times.
fn print_line(name: &str, messages: usize, bytes: usize, [least, median]: [f64; 2], ratio: &str) {
    let messages = messages as f64;
    let rate = bytes as f64 / least * 1e3;
    println!("  {name:<12}{:>9.1}{:>9.1}{rate:>9.0}{ratio}", least / messages, median / messages);
}

/// Prints the table of what `to_text` gave, once or more often.
pub fn print_table<'a>(contenders: &Contenders<'a>, feeds: &Feeds<'a>, texts: &[String]) {
    let rust = contenders.iter().position(|contender| contender.name() == "Rust").unwrap();
    let numbers = |line: &str| line.split_whitespace().map(|word| word.parse().expect("a number")).collect::<Vec<f64>>();
    let joined = |mut all: Vec<Vec<f64>>, more: Vec<Vec<f64>>| {
        all.iter_mut().zip(more).for_each(|(all, more)| all.extend(more));
        all
    };
    let times = texts.iter().map(|text| text.lines().map(numbers).collect()).reduce(joined).expect("a file of times");
    let mut results = times.into_iter().map(least_and_median);

    println!("                    ns/message            MB/s     ratio to Rust");
    println!("                 least   median                   least   median");
    for task in tasks(feeds) {
        println!("{}", task.title);
        let results: Vec<_> = results.by_ref().take(contenders.len()).collect();
        for (contender, result) in contenders.iter().zip(&results) {
            let [least, median] = [0, 1].map(|i| result[i] / results[rust][i]);
            print_line(contender.name(), task.messages, task.bytes, *result, &format!("{least:>9.2}{median:>9.2}"));
        }
    }
    println!("copying, the limit");
    print_line("memcpy", feeds.recorded.messages.len(), feeds.recorded.bytes, results.next().expect("the times of copying"), "");
}
