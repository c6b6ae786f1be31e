//! How things are measured: lines on all cores, rows in tables, and how much remains. What is measured is in measure.rs.

use crate::line::Tally;
use std::collections::BTreeMap;
use std::sync::atomic::{AtomicU64, Ordering};
use std::sync::Mutex;
use std::time::Instant;

// ---- tables

/// A table in a file: a head of lines that begin with `#`, which say how it was measured, and then rows of numbers. The first two,
/// width and decibels, name a row.
pub struct Table {
    path: String,
    head: String,
    rows: Vec<String>,
}

impl Table {
    /// The rows of the file count if its head is this one.
    pub fn open(folder: &str, name: &str, head: String) -> Table {
        let path = format!("{folder}/{name}");
        let text = std::fs::read_to_string(&path).unwrap_or_default();
        let rows = text.strip_prefix(&head).unwrap_or_default();
        Table { path, rows: rows.lines().map(String::from).collect(), head }
    }

    pub fn row(&self, width: u32, decibels: f64) -> Option<Vec<f64>> {
        self.rows.iter().map(|row| numbers(row)).find(|row| row[0] == width as f64 && row[1] == decibels)
    }

    /// The row takes its place, and the file is written at once.
    pub fn add(&mut self, row: String) {
        self.rows.push(row);
        self.rows.sort_by(|a, b| numbers(a)[..2].partial_cmp(&numbers(b)[..2]).expect("numbers"));
        put(&self.path, &format!("{}{}\n", self.head, self.rows.join("\n")));
    }
}

/// Writes a file that is whole at every time.
pub fn put(path: &str, text: &str) {
    let beside = format!("{path}.new");
    let done = std::fs::write(&beside, text).and_then(|()| std::fs::rename(&beside, path));
    done.unwrap_or_else(|why| failed(path, &why.to_string()));
}

pub fn failed(path: &str, why: &str) -> ! {
    eprintln!("pictures: {path}: {why}");
    std::process::exit(1)
}

fn numbers(row: &str) -> Vec<f64> {
    row.split_whitespace().map(|word| word.parse().expect("a number")).collect()
}

/// The rows of a table as numbers.
pub fn rows(table: &str) -> Vec<Vec<f64>> {
    table.lines().filter(|line| !line.starts_with('#')).map(numbers).collect()
}

// ---- lines on all cores

pub enum Until {
    Words(u64),
    Bursts(u64),
}

impl Until {
    /// Which part of it is reached, 1 or more if all is.
    fn part(&self, t: &Tally) -> f64 {
        match self {
            Until::Words(n) => t.words as f64 / *n as f64,
            Until::Bursts(n) => t.bursts as f64 / *n as f64,
        }
    }
}

/// The lines that ended ahead of their turn, how many were added up, and the sum for each receiver.
struct Running {
    ended: BTreeMap<u64, Vec<Tally>>,
    added: u64,
    sum: Vec<Tally>,
}

/// Runs lines on all cores, each by a number of its own, until it is enough for the first receiver; `report` is told the part and
/// the words. They are added up in the order of their numbers, so the sum does not depend on the number of cores.
pub fn gathered(one: impl Fn(u64) -> Vec<Tally> + Sync, until: Until, report: impl Fn(f64, u64) + Sync) -> Vec<Tally> {
    let cores = std::thread::available_parallelism().map_or(1, |n| n.get());
    let next = AtomicU64::new(0);
    let running = Mutex::new(Running { ended: BTreeMap::new(), added: 0, sum: Vec::new() });
    let work = || loop {
        let n = next.fetch_add(1, Ordering::Relaxed);
        let tallies = one(n);
        let mut r = running.lock().expect("no thread has failed");
        r.sum.resize_with(tallies.len(), Tally::new);
        r.ended.insert(n, tallies);
        while until.part(&r.sum[0]) < 1.0 {
            let at = r.added;
            let Some(tallies) = r.ended.remove(&at) else { break };
            r.added += 1;
            r.sum.iter_mut().zip(&tallies).for_each(|(sum, t)| sum.add(t));
        }
        let part = until.part(&r.sum[0]);
        report(part, r.sum[0].words);
        if part >= 1.0 {
            return;
        }
    };
    std::thread::scope(|scope| (0..cores).for_each(|_| drop(scope.spawn(work))));
    running.into_inner().expect("no thread has failed").sum
}

// ---- how far it is

/// What is to be done, in words that one receiver hears, and what is done; told on the error stream.
pub struct Progress {
    begun: Instant,
    heard: f64,
    left: f64,
    points: usize,
    of: usize,
}

impl Progress {
    pub fn begin(jobs: &[f64]) -> Progress {
        Progress { begun: Instant::now(), heard: 0.0, left: jobs.iter().sum(), points: 0, of: jobs.len() }
    }

    /// Of a point, for which so much work was expected, such a part is done and took so much.
    pub fn tell(&self, what: &str, expected: f64, part: f64, work: f64) {
        let part = part.min(1.0);
        let ahead = if part > 0.1 { work * (1.0 - part) / part } else { expected };
        let (heard, left) = (self.heard + work, (self.left - expected).max(0.0) + ahead);
        let Progress { points, of, .. } = self;
        eprint!("\r\x1b[K{what}: {:.0} %; {points} of some {of} points done", 100.0 * part);
        if heard > 0.0 {
            eprint!(", about {:.0} min remain", (self.begun.elapsed().as_secs_f64() / 60.0 * left / heard).ceil());
        }
    }

    pub fn end(&mut self, expected: f64, work: f64) {
        self.heard += work;
        self.left -= expected;
        self.points += 1;
    }
}
