//! Compares the static library with an independent reference of both ends.
//!
//! First the reference itself is held to the public vectors and, on short lists, to the scope's definition by listing every
//! allowed sequence. Then seeded sessions are run on the reference and on the library, and everything that a call gives or
//! leaves is compared. `cross lab` answers `lab`'s protocol from the reference.

mod cards;
mod exhaustive;
mod ffi;
mod generate;
mod lab;
mod lent;
mod machine;
mod recorded;
mod reference;
mod rng;
mod shrink;
mod turned;
mod vectors;
mod years;

use generate::{Failure, Session};
use reference::Map;
use std::io::{Read, Write};
use std::path::PathBuf;
use std::process::ExitCode;
use std::sync::atomic::{AtomicU64, Ordering};
use std::sync::Mutex;
use std::time::Instant;

struct Options {
    seed: u64,
    sessions: u64,
    threads: u64,
    years: u64,
    vectors: PathBuf,
    lab_in: PathBuf,
    lab_out: PathBuf,
}

const USAGE: &str =
    "cross lab | cross [--seed N] [--sessions N] [--threads N] [--years SYMBOLS] --vectors DIR --lab-in FILE --lab-out FILE";

fn options() -> Option<Options> {
    let mut o = Options {
        seed: 1,
        sessions: generate::ALL,
        threads: 2,
        years: 50_000_000,
        vectors: PathBuf::new(),
        lab_in: PathBuf::new(),
        lab_out: PathBuf::new(),
    };
    let mut words = std::env::args().skip(1);
    while let Some(word) = words.next() {
        let value = words.next()?;
        match word.as_str() {
            "--seed" => o.seed = value.parse().ok()?,
            "--sessions" => o.sessions = value.parse().ok()?,
            "--threads" => o.threads = value.parse().ok()?,
            "--years" => o.years = value.parse().ok()?,
            "--vectors" => o.vectors = value.into(),
            "--lab-in" => o.lab_in = value.into(),
            "--lab-out" => o.lab_out = value.into(),
            _ => return None,
        }
    }
    Some(o)
}

/// What the sessions saw: symbols taken, steps, how often each number was given; or the first failing session.
struct Seen {
    symbols: u64,
    steps: u64,
    numbers: [u64; 11],
    failed: Option<(u64, Failure)>,
}

fn run_sessions(map: &Map, o: &Options) -> Seen {
    let next = AtomicU64::new(0);
    let seen = Mutex::new(Seen { symbols: 0, steps: 0, numbers: [0; 11], failed: None });
    let work = || loop {
        let index = next.fetch_add(1, Ordering::Relaxed);
        if index >= o.sessions || seen.lock().unwrap().failed.is_some() {
            return;
        }
        let result = Session::run(map, o.seed, index);
        let mut seen = seen.lock().unwrap();
        match result {
            Ok(session) => {
                seen.symbols += session.machine.symbols;
                seen.steps += session.log.len() as u64;
                (0..11).for_each(|n| seen.numbers[n] += session.numbers[n]);
            }
            Err(failure) if seen.failed.as_ref().is_none_or(|(first, _)| index < *first) => {
                seen.failed = Some((index, failure));
            }
            Err(_) => {}
        }
    };
    std::thread::scope(|threads| (0..o.threads).for_each(|_| drop(threads.spawn(work))));
    seen.into_inner().unwrap()
}

/// Prints a failing session as lines for `lab`, the last being the one that differs.
fn report(map: &Map, o: &Options, index: u64, failure: Failure) {
    let (steps, what) = shrink::shrink(map, failure.log, failure.what);
    println!("# FAILED: seed {}, session {index}. These lines can be pasted into lab; the last one differs.", o.seed);
    steps.iter().for_each(|s| println!("{s}"));
    println!("# DIFFERS: {what}");
}

/// Numbers that must have been seen often for the run to count: all but 7, which is given no more.
fn enough(o: &Options, seen: &Seen) -> Result<(), String> {
    if o.sessions < generate::ALL {
        return Ok(());
    }
    if seen.numbers[7] > 0 {
        return Err("number 7 was given".into());
    }
    let rare = (0..11).find(|&n| n != 7 && seen.numbers[n] < 100);
    rare.map_or(Ok(()), |n| Err(format!("number {n} was seen only {} times", seen.numbers[n])))?;
    if seen.symbols < 1_000_000 {
        Err(format!("only {} symbols were taken", seen.symbols))
    } else {
        Ok(())
    }
}

fn compare(o: &Options) -> Result<(), String> {
    let (map, clock) = (Map::new(), Instant::now());
    let vectors = vectors::check(&o.vectors, &o.lab_in, &o.lab_out, &map)?;
    println!("reference and public vectors: no difference ({vectors})");
    let lists = exhaustive::check(&map, o.seed)?;
    println!("reference and the definition by every allowed sequence: no difference ({lists} lists)");
    if ffi::version() != ffi::VERSION {
        return Err(format!("version: expected {}, the library gave {}", ffi::VERSION, ffi::version()));
    }
    println!("library: a sender has {} words, a receiver {}", ffi::sender_words(), ffi::receiver_words());
    let bytes = recorded::check(&map, o.seed)?;
    println!("recorded calls: no difference ({bytes} bytes)");
    let line = Instant::now();
    let back = years::check(o.seed, o.years)?;
    println!("one line of {back} symbols: no call refused, every word back, {:.0} s", line.elapsed().as_secs_f64());
    let turned = turned::check(&map, o.seed)?;
    println!(
        "turned lines: no word differs ({} lines; {} more have several nearest sequences, and {} of these differ)",
        turned.compared, turned.several, turned.differing
    );
    let cards = cards::check(&map, o.seed)?;
    println!("cards: no difference ({} cards, {} accepted, {} of these damaged)", cards.checked, cards.accepted, cards.damaged);
    let seen = run_sessions(&map, o);
    if let Some((index, failure)) = seen.failed {
        report(&map, o, index, failure);
        return Err("the library differs from the reference".into());
    }
    let numbers: Vec<String> = (0..11).map(|n| format!("{n}: {}", seen.numbers[n])).collect();
    println!("numbers given: {}", numbers.join(", "));
    println!(
        "library and reference: no difference in {} symbols, {} steps, {} sessions, seed {}, {:.0} s",
        seen.symbols,
        seen.steps,
        o.sessions,
        o.seed,
        clock.elapsed().as_secs_f64()
    );
    enough(o, &seen)
}

fn answer_lab() {
    let mut input = vec![];
    std::io::stdin().read_to_end(&mut input).expect("standard input");
    std::io::stdout().write_all(lab::Lab::new().all(&input).as_bytes()).expect("standard output");
}

fn main() -> ExitCode {
    if std::env::args().nth(1).as_deref() == Some("lab") {
        answer_lab();
        return ExitCode::SUCCESS;
    }
    let Some(o) = options() else {
        eprintln!("usage: {USAGE}");
        return ExitCode::from(2);
    };
    match compare(&o) {
        Ok(()) => ExitCode::SUCCESS,
        Err(what) => {
            println!("cross: {what}");
            ExitCode::FAILURE
        }
    }
}
