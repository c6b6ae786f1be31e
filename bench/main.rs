//! Measures hearing: the static library against receivers written for speed in Rust, on the same received line.
//!
//! A row is a width, a noise and a length of pieces. Every contender hears the whole line in such pieces into one long
//! output; after a 6 it finishes and opens again, as the header advises. The words of all must be equal. Each is timed
//! five times, in turn, by the processor time of the thread, and the best of the five counts.
//!
//! - `same`: the library's algorithm in plain Rust: the search of `columns.rs`, the subsets of the undecided symbols in up to
//!   three words a state, three bits a symbol, and a word put together when it is released.
//! - `fastest`: the same results by the quickest means known that still try every point: see `fast.rs`.
//!
//! On the square map both search as the library does, by rounding and clamping each axis. A far line has every point where
//! the search has the most steps: four look-ups, none of which answers, and sixteen columns.
//!
//! Then sending: words singly through C, and in lists of 1000, beside plain Rust of the same algorithm (`sender.rs`).

#[path = "columns.rs"]
mod columns;
#[path = "fast.rs"]
#[allow(dead_code)]
mod fast;
#[path = "../tests/cross/ffi.rs"]
#[allow(dead_code)]
mod ffi;
#[path = "../tests/cross/reference.rs"]
#[allow(dead_code)]
mod reference;
#[path = "../tests/cross/rng.rs"]
#[allow(dead_code)]
mod rng;

#[path = "sender.rs"]
mod sender;

use columns::Columns;
use fast::{Grid, Keyed, Memory, Planes, Registers, Search};
use reference::{Line, SQUARE};

const WINDOW: u32 = 64;
const LIST: usize = 1000;
const NOISE: [(&str, f64); 2] = [("low", 20.0), ("high", 75.0)];
/// Width, symbols, and the point.
const FAR: [(u32, usize, (i32, i32)); 2] = [(6, 8_000, (4736, 4736)), (8, 8_000, (4736, 4736))];
const PIECES: [usize; 3] = [1, 16, 1000];
/// Width, and symbols on the line: a run takes some ten milliseconds.
const WIDTHS: [(u32, usize); 3] = [(2, 40_000), (6, 20_000), (8, 8_000)];

/// Processor time of this thread in seconds: other programs on the machine do not count.
fn clock() -> f64 {
    #[repr(C)]
    struct Timespec {
        seconds: i64,
        nanoseconds: i64,
    }
    extern "C" {
        fn clock_gettime(clock: i32, time: *mut Timespec) -> i32;
    }
    const THREAD_CPUTIME: i32 = 3;
    let mut t = Timespec { seconds: 0, nanoseconds: 0 };
    let failed = unsafe { clock_gettime(THREAD_CPUTIME, &mut t) };
    assert_eq!(failed, 0, "no clock");
    t.seconds as f64 + t.nanoseconds as f64 * 1e-9
}

/// What a contender does: open, hear a piece (taken, written, number), finish (written).
trait Contender {
    fn open(&mut self, line: Line);
    fn hear(&mut self, piece: &[i32], out: &mut [u32]) -> (usize, usize, u32);
    fn finish(&mut self, out: &mut [u32]) -> usize;
}

struct Library {
    state: Vec<u64>,
    told: [u64; 3],
}

impl Contender for Library {
    fn open(&mut self, line: Line) {
        assert_eq!(ffi::receiver_open_map(&mut self.state, line.map, line.u, WINDOW, reference::FREE), 0);
    }

    fn hear(&mut self, piece: &[i32], out: &mut [u32]) -> (usize, usize, u32) {
        let number = ffi::hear(&mut self.state, piece, out, &mut self.told);
        (self.told[0] as usize, self.told[1] as usize, number)
    }

    fn finish(&mut self, out: &mut [u32]) -> usize {
        assert_eq!(ffi::finish(&mut self.state, out, &mut self.told), 0);
        self.told[1] as usize
    }
}

/// Its search is one of the line's map.
impl<S: Search, M: Memory> Contender for fast::Receiver<S, M> {
    fn open(&mut self, line: Line) {
        *self = fast::Receiver::open(line.u, WINDOW, reference::FREE).1;
    }

    fn hear(&mut self, piece: &[i32], out: &mut [u32]) -> (usize, usize, u32) {
        let a = fast::Receiver::hear(self, piece, out);
        (a.taken as usize, a.written as usize, a.number)
    }

    fn finish(&mut self, out: &mut [u32]) -> usize {
        fast::Receiver::finish(self, out).written as usize
    }
}

/// Hears the whole line. Gives how often the window was full.
fn hear_all<C: Contender>(c: &mut C, line: Line, heard: &[i32], piece: usize, out: &mut [u32]) -> usize {
    let (mut at, mut written, mut full) = (0, 0, 0);
    c.open(line);
    while at < heard.len() {
        let end = (at + 4 * piece).min(heard.len());
        let (taken, words, number) = c.hear(&heard[at..end], &mut out[written..]);
        at += 4 * taken;
        written += words;
        if number == 6 {
            full += 1;
            written += c.finish(&mut out[written..]);
            c.open(line);
        }
    }
    c.finish(&mut out[written..]);
    full
}

/// Nanoseconds a symbol of one run, and the words.
fn timed<C: Contender>(c: &mut C, line: Line, heard: &[i32], piece: usize, out: &mut [u32]) -> f64 {
    let start = clock();
    hear_all(c, line, heard, piece, out);
    (clock() - start) * 1e9 / (heard.len() / 4) as f64
}

/// Random words sent on this line, with noise.
fn received(line: Line, symbols: usize, deviation: f64) -> Vec<i32> {
    let map = reference::Map::new();
    let (_, mut sender) = reference::Sender::open(line);
    let mut rng = rng::Rng::new(line.u as u64 * 1000 + deviation as u64);
    let mut heard = Vec::with_capacity(4 * symbols);
    for _ in 0..symbols {
        let mut points = [0; 4];
        sender.send(&map, rng.next() as u32 & ((1 << (3 + 2 * line.u)) - 1), &mut points);
        heard.extend(points.map(|c| (128 * c + rng.noise(deviation)).clamp(-8192, 8192)));
    }
    heard
}

/// How many symbols are undecided on the average, and how often the window was full.
fn character(u: u32, line: &[i32]) -> (f64, usize) {
    let (_, mut r) = fast::Receiver::<Keyed, Planes>::open(u, WINDOW, reference::FREE);
    let (mut out, mut sum, mut full) = ([0; 64], 0, 0);
    for c in line.chunks(4) {
        if r.hear(c, &mut out).number == 6 {
            full += 1;
            r.open(Line::round(u));
            r.hear(c, &mut out);
        }
        sum += r.pending;
    }
    (sum as f64 / (line.len() / 4) as f64, full)
}

/// A row of the table: A searches for `same`, B for `fastest`.
fn row<A: Search, B: Search>(line: Line, noise: &str, heard: &[i32], piece: usize, rounds: usize) {
    let mut library = Library { state: vec![0; ffi::receiver_words()], told: [0; 3] };
    let mut same = fast::Receiver::<A, Registers>::closed();
    let mut fastest = fast::Receiver::<B, Planes>::closed();
    let mut out = vec![vec![0; heard.len() / 4]; 3];
    let mut best = [f64::MAX; 3];
    for _ in 0..rounds {
        best[0] = best[0].min(timed(&mut library, line, heard, piece, &mut out[0]));
        best[1] = best[1].min(timed(&mut same, line, heard, piece, &mut out[1]));
        best[2] = best[2].min(timed(&mut fastest, line, heard, piece, &mut out[2]));
    }
    assert!(out[0] == out[1] && out[1] == out[2], "the words differ: run tests/cross/run");
    let [ours, same, fastest] = best;
    let u = line.u;
    println!(
        "| {u} | {noise} | {piece} | {ours:.0} | {same:.0} | {:.2} | {fastest:.0} | {:.2} |",
        ours / same,
        ours / fastest
    );
}

fn main() {
    let rounds = std::env::args().nth(1).and_then(|n| n.parse().ok()).unwrap_or(5);
    let words = ffi::receiver_words();
    println!(
        "Nanoseconds a symbol, best of {rounds} runs in turn. A receiver has {words} words, {} bytes.\n",
        8 * words
    );
    for (u, symbols) in WIDTHS {
        for (noise, deviation) in NOISE {
            let heard = received(Line::round(u), symbols, deviation);
            let (pending, full) = character(u, &heard);
            println!("u {u}, {noise} noise (deviation {deviation} of 256 between points): {pending:.1} symbols undecided on the average, window full {full} times in {symbols}");
        }
    }
    let head = "| u | noise | piece | library | same | library / same | fastest | library / fastest |\n|---|---|---|---|---|---|---|---|";
    println!("\n{head}");
    for (u, symbols) in WIDTHS {
        for (noise, deviation) in NOISE {
            let heard = received(Line::round(u), symbols, deviation);
            for piece in PIECES {
                row::<Columns, Keyed>(Line::round(u), noise, &heard, piece, rounds);
            }
        }
    }
    for (u, symbols, (x, y)) in FAR {
        row::<Columns, Keyed>(Line::round(u), "far", &[x, y, x, y].repeat(symbols), LIST, rounds);
    }
    println!("\nThe square map:\n\n{head}");
    for (u, symbols) in WIDTHS {
        let line = Line { map: SQUARE, u };
        for (noise, deviation) in NOISE {
            let heard = received(line, symbols, deviation);
            for piece in PIECES {
                row::<Grid, Grid>(line, noise, &heard, piece, rounds);
            }
        }
    }
    sending(rounds);
}

/// Words singly and in lists, and the same in plain Rust: nanoseconds a word, the best of all rounds.
fn sending(rounds: usize) {
    println!("\nNanoseconds a word, sent singly and in lists of {LIST}, best of {} runs in turn.\n", 20 * rounds);
    println!("| u | singly | list | plain Rust, list | list / plain | singly / list |");
    println!("|---|---|---|---|---|---|");
    for u in [0, 2, 6, 8] {
        let mut rng = rng::Rng::new(u as u64);
        let words: Vec<u32> = (0..20 * LIST).map(|_| rng.next() as u32 & ((1 << (3 + 2 * u)) - 1)).collect();
        let (mut state, mut told) = (vec![0; ffi::sender_words()], [0; 3]);
        let mut out = vec![vec![0; 4 * words.len()]; 3];
        let mut best = [f64::MAX; 3];
        for _ in 0..20 * rounds {
            let mut time = |n: usize, f: &mut dyn FnMut(&mut [i32])| {
                let start = clock();
                f(&mut out[n]);
                best[n] = best[n].min((clock() - start) * 1e9 / words.len() as f64);
            };
            assert_eq!(ffi::sender_open(&mut state, u), 0);
            time(0, &mut |out| {
                for (&word, four) in words.iter().zip(out.chunks_mut(4)) {
                    assert_eq!(ffi::send(&mut state, word, four), 0);
                }
            });
            assert_eq!(ffi::sender_open(&mut state, u), 0);
            time(1, &mut |out| {
                for (list, fours) in words.chunks(LIST).zip(out.chunks_mut(4 * LIST)) {
                    assert_eq!(ffi::send_list(&mut state, list, fours, &mut told), 0);
                }
            });
            let mut plain = sender::Sender::open(u);
            time(2, &mut |out| {
                for (list, fours) in words.chunks(LIST).zip(out.chunks_mut(4 * LIST)) {
                    assert_eq!(plain.send_list(list, fours), (LIST, 0));
                }
            });
        }
        assert!(out[0] == out[1] && out[1] == out[2], "the points differ: run tests/cross/run");
        let [one, list, plain] = best;
        println!("| {u} | {one:.1} | {list:.1} | {plain:.1} | {:.2} | {:.2} |", list / plain, one / list);
    }
}
