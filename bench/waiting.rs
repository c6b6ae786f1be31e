//! After a 6: does it help to wait? A caller that gets a 6 may drop the refused symbol and offer the next ones, in the hope that one
//! of them makes the readings agree. This measures how often that works, and what the words are worth after it.
//!
//! A row is a noise and a window, at width 2 over a long line of random words. At each 6 a copy of the receiver is offered the next
//! 64 symbols, up to the first that is taken; the receiver itself is finished and opened again, as the header advises.

#[path = "fast.rs"]
#[allow(dead_code)]
mod fast;
#[path = "../tests/cross/reference.rs"]
#[allow(dead_code)]
mod reference;
#[path = "../tests/cross/rng.rs"]
#[allow(dead_code)]
mod rng;

use fast::{Keyed, Planes};

type Receiver = fast::Receiver<Keyed, Planes>;

const U: u32 = 2;
const SYMBOLS: usize = 400_000;
const TRIES: usize = 64;
const AFTER: usize = 16;

/// Random words, and the line that they make with noise.
fn sent(deviation: f64) -> (Vec<u32>, Vec<i32>) {
    let map = reference::Map::new();
    let (_, mut sender) = reference::Sender::open(reference::Line::round(U));
    let mut rng = rng::Rng::new(deviation as u64);
    let (mut words, mut line) = (Vec::new(), Vec::new());
    for _ in 0..SYMBOLS {
        let word = rng.next() as u32 & ((1 << (3 + 2 * U)) - 1);
        let mut points = [0; 4];
        sender.send(&map, word, &mut points);
        words.push(word);
        line.extend(points.map(|c| (128 * c + rng.noise(deviation)).clamp(-8192, 8192)));
    }
    (words, line)
}

/// Waiting at a 6 for symbol `at`: how many more symbols were lost before one was taken, and how many words were wrong then, of
/// the pending ones and those of that symbol and of AFTER more.
fn waited(mut r: Receiver, at: usize, words: &[u32], line: &[i32]) -> Option<(usize, usize)> {
    let symbol = |i: usize| &line[4 * i..4 * i + 4];
    let (mut said, mut out) = (Vec::new(), [0; 64]);
    let pending = r.pending;
    let lost = (0..TRIES).find(|n| {
        let a = r.hear(symbol(at + 1 + n), &mut out);
        said.extend_from_slice(&out[..a.written as usize]);
        a.number == 0
    })?;
    let next = at + 2 + lost;
    for i in next..next + AFTER {
        let a = r.hear(symbol(i), &mut out);
        said.extend_from_slice(&out[..a.written as usize]);
        if a.number != 0 {
            break;
        }
    }
    let a = r.finish(&mut out);
    said.extend_from_slice(&out[..a.written as usize]);
    let meant = words[at - pending..at].iter().chain(&words[next - 1..]);
    Some((lost, said.iter().zip(meant).filter(|(a, b)| a != b).count()))
}

fn row(deviation: f64, window: u32) {
    let (words, line) = sent(deviation);
    let (mut sixes, mut first, mut ever, mut wrong) = (0, 0, 0, 0);
    let (_, mut r) = Receiver::open(U, window, reference::FREE);
    let mut out = [0; 64];
    for at in 0..SYMBOLS - TRIES - AFTER - 2 {
        let c = &line[4 * at..4 * at + 4];
        if r.hear(c, &mut out).number != 6 {
            continue;
        }
        sixes += 1;
        if let Some((lost, bad)) = waited(r, at, &words, &line) {
            first += (lost == 0) as usize;
            ever += 1;
            wrong += bad;
        }
        r = Receiver::open(U, window, reference::FREE).1;
        r.hear(c, &mut out);
    }
    if sixes == 0 {
        println!("| {deviation:.0} | {window} | 0 | | | |");
        return;
    }
    let share = |n: usize| 100.0 * n as f64 / sixes as f64;
    println!(
        "| {deviation:.0} | {window} | {sixes} | {:.0} % | {:.0} % | {:.1} |",
        share(first),
        share(ever),
        wrong as f64 / f64::max(1.0, ever as f64)
    );
}

fn main() {
    println!("Width {U}, {SYMBOLS} symbols in each row; neighbouring points stand 256 apart.\n");
    println!("| noise | window | sixes | next symbol taken | one of the next {TRIES} taken | words wrong then |");
    println!("|---|---|---|---|---|---|");
    for deviation in [20.0, 40.0, 60.0, 75.0] {
        for window in [8, 16, 32, 64] {
            row(deviation, window);
        }
    }
}
