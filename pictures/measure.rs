//! What the pictures show, measured: long lines through the library, written as plain tables. A row that stands there under
//! the same head is not measured again.

use crate::chance::{decibels, tail};
use crate::gather::{gathered, put, Progress, Table, Until};
use crate::line::{deviation, energy, points, Ear, Line, Setting, Tally, Watch, FREE};
use crate::uncoded::{self, Square, Uncoded};
use std::fmt::Write;

pub const WIDTHS: [u32; 4] = [0, 2, 5, 8];
pub const WINDOWS: [u32; 3] = [16, 32, 64];
/// Map and width of each constellation: round u 2, 5, 8; square b 4, 8, where u is b - 2.
pub const SHOWN: [(u32, u32); 5] = [(0, 2), (0, 5), (0, 8), (1, 2), (1, 6)];

/// How much is measured.
pub struct Effort {
    /// bursts of a point of the waterfall, at least; so there are as many wrong words and more
    bursts: u64,
    /// the word error rate at which a waterfall ends
    least: f64,
    /// words for delays; for those that are drawn
    words: u64,
    drawn_words: u64,
    /// short lines, for what stands at their ends
    lines: u64,
}

pub const WHOLE: Effort =
    Effort { bursts: 200, least: 1e-6, words: 10_000_000, drawn_words: 50_000_000, lines: 400_000 };
/// To see whether all works, in some seconds.
pub const QUICK: Effort = Effort { bursts: 10, least: 1e-4, words: 200_000, drawn_words: 500_000, lines: 5_000 };

/// Where the measurements of a width begin, in decibels: noise of some 80 line units, beyond what any line should have.
pub fn first(width: u32) -> f64 {
    match width {
        0 => 4.0,
        2 => 11.0,
        5 => 20.0,
        _ => 29.0,
    }
}

/// Where delays are measured: half decibels, from there to where hardly a word is wrong.
fn ratios(width: u32) -> Vec<f64> {
    (0..11).map(|n| first(width) + 0.5 * n as f64).collect()
}

/// The four noises of the picture of delays.
pub fn drawn(width: u32) -> [f64; 4] {
    [2.0, 3.0, 4.0, 5.0].map(|more| first(width) + more)
}

// ---- lines

/// Words of one line. It is not finished: its last words would be read with nothing after them, and be wrong more often than those
/// of a line that goes on.
const LONG: u64 = 250_000;
/// Words of a short line, which is finished; how many words at either end are looked at; how many such lines have one seed.
const SHORT: u64 = 48;
pub const ENDS: usize = 12;
const LINES: u64 = 5_000;
/// The work for a word that three receivers hear, one of them singly, beside that for one which a single receiver hears in blocks;
/// and for a word of a short line.
const DELAY_WORK: f64 = 2.6;
const SHORT_WORK: f64 = 1.2;

fn setting(width: u32, ratio: f64) -> Setting {
    Setting { map: 0, width, start: 0, deviation: deviation(energy(0, width), ratio), sparks: 0.0, missing: 0.0 }
}

/// A line heard by receivers with these windows.
fn long(setting: Setting, ears: &[(u32, Watch)], seed: u64) -> Vec<Tally> {
    let ears = ears.iter().map(|&(window, watch)| Ear::new(setting, window, watch)).collect();
    let mut line = Line::new(setting, ears, seed);
    line.run(LONG);
    line.ears.into_iter().map(|ear| ear.tally).collect()
}

/// Short lines, each joined with a free start and finished.
fn short(setting: Setting, seed: u64) -> Vec<Tally> {
    let mut sum = Tally::new();
    for n in 0..LINES {
        let mut ear = Ear::new(Setting { start: FREE, ..setting }, 64, Watch::Blocks);
        ear.tally.places = vec![0; SHORT as usize];
        let mut line = Line::new(setting, vec![ear], seed << 16 | n);
        line.run(SHORT);
        line.end();
        sum.add(&line.ears[0].tally);
    }
    vec![sum]
}

// ---- the waterfall

/// From one point to the next: half a decibel, where fewer than one word in 10^4 is wrong a quarter.
fn step(rate: f64) -> f64 {
    if rate > 1e-4 {
        0.5
    } else {
        0.25
    }
}

fn waterfall_head(e: &Effort) -> String {
    format!(
        "# Word error rate. Round map, window 64, start 0, random words, normal noise. A word is wrong if the one that is read is\n\
         # another than was sent; after a 6 the receiver finishes and is opened again with a free start, and nothing is asked of bits\n\
         # 1 and 2 of the next word. Lines of {LONG} words; those pending at a line's end are left out. Each row has {} bursts or\n\
         # more: wrong words with fewer than 16 right ones between them are one burst.\n\
         # decibels: average energy of a 2D point over the noise in both dimensions. rate: wrong over words. uncoded: the rate of\n\
         # two uncoded points with as many bits, by the formula of pictures/uncoded.rs.\n\
         # width decibels words wrong bursts sixes rate uncoded\n",
        e.bursts
    )
}

fn waterfall(e: &Effort, table: &mut Table, progress: &mut Progress) {
    for width in WIDTHS {
        let plain = Uncoded::new(width);
        let mut ratio = first(width);
        loop {
            if table.row(width, ratio).is_none() {
                let (expected, what) =
                    (guessed_words(e, width, ratio), format!("waterfall, width {width}, {ratio} dB"));
                let tell = |part, words| progress.tell(&what, expected, part, words as f64);
                let (s, seed) = (setting(width, ratio), 1000 * width as u64 + (4.0 * ratio) as u64);
                let one = |n| long(s, &[(64, Watch::Blocks)], seed << 32 | n);
                let Tally { words, wrong, bursts, sixes, .. } = gathered(one, Until::Bursts(e.bursts), tell)[0];
                let (rate, uncoded) = (wrong as f64 / words as f64, plain.wrong(ratio));
                table.add(format!("{width} {ratio} {words} {wrong} {bursts} {sixes} {rate:.3e} {uncoded:.3e}"));
                progress.end(expected, words as f64);
            }
            let rate = table.row(width, ratio).expect("measured")[6];
            if rate < e.least {
                break;
            }
            ratio += step(rate);
        }
    }
}

/// A guess of the bursts in a word, to say what remains and for nothing else: so many points at the least distance.
fn guessed(width: u32, decibels: f64) -> f64 {
    let points = if width == 0 { 2.0 } else { 16.0 };
    points * tail(256.0 / deviation(energy(0, width), decibels))
}

fn guessed_words(e: &Effort, width: u32, decibels: f64) -> f64 {
    (e.bursts as f64 / guessed(width, decibels)).max(LONG as f64)
}

/// The work for the points of a width that are not measured yet, as it is guessed.
fn guessed_work(e: &Effort, table: &Table, width: u32) -> Vec<f64> {
    let (mut work, mut ratio) = (Vec::new(), first(width));
    loop {
        let row = table.row(width, ratio);
        if row.is_none() {
            work.push(guessed_words(e, width, ratio));
        }
        let rate = row.map_or(3.0 * guessed(width, ratio), |row| row[6]);
        if rate < e.least {
            return work;
        }
        ratio += step(rate);
    }
}

// ---- how late a word is final, and what haste costs

fn delay_head(e: &Effort) -> String {
    format!(
        "# How late a word is final, and what haste costs. Round map, start 0, random words, normal noise; {} words a row, {}\n\
         # where the picture of delays has the row; lines of {LONG} words, those pending at a line's end left out. Receivers with\n\
         # windows 16, 32 and 64 hear the same line; after a 6 each goes on as for waterfall.txt.\n\
         # words, wrong: with window 64, those read and those that are not what was sent.\n\
         # denied: words of a reader with a lookback of 16 that the answer denies; hasty_wrong: its words that are not what was sent.\n\
         # sixes_w: how often window w was full; wrong_w: words that were wrong with it.\n\
         # not_k: words that were not final after k more symbols; a word that a 6 cut off counts up to there.\n\
         # window: the least k with which at most one word in a million was not final; 65 if that is more than 64.\n\
         # width decibels words wrong denied hasty_wrong sixes_16 sixes_32 sixes_64 wrong_16 wrong_32 window not_0 .. not_64\n",
        e.words, e.drawn_words
    )
}

fn delay_words(e: &Effort, width: u32, ratio: f64) -> u64 {
    if drawn(width).contains(&ratio) {
        e.drawn_words
    } else {
        e.words
    }
}

fn delays(e: &Effort, table: &mut Table, progress: &mut Progress) {
    for (width, ratio) in WIDTHS.into_iter().flat_map(|width| ratios(width).into_iter().map(move |r| (width, r))) {
        if table.row(width, ratio).is_some() {
            continue;
        }
        let (words, what) = (delay_words(e, width, ratio), format!("delays, width {width}, {ratio} dB"));
        let expected = DELAY_WORK * words as f64;
        let tell = |part, words| progress.tell(&what, expected, part, DELAY_WORK * words as f64);
        let (s, seed) = (setting(width, ratio), 20_000 + 1000 * width as u64 + (4.0 * ratio) as u64);
        let one = |n| long(s, &[(64, Watch::Symbols), (32, Watch::Blocks), (16, Watch::Blocks)], seed << 32 | n);
        let t = gathered(one, Until::Words(words), tell);
        table.add(delay_row(width, ratio, &t[0], &t[1], &t[2]));
        progress.end(expected, expected);
    }
}

fn delay_row(width: u32, ratio: f64, t: &Tally, middle: &Tally, narrow: &Tally) -> String {
    let mut left = t.words;
    let not = (0..65).map(|k| {
        left -= t.late[k] + t.cut[k];
        left
    });
    let not: Vec<u64> = not.collect();
    let window = not.iter().position(|n| n * 1_000_000 <= t.words).unwrap_or(65);
    let Tally { words, wrong, denied, hasty_wrong, sixes, .. } = t;
    let mut row =
        format!("{width} {ratio} {words} {wrong} {denied} {hasty_wrong} {} {} {sixes}", narrow.sixes, middle.sixes);
    write!(row, " {} {} {window}", narrow.wrong, middle.wrong).unwrap();
    not.iter().for_each(|n| write!(row, " {n}").unwrap());
    row
}

// ---- the ends of a line

fn ends_head(e: &Effort) -> String {
    format!(
        "# What is wrong at the ends of a line. Round map, window 64, random words, normal noise; {} lines of {SHORT} words, each\n\
         # joined with a free start and finished after its last word. first_k: how many k-th words were wrong, nothing asked of\n\
         # bits 1 and 2 of the first; last_k: how many k-th words from the end.\n\
         # width decibels lines first_1 .. first_{ENDS} last_{ENDS} .. last_1\n",
        e.lines
    )
}

fn ends(e: &Effort, table: &mut Table, progress: &mut Progress) {
    for (width, ratio) in WIDTHS.into_iter().flat_map(|width| drawn(width).map(|r| (width, r))) {
        if table.row(width, ratio).is_some() {
            continue;
        }
        let (words, what) = (SHORT * e.lines, format!("ends, width {width}, {ratio} dB"));
        let expected = SHORT_WORK * words as f64;
        let tell = |part, words| progress.tell(&what, expected, part, SHORT_WORK * words as f64);
        let (s, seed) = (setting(width, ratio), 40_000 + 1000 * width as u64 + (4.0 * ratio) as u64);
        let t = &gathered(|n| short(s, seed << 16 | n), Until::Words(words), tell)[0];
        let mut row = format!("{width} {ratio} {}", t.words / SHORT);
        let (front, back) = (&t.places[..ENDS], &t.places[SHORT as usize - ENDS..]);
        front.iter().chain(back).for_each(|n| write!(row, " {n}").unwrap());
        table.add(row);
        progress.end(expected, expected);
    }
}

// ---- all of it

/// Measures what is not measured yet.
pub fn measured(folder: &str, e: &Effort) {
    put(&format!("{folder}/constellations.txt"), &constellations());
    put(&format!("{folder}/energies.txt"), &energies());
    let mut falls = Table::open(folder, "waterfall.txt", waterfall_head(e));
    let mut late = Table::open(folder, "delay.txt", delay_head(e));
    let mut weak = Table::open(folder, "ends.txt", ends_head(e));
    let mut jobs = Vec::new();
    for width in WIDTHS {
        jobs.extend(guessed_work(e, &falls, width));
        let left = ratios(width).into_iter().filter(|&r| late.row(width, r).is_none());
        jobs.extend(left.map(|r| DELAY_WORK * delay_words(e, width, r) as f64));
        let left = drawn(width).into_iter().filter(|&r| weak.row(width, r).is_none());
        jobs.extend(left.map(|_| SHORT_WORK * (SHORT * e.lines) as f64));
    }
    let mut progress = Progress::begin(&jobs);
    waterfall(e, &mut falls, &mut progress);
    delays(e, &mut late, &mut progress);
    ends(e, &mut weak, &mut progress);
    eprintln!();
}

fn constellations() -> String {
    let mut out =
        String::from("# points as the library's sender gives them\n# map(0 round, 1 square) width label number x y\n");
    for (map, width) in SHOWN {
        for d in points(map, width) {
            writeln!(out, "{map} {width} {} {} {} {}", d.label, d.number, d.x, d.y).unwrap();
        }
    }
    out
}

/// The noise of a coordinate, in line units, at which the energies are set beside each other: about one word in 10^6 is wrong there.
pub const QUIET: f64 = 46.0;

fn energies() -> String {
    let mut out = format!(
        "# The average of x^2 + y^2 over the points, where neighbours stand 2 apart. coded: round map; square_map: the square map, 0\n\
         # where it has no such width; uncoded: the average of first and second, constellations of width + 1 and width + 2 bits;\n\
         # square: by the formula of a square with 2^(width + 1.5) points. gain: 4 times uncoded (square) over coded, in decibels, for\n\
         # the code has 4 times the least squared distance. decibels: the ratio of the round map where the noise of a coordinate has a\n\
         # deviation of {QUIET} line units.\n\
         # width bits_a_word coded square_map first second uncoded square gain_uncoded gain_square decibels\n",
    );
    for width in 0..9 {
        let (coded, plain, square) = (energy(0, width), Uncoded::new(width).energy, Square::new(width).energy());
        let other = if width % 2 == 0 { energy(1, width) } else { 0.0 };
        let [a, b] = [width + 1, width + 2].map(uncoded::energy);
        let [gain, over] = [plain, square].map(|e| decibels(4.0 * e / coded));
        let ratio = decibels(coded * 128.0 * 128.0 / (2.0 * QUIET * QUIET));
        write!(out, "{width} {} {coded:.3} {other} {a} {b} {plain} {square:.3}", 3 + 2 * width).unwrap();
        writeln!(out, " {gain:.2} {over:.2} {ratio:.1}").unwrap();
    }
    out
}
