//! A line between the library's two ends: random words, their points, what the wire does to them, and what receivers with
//! different windows make of it.
//!
//! It leans on the library's C functions alone (tests/cross/ffi.rs). Noise is in line units, where a point's coordinate c
//! stands at 128·c and neighbouring points 256 apart.

use crate::chance::{ratio, Rng};
use crate::ffi;
use std::collections::VecDeque;

/// The start that names no state.
pub const FREE: u32 = 16;
/// The greatest coordinate that is heard.
const REACH: i32 = 8192;
/// How many symbols the hasty reader waits.
pub const LOOKBACK: usize = 16;
/// Wrong words with fewer right ones than this between them are one burst.
pub const APART: u64 = 16;
/// Words sent at a time.
const BLOCK: u64 = 1000;

// ---- what is sent

/// A point of a map at a width, as the sender gives it.
pub struct Dot {
    pub label: u32,
    pub number: u32,
    pub x: i32,
    pub y: i32,
}

/// All points of a map at a width: for each label and number a fresh sender is asked. The turn of its first word is the first
/// point's label, and the word's next bits are that point's number.
pub fn points(map: u32, width: u32) -> Vec<Dot> {
    let mut state = vec![0; ffi::sender_words()];
    let mut all = Vec::new();
    for label in 0..4 {
        for number in 0..1 << width {
            let mut out = [0; 4];
            assert_eq!(ffi::sender_open_map(&mut state, map, width), 0);
            assert_eq!(ffi::send(&mut state, label << 1 | number << 3, &mut out), 0);
            all.push(Dot { label, number, x: out[0], y: out[1] });
        }
    }
    all
}

/// The average of x² + y² over all points of a map at a width. Random words make all of them equally likely, first or second.
pub fn energy(map: u32, width: u32) -> f64 {
    let dots = points(map, width);
    let sum: i32 = dots.iter().map(|d| d.x * d.x + d.y * d.y).sum();
    sum as f64 / dots.len() as f64
}

/// The deviation of a coordinate's noise, in line units, at a signal-to-noise ratio in decibels: the average energy of a 2D
/// point over the noise in both dimensions.
pub fn deviation(energy: f64, decibels: f64) -> f64 {
    128.0 * (energy / (2.0 * ratio(decibels))).sqrt()
}

#[derive(Clone, Copy)]
pub struct Setting {
    pub map: u32,
    pub width: u32,
    /// what a receiver knows of the sender's state when the line begins
    pub start: u32,
    /// of a coordinate's noise, in line units
    pub deviation: f64,
    /// the share of points that a spark throws to a corner of what can be heard
    pub sparks: f64,
    /// the share of points that are missing
    pub missing: f64,
}

// ---- who listens

/// What came of a line at one receiver.
#[derive(Clone)]
pub struct Tally {
    pub words: u64,
    pub wrong: u64,
    /// the first and the last wrong word, counted from 1
    pub between: Option<(u64, u64)>,
    /// see APART
    pub bursts: u64,
    /// how many first words of lines were wrong, second ones, and so on: as many as there are places here
    pub places: Vec<u64>,
    /// words of which a spark struck a point or a point is missing, and how many of these are wrong
    pub struck: u64,
    pub struck_wrong: u64,
    /// how often the window was full
    pub sixes: u64,
    /// how many words were final after so many more symbols; and how many were read by the finish after a 6, which were not
    /// final after one less
    pub late: [u64; 66],
    pub cut: [u64; 66],
    /// how many were read by the line's last finish
    pub rest: u64,
    /// words of the hasty reader that the answer denies, and those that are not what was sent
    pub denied: u64,
    pub hasty_wrong: u64,
}

impl Tally {
    pub fn new() -> Tally {
        Tally {
            words: 0,
            wrong: 0,
            between: None,
            bursts: 0,
            places: Vec::new(),
            struck: 0,
            struck_wrong: 0,
            sixes: 0,
            late: [0; 66],
            cut: [0; 66],
            rest: 0,
            denied: 0,
            hasty_wrong: 0,
        }
    }

    /// Adds another line's counts; between which words it was wrong is left out.
    pub fn add(&mut self, other: &Tally) {
        self.words += other.words;
        self.wrong += other.wrong;
        self.bursts += other.bursts;
        self.places.resize(self.places.len().max(other.places.len()), 0);
        self.places.iter_mut().zip(&other.places).for_each(|(a, b)| *a += b);
        self.struck += other.struck;
        self.struck_wrong += other.struck_wrong;
        self.sixes += other.sixes;
        self.late.iter_mut().zip(&other.late).for_each(|(a, b)| *a += b);
        self.cut.iter_mut().zip(&other.cut).for_each(|(a, b)| *a += b);
        self.rest += other.rest;
        self.denied += other.denied;
        self.hasty_wrong += other.hasty_wrong;
    }
}

/// A word that was sent: whether its symbol came unharmed, and what the hasty reader took the symbol for, if that was not
/// final by then: the word but for its turn, and the turn.
#[derive(Clone, Copy)]
struct Sent {
    word: u32,
    struck: bool,
    taken_for: Option<(u32, u32)>,
}

/// By what a word was read: a hearing, the finish after a 6, the line's last finish.
#[derive(Clone, Copy)]
enum By {
    Hearing,
    Cut,
    Rest,
}

/// Bits 1 and 2 of a word: by how many quarters it turns.
const TURN: u32 = 6;

fn turn_of(word: u32) -> u32 {
    (word & TURN) >> 1
}

/// How a receiver is listened to: in whole blocks, which is quicker, or symbol by symbol, which shows how late each word is
/// final. Then the hasty reader reads along: it takes each symbol for what the best reading has LOOKBACK symbols later, and
/// says the word from that symbol's turn and that of the symbol that it took before.
#[derive(Clone, Copy, PartialEq)]
pub enum Watch {
    Blocks,
    Symbols,
}

/// A receiver on the line, and the words that it has not read yet.
pub struct Ear {
    setting: Setting,
    window: u32,
    watch: Watch,
    state: Vec<u64>,
    copy: Vec<u64>,
    out: Vec<u32>,
    waiting: VecDeque<Sent>,
    /// The next word is the first of a free start: its bits 1 and 2 say nothing, and nothing is asked of them.
    first: bool,
    /// the turn of the last symbol read, and of the last that the hasty reader took
    turn: u32,
    hasty_turn: u32,
    pub tally: Tally,
}

impl Ear {
    pub fn new(setting: Setting, window: u32, watch: Watch) -> Ear {
        let mut ear = Ear {
            setting,
            window,
            watch,
            state: vec![0; ffi::receiver_words()],
            copy: vec![0; ffi::receiver_words()],
            out: vec![0; BLOCK as usize + 64],
            waiting: VecDeque::new(),
            first: false,
            turn: 0,
            hasty_turn: 0,
            tally: Tally::new(),
        };
        ear.open(setting.start);
        ear
    }

    fn open(&mut self, start: u32) {
        let number = ffi::receiver_open_map(&mut self.state, self.setting.map, self.setting.width, self.window, start);
        assert_eq!(number, 0, "no such map, width, window or start");
        self.first = start == FREE;
        (self.turn, self.hasty_turn) = (0, 0);
    }

    fn block(&mut self, sent: &[Sent], piece: &[i32], marks: &[u8]) {
        let step = if self.watch == Watch::Symbols { 1 } else { sent.len() };
        for ((sent, piece), marks) in sent.chunks(step).zip(piece.chunks(4 * step)).zip(marks.chunks(step)) {
            self.waiting.extend(sent);
            self.piece(piece, marks);
            if self.watch == Watch::Symbols && self.waiting.len() > LOOKBACK {
                self.guess();
            }
        }
    }

    /// Hears a piece. After a 6, as the header advises: finish, open again, go on with the symbol that was refused.
    fn piece(&mut self, piece: &[i32], marks: &[u8]) {
        let mut done = 0;
        loop {
            let (piece, marks) = (&piece[4 * done..], &marks[done..]);
            let mut told = [0; 3];
            let number = if self.setting.missing > 0.0 {
                ffi::hear_marked(&mut self.state, piece, marks, &mut self.out, &mut told)
            } else {
                ffi::hear(&mut self.state, piece, &mut self.out, &mut told)
            };
            done += told[0] as usize;
            self.read_all(told[1] as usize, By::Hearing);
            if number == 0 {
                return;
            }
            assert_eq!(number, 6, "the line gives no cause for another refusal");
            self.tally.sixes += 1;
            self.finish(By::Cut);
            self.open(FREE);
        }
    }

    fn finish(&mut self, by: By) {
        let mut told = [0; 3];
        assert_eq!(ffi::finish(&mut self.state, &mut self.out, &mut told), 0);
        self.read_all(told[1] as usize, by);
    }

    /// The hasty reader's symbol where it is not final: a finish of a copy of the state gives the best reading so far.
    fn guess(&mut self) {
        let (mut out, mut told) = ([0; 64], [0; 3]);
        self.copy.copy_from_slice(&self.state);
        assert_eq!(ffi::finish(&mut self.copy, &mut out, &mut told), 0);
        let place = self.waiting.len() - 1 - LOOKBACK;
        let turn = out[..=place].iter().fold(self.turn, |turn, &word| turn + turn_of(word)) % 4;
        self.waiting[place].taken_for = Some((out[place] & !TURN, turn));
    }

    fn read_all(&mut self, words: usize, by: By) {
        for i in 0..words {
            let after = self.waiting.len() - 1;
            let sent = self.waiting.pop_front().expect("a word for each symbol");
            match by {
                By::Rest => self.tally.rest += 1,
                // with whole blocks nobody sees at which symbol it was
                _ if self.watch == Watch::Blocks => {}
                By::Hearing => self.tally.late[after] += 1,
                By::Cut => self.tally.cut[after + 1] += 1,
            }
            self.read(self.out[i], sent);
            self.first = false;
        }
    }

    /// Sets a word beside what was sent and what the hasty reader says.
    fn read(&mut self, word: u32, sent: Sent) {
        let differ = |a: u32, b: u32| (a ^ b) & if self.first { !TURN } else { !0 } != 0;
        let t = &mut self.tally;
        t.words += 1;
        t.struck += sent.struck as u64;
        if differ(word, sent.word) {
            t.wrong += 1;
            t.struck_wrong += sent.struck as u64;
            let (from, to) = t.between.unwrap_or((t.words, 0));
            t.bursts += (to == 0 || t.words - to > APART) as u64;
            t.between = Some((from, t.words));
            t.places.get_mut(t.words as usize - 1).into_iter().for_each(|n| *n += 1);
        }
        self.turn = (self.turn + turn_of(word)) % 4;
        let (rest, turn) = sent.taken_for.unwrap_or((word & !TURN, self.turn));
        let hasty = rest | (turn + 4 - self.hasty_turn) % 4 << 1;
        self.hasty_turn = turn;
        t.denied += (hasty != word) as u64;
        t.hasty_wrong += differ(hasty, sent.word) as u64;
    }
}

// ---- the line

/// A sender, the wire, and the receivers that hear it.
pub struct Line {
    setting: Setting,
    rng: Rng,
    sender: Vec<u64>,
    turns: u32,
    pub ears: Vec<Ear>,
}

impl Line {
    pub fn new(setting: Setting, ears: Vec<Ear>, seed: u64) -> Line {
        let mut sender = vec![0; ffi::sender_words()];
        assert_eq!(ffi::sender_open_map(&mut sender, setting.map, setting.width), 0, "no such map or width");
        Line { setting, rng: Rng::new(seed), sender, turns: 0, ears }
    }

    /// From now on every point arrives turned by so many quarter turns more, clockwise.
    pub fn turn(&mut self, quarters: u32) {
        self.turns = (self.turns + quarters) % 4;
    }

    /// Sends so many random words; what is undecided after the last stays so.
    pub fn run(&mut self, words: u64) {
        let mut left = words;
        while left > 0 {
            let n = left.min(BLOCK);
            self.block(n as usize);
            left -= n;
        }
    }

    /// The line ends: every receiver finishes.
    pub fn end(&mut self) {
        self.ears.iter_mut().for_each(|ear| ear.finish(By::Rest));
    }

    fn block(&mut self, n: usize) {
        let bits = 3 + 2 * self.setting.width;
        let words: Vec<u32> = (0..n).map(|_| (self.rng.next() >> (64 - bits)) as u32).collect();
        let (mut points, mut told) = (vec![0; 4 * n], [0; 3]);
        assert_eq!(ffi::send_list(&mut self.sender, &words, &mut points, &mut told), 0);
        let (mut sent, mut piece, mut marks) =
            (Vec::with_capacity(n), Vec::with_capacity(4 * n), Vec::with_capacity(n));
        for (word, symbol) in words.into_iter().zip(points.chunks(4)) {
            let (heard, mark, struck) = self.heard(symbol);
            sent.push(Sent { word, struck, taken_for: None });
            piece.extend(heard);
            marks.push(mark);
        }
        self.ears.iter_mut().for_each(|ear| ear.block(&sent, &piece, &marks));
    }

    /// What is heard of a symbol: its coordinates, the mark of what is missing, and whether anything is missing or struck.
    fn heard(&mut self, symbol: &[i32]) -> ([i32; 4], u8, bool) {
        let (mut piece, mut mark, mut struck) = ([0; 4], 0, false);
        for n in 0..2 {
            let point = [symbol[2 * n], symbol[2 * n + 1]];
            let turned = (0..self.turns).fold(point, |[x, y], _| [y, -x]);
            let spark = self.rng.happens(self.setting.sparks);
            let missing = self.rng.happens(self.setting.missing);
            for (i, c) in turned.into_iter().enumerate() {
                piece[2 * n + i] = if spark { self.corner() } else { self.noisy(c) };
            }
            mark |= (missing as u8) << n;
            struck |= spark || missing;
        }
        (piece, mark, struck)
    }

    fn noisy(&mut self, coordinate: i32) -> i32 {
        let heard = 128.0 * coordinate as f64 + self.setting.deviation * self.rng.normal();
        (heard.round() as i32).clamp(-REACH, REACH)
    }

    fn corner(&mut self) -> i32 {
        if self.rng.next() >> 63 == 1 {
            REACH
        } else {
            -REACH
        }
    }
}
