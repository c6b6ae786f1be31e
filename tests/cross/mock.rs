//! A stand-in for the static library: the same C functions over the receiver written for speed (`bench/fast.rs`).
//!
//! It serves three ends. The test is tried on it before a proved library is at hand; deliberately broken copies of it
//! (`mutants/*.edit`) must be caught; and running the test on it shows that the receivers that the bench measures equal
//! the clear reference: `fastest`, or with `--cfg registers` `same`. It is never linked into anything that is handed out.

#[path = "../../bench/columns.rs"]
#[allow(dead_code)]
mod columns;
#[path = "../../bench/fast.rs"]
#[allow(dead_code)]
mod fast;

use std::slice::{from_raw_parts, from_raw_parts_mut};

#[cfg(not(registers))]
use planes::*;
#[cfg(registers)]
use registers::*;

/// The receiver with planes, and its memory as words.
#[cfg(not(registers))]
mod planes {
    use crate::fast::*;
    pub type Round = Receiver<Keyed, Planes>;
    pub type Square = Receiver<Grid, Planes>;
    pub const MEMORY_WORDS: usize = 64 + 256;

    pub fn put(memory: &Planes, words: &mut [u64]) {
        let (bits, ring) = words.split_at_mut(64);
        bits.copy_from_slice(memory.bits.as_flattened());
        ring.iter_mut().zip(memory.words.as_flattened().chunks(2)).for_each(|(w, two)| {
            *w = two[0] as u64 | (two[1] as u64) << 32;
        });
    }

    pub fn get(words: &[u64]) -> Planes {
        let mut memory = Planes::new();
        let (bits, ring) = words.split_at(64);
        memory.bits.as_flattened_mut().copy_from_slice(bits);
        memory.words.as_flattened_mut().chunks_mut(2).zip(ring).for_each(|(two, &w)| {
            two.copy_from_slice(&[w as u32, (w >> 32) as u32]);
        });
        memory
    }
}

/// The receiver with registers, and its memory as words.
#[cfg(registers)]
mod registers {
    use crate::fast::*;
    pub type Round = Receiver<crate::columns::Columns, Registers>;
    pub type Square = Receiver<Grid, Registers>;
    pub const MEMORY_WORDS: usize = 48 + 8 + 64;

    pub fn put(memory: &Registers, words: &mut [u64]) {
        words[..48].copy_from_slice(memory.words.as_flattened());
        words[48..56].copy_from_slice(&memory.i3);
        words[56..].copy_from_slice(&memory.numbers);
    }

    pub fn get(words: &[u64]) -> Registers {
        let mut memory = Registers::new();
        memory.words.as_flattened_mut().copy_from_slice(&words[..48]);
        memory.i3.copy_from_slice(&words[48..56]);
        memory.numbers.copy_from_slice(&words[56..]);
        memory
    }
}

const SENDER_TAG: u64 = 0x5345_4e44_5f30_3031;
const RECEIVER_TAG: u64 = 0x5245_4356_5f30_3031;
const SENDER_WORDS: usize = 6;
/// Tag; open, map, width, window, turn, slot, pending; sums; memory.
const RECEIVER_WORDS: usize = 24 + MEMORY_WORDS;

/// Whether there is such a line.
fn is_line(map: u64, u: u64) -> bool {
    u <= 8 && (map == 0 || map == 1 && u % 2 == 0)
}

// ---- the sender

struct Sender {
    open: bool,
    map: u32,
    u: u32,
    turn: u32,
    state: u32,
}

const NO_SENDER: Sender = Sender { open: false, map: 0, u: 0, turn: 0, state: 0 };

fn load_sender(state: &[u64]) -> Option<Sender> {
    if state.len() < SENDER_WORDS || state[0] != SENDER_TAG {
        return None;
    }
    let sound = state[1] == 1 && is_line(state[2], state[3]) && state[4] < 4 && state[5] < 16;
    let [map, u, turn, state] = [2, 3, 4, 5].map(|n| state[n] as u32);
    sound.then_some(Sender { open: true, map, u, turn, state })
}

fn store_sender(s: &Sender, state: &mut [u64]) {
    let words = [s.open as u32, s.map, s.u, s.turn, s.state].map(|n| n as u64);
    state[0] = SENDER_TAG;
    state[1..SENDER_WORDS].copy_from_slice(&words);
}

static A_POINTS: [(i32, i32); 256] = fast::A_POINTS;

/// The round map's point with this label and number.
fn round_point(label: u32, number: u32) -> (i32, i32) {
    (0..label).fold(A_POINTS[number as usize], |(x, y), _| (y, -x))
}

/// The square map's: the bits of x and of y alternate, a 1 behind them, shifted up to the sign and back.
fn square_point(u: u32, label: u32, number: u32) -> (i32, i32) {
    let v = number << 2 | label ^ label >> 1;
    let field = |v: u32| (0..5).fold(1, |c, n| c | (v >> (2 * n) & 1) << (n + 1)) as i32;
    let spare = 30 - u / 2;
    (field(v >> 1) << spare >> spare, field(v) << spare >> spare)
}

fn point(s: &Sender, label: u32, number: u32) -> (i32, i32) {
    if s.map == 1 {
        square_point(s.u, label, number)
    } else {
        round_point(label, number)
    }
}

fn send(s: &mut Sender, word: u32, out: &mut [i32]) -> u32 {
    if word >> (3 + 2 * s.u) != 0 {
        return 4;
    }
    if out.len() < 4 {
        return 8;
    }
    let (i1, low, y0) = (word & 1, (1 << s.u) - 1, s.state & 1);
    s.turn = (s.turn + (word >> 1 & 3)) & 3;
    let first = point(s, s.turn, word >> 3 & low);
    let second = point(s, (s.turn + y0 + 2 * i1) & 3, word >> (3 + s.u) & low);
    out[..4].copy_from_slice(&[first.0, first.1, second.0, second.1]);
    let (w1, w2, w3) = (s.state >> 3 & 1, s.state >> 2 & 1, s.state >> 1 & 1);
    s.state = w3 << 3 | y0 << 2 | (w2 ^ s.turn & 1) << 1 | (w1 ^ w3 ^ i1);
    0
}

// ---- the receiver, of either map, and its words

enum Held {
    Round(Round),
    Square(Square),
}

/// The same of the receiver, whichever map it is.
macro_rules! of {
    ($held:expr, $r:ident => $what:expr) => {
        match $held {
            Held::Round($r) => $what,
            Held::Square($r) => $what,
        }
    };
}

impl Held {
    fn open(map: u32, u: u32, window: u32, start: u32) -> (u32, Held) {
        // a width that no map has stands for a line that there is none of
        let u = if is_line(map as u64, u as u64) { u } else { 9 };
        if map == 1 {
            let (number, r) = Square::open(u, window, start);
            return (number, Held::Square(r));
        }
        let (number, r) = Round::open(u, window, start);
        (number, Held::Round(r))
    }

    fn pending(&self) -> usize {
        of!(self, r => r.pending)
    }

    fn hear(&mut self, piece: &[i32], out: &mut [u32]) -> fast::Answer {
        of!(self, r => r.hear(piece, out))
    }

    fn hear_marked(&mut self, piece: &[i32], marks: &[u8], out: &mut [u32]) -> fast::Answer {
        of!(self, r => r.hear_marked(piece, marks, out))
    }

    fn finish(&mut self, out: &mut [u32]) -> fast::Answer {
        of!(self, r => r.finish(out))
    }
}

fn load(state: &[u64]) -> Option<Held> {
    if state.len() < RECEIVER_WORDS || state[0] != RECEIVER_TAG {
        return None;
    }
    let [open, map, u, window, turn, slot, pending] = state[1..8].try_into().unwrap();
    let sound = open == 1 && is_line(map, u) && (1..=64).contains(&window) && turn <= 4;
    if !sound || slot > 63 || pending > window || state[8..24].iter().any(|&sum| sum >= 1 << 27) {
        return None;
    }
    let (_, mut held) = Held::open(map as u32, u as u32, window as u32, 16);
    of!(&mut held, r => {
        (r.turn, r.slot, r.pending) = (turn as u32, slot as usize, pending as usize);
        r.sums = std::array::from_fn(|s| state[8 + s] as u32);
        r.memory = get(&state[24..RECEIVER_WORDS]);
    });
    Some(held)
}

fn store(held: &Held, state: &mut [u64]) {
    let map = matches!(held, Held::Square(_)) as u32;
    of!(held, r => {
        let head = [r.open as u32, map, r.u, r.window, r.turn, r.slot as u32, r.pending as u32];
        state[0] = RECEIVER_TAG;
        state[1..8].copy_from_slice(&head.map(|n| n as u64));
        state[8..24].copy_from_slice(&r.sums.map(u64::from));
        put(&r.memory, &mut state[24..RECEIVER_WORDS]);
    });
}

fn tell(told: &mut [u64], taken: u64, written: u64, place: u64) {
    told[..3].copy_from_slice(&[taken, written, place]);
}

fn answer(a: fast::Answer, told: &mut [u64]) -> u32 {
    tell(told, a.taken, a.written, a.place);
    a.number
}

fn closed(told: &mut [u64]) -> u32 {
    answer(fast::refused(9), told)
}

// ---- samples

fn coordinate(v: f32) -> Option<i32> {
    // exact: an f32 times a power of two, in f64
    let scaled = (v as f64 * 128.0).round_ties_even();
    (scaled.abs() <= 8192.0).then_some(scaled as i32)
}

fn sample(x: f32, y: f32) -> Result<(i32, i32), u64> {
    let x = coordinate(x).ok_or(0u64)?;
    let y = coordinate(y).ok_or(1u64)?;
    Ok((x, y))
}

// ---- another maker's decoder

/// Where a state leads.
fn lead(state: u32, i1: u32, i2t: u32) -> u32 {
    let (w1, w2, w3) = (state >> 3 & 1, state >> 2 & 1, state >> 1 & 1);
    w3 << 3 | (state & 1) << 2 | (w2 ^ i2t) << 1 | (w1 ^ w3 ^ i1)
}

/// What a point of the map counts for where this was heard.
fn counts(on: &Sender, heard: &[i32], label: u32, number: u32) -> u64 {
    let (x, y) = point(on, label, number);
    let (dx, dy) = (heard[0] as i64 - 128 * x as i64, heard[1] as i64 - 128 * y as i64);
    ((dx * dx + dy * dy) as u64).min(262_144)
}

/// For each label the least that any of its points counts for.
fn leasts(on: &Sender, heard: &[i32]) -> [u64; 4] {
    std::array::from_fn(|l| (0..1 << on.u).map(|w| counts(on, heard, l as u32, w)).min().unwrap())
}

/// What the card's symbol counts for between two states, if it is one of the width and leads from the first to the second.
fn chosen(on: &Sender, heard: &[i32], from: u32, to: u32, symbol: &[u32]) -> Option<u64> {
    let [y0, i1, i2t, i3t, w1, w2] = symbol.try_into().unwrap();
    let bits = (y0 | i1 | i2t | i3t) >> 1 == 0;
    let fits = bits && w1 >> on.u == 0 && w2 >> on.u == 0;
    if !fits || from > 15 || y0 != from & 1 || lead(from, i1, i2t) != to {
        return None;
    }
    let turn = 2 * i3t + i2t;
    Some(counts(on, &heard[..2], turn, w1) + counts(on, &heard[2..], (turn + y0 + 2 * i1) & 3, w2))
}

/// Whether no number of the second row is above a number of the first and what the step between counts for at least.
fn rises(on: &Sender, heard: &[i32], before: &[u64], after: &[u64]) -> bool {
    let (first, second) = (leasts(on, &heard[..2]), leasts(on, &heard[2..]));
    let all = |s: u32, i1: u32, turn: u32| {
        let away = first[turn as usize] + second[(turn + s % 2 + 2 * i1) as usize & 3];
        after[lead(s, i1, turn % 2) as usize].saturating_sub(away) <= before[s as usize]
    };
    (0..128).all(|k| all(k >> 3, k >> 2 & 1, k & 3))
}

fn check_card(on: &Sender, coordinates: &[i32], states: &[u32], symbols: &[u32], numbers: &[u64]) -> bool {
    let n = coordinates.len() / 4;
    let long = [coordinates.len(), states.len(), symbols.len(), numbers.len()] == [4 * n, n + 1, 6 * n, 16 * n + 16];
    if !long || n < 1 || n > 64 || coordinates.iter().any(|c| !(-8192..=8192).contains(c)) {
        return false;
    }
    if numbers[..16].iter().any(|&k| k != 0) {
        return false;
    }
    let mut sum = 0;
    for i in 0..n {
        let heard = &coordinates[4 * i..4 * i + 4];
        let Some(far) = chosen(on, heard, states[i], states[i + 1], &symbols[6 * i..6 * i + 6]) else {
            return false;
        };
        sum += far;
        if !rises(on, heard, &numbers[16 * i..16 * i + 16], &numbers[16 * i + 16..16 * i + 32]) {
            return false;
        }
    }
    numbers[16 * n..].iter().all(|&k| sum <= k)
}

// ---- the C functions

#[no_mangle]
pub extern "C" fn demfizagu_version() -> u32 {
    1
}

#[no_mangle]
pub extern "C" fn demfizagu_sender_words() -> usize {
    SENDER_WORDS
}

#[no_mangle]
pub extern "C" fn demfizagu_receiver_words() -> usize {
    RECEIVER_WORDS
}

#[no_mangle]
pub unsafe extern "C" fn demfizagu_is_open(state: *const u64, state_len: usize) -> u32 {
    let state = from_raw_parts(state, state_len);
    (load_sender(state).is_some() || load(state).is_some()) as u32
}

#[no_mangle]
pub unsafe extern "C" fn demfizagu_pending(state: *const u64, state_len: usize) -> u32 {
    load(from_raw_parts(state, state_len)).map_or(0, |r| r.pending() as u32)
}

#[no_mangle]
pub unsafe extern "C" fn demfizagu_sender_open(state: *mut u64, state_len: usize, u: u32) -> u32 {
    demfizagu_sender_open_map(state, state_len, 0, u)
}

#[no_mangle]
pub unsafe extern "C" fn demfizagu_sender_open_map(state: *mut u64, state_len: usize, map: u32, u: u32) -> u32 {
    let state = from_raw_parts_mut(state, state_len);
    if state.len() < SENDER_WORDS {
        return 8;
    }
    if !is_line(map as u64, u as u64) {
        store_sender(&NO_SENDER, state);
        return 1;
    }
    store_sender(&Sender { open: true, map, u, ..NO_SENDER }, state);
    0
}

#[no_mangle]
pub unsafe extern "C" fn demfizagu_send(
    state: *mut u64,
    state_len: usize,
    word: u32,
    out: *mut i32,
    out_len: usize,
) -> u32 {
    let (state, out) = (from_raw_parts_mut(state, state_len), from_raw_parts_mut(out, out_len));
    let Some(mut s) = load_sender(state) else { return 9 };
    let number = send(&mut s, word, out);
    if number == 0 {
        store_sender(&s, state);
    }
    number
}

#[no_mangle]
pub unsafe extern "C" fn demfizagu_send_list(
    state: *mut u64,
    state_len: usize,
    words: *const u32,
    words_len: usize,
    out: *mut i32,
    out_len: usize,
    told: *mut u64,
    told_len: usize,
) -> u32 {
    let (state, words) = (from_raw_parts_mut(state, state_len), from_raw_parts(words, words_len));
    let (out, told) = (from_raw_parts_mut(out, out_len), from_raw_parts_mut(told, told_len));
    if told.len() < 3 {
        return 8;
    }
    told[..3].fill(0);
    let Some(mut s) = load_sender(state) else { return 9 };
    let (mut sent, mut number) = (0, 0);
    for &word in words {
        number = send(&mut s, word, &mut out[4 * sent..]);
        if number != 0 {
            break;
        }
        sent += 1;
    }
    told[0] = sent as u64;
    told[1] = 4 * sent as u64;
    if sent > 0 {
        store_sender(&s, state);
    }
    number
}

#[no_mangle]
pub unsafe extern "C" fn demfizagu_receiver_open(
    state: *mut u64,
    state_len: usize,
    u: u32,
    window: u32,
    start: u32,
) -> u32 {
    demfizagu_receiver_open_map(state, state_len, 0, u, window, start)
}

#[no_mangle]
pub unsafe extern "C" fn demfizagu_receiver_open_map(
    state: *mut u64,
    state_len: usize,
    map: u32,
    u: u32,
    window: u32,
    start: u32,
) -> u32 {
    let state = from_raw_parts_mut(state, state_len);
    if state.len() < RECEIVER_WORDS {
        return 8;
    }
    let (number, r) = Held::open(map, u, window, start);
    store(&r, state);
    number
}

#[no_mangle]
pub unsafe extern "C" fn demfizagu_receiver_open_plain(state: *mut u64, state_len: usize, u: u32) -> u32 {
    demfizagu_receiver_open(state, state_len, u, 32, 16)
}

#[no_mangle]
pub unsafe extern "C" fn demfizagu_hear(
    state: *mut u64,
    state_len: usize,
    piece: *const i32,
    piece_len: usize,
    out: *mut u32,
    out_len: usize,
    told: *mut u64,
    told_len: usize,
) -> u32 {
    let (state, piece) = (from_raw_parts_mut(state, state_len), from_raw_parts(piece, piece_len));
    let (out, told) = (from_raw_parts_mut(out, out_len), from_raw_parts_mut(told, told_len));
    if told.len() < 3 {
        return 8;
    }
    let Some(mut r) = load(state) else { return closed(told) };
    let a = r.hear(piece, out);
    store(&r, state);
    answer(a, told)
}

#[no_mangle]
pub unsafe extern "C" fn demfizagu_hear_marked(
    state: *mut u64,
    state_len: usize,
    piece: *const i32,
    piece_len: usize,
    marks: *const u8,
    marks_len: usize,
    out: *mut u32,
    out_len: usize,
    told: *mut u64,
    told_len: usize,
) -> u32 {
    let (state, piece) = (from_raw_parts_mut(state, state_len), from_raw_parts(piece, piece_len));
    let (out, told) = (from_raw_parts_mut(out, out_len), from_raw_parts_mut(told, told_len));
    if told.len() < 3 {
        return 8;
    }
    let Some(mut held) = load(state) else { return closed(told) };
    let given = held.hear_marked(piece, from_raw_parts(marks, marks_len), out);
    store(&held, state);
    answer(given, told)
}

#[no_mangle]
pub unsafe extern "C" fn demfizagu_finish(
    state: *mut u64,
    state_len: usize,
    out: *mut u32,
    out_len: usize,
    told: *mut u64,
    told_len: usize,
) -> u32 {
    let (state, out) = (from_raw_parts_mut(state, state_len), from_raw_parts_mut(out, out_len));
    let told = from_raw_parts_mut(told, told_len);
    if told.len() < 3 {
        return 8;
    }
    let Some(mut last) = load(state) else { return closed(told) };
    let a = last.finish(out);
    store(&last, state);
    answer(a, told)
}

fn words_recorded(kind_and_body: Vec<u8>, words: &[u32]) -> Vec<u8> {
    let mut r = kind_and_body;
    for w in words {
        r.push(3);
        r.extend(w.to_le_bytes());
    }
    r
}

#[no_mangle]
pub unsafe extern "C" fn demfizagu_record_open(u: u32, window: u32, start: u32, bytes: *mut u8, bytes_len: usize) -> u32 {
    demfizagu_record_open_map(0, u, window, start, bytes, bytes_len)
}

#[no_mangle]
pub unsafe extern "C" fn demfizagu_record_open_map(
    map: u32,
    u: u32,
    window: u32,
    start: u32,
    bytes: *mut u8,
    bytes_len: usize,
) -> u32 {
    let bytes = from_raw_parts_mut(bytes, bytes_len);
    if bytes.len() < 4 {
        return 8;
    }
    let number = Held::open(map, u, window, start).0;
    if number == 0 {
        bytes[..4].copy_from_slice(&[1 + 5 * map as u8, u as u8, window as u8, start as u8]);
    }
    number
}

#[no_mangle]
pub unsafe extern "C" fn demfizagu_hear_recorded(
    state: *mut u64,
    state_len: usize,
    piece: *const i32,
    piece_len: usize,
    out: *mut u32,
    out_len: usize,
    bytes: *mut u8,
    bytes_len: usize,
    told: *mut u64,
    told_len: usize,
) -> u32 {
    let (state, piece) = (from_raw_parts_mut(state, state_len), from_raw_parts(piece, piece_len));
    let (out, bytes) = (from_raw_parts_mut(out, out_len), from_raw_parts_mut(bytes, bytes_len));
    // a length that is no multiple of 4 has no marks that fit
    let marks = vec![0; piece.len() / 4];
    hear_recorded(state, piece, &marks, out, bytes, from_raw_parts_mut(told, told_len))
}

#[no_mangle]
pub unsafe extern "C" fn demfizagu_hear_marked_recorded(
    state: *mut u64,
    state_len: usize,
    piece: *const i32,
    piece_len: usize,
    marks: *const u8,
    marks_len: usize,
    out: *mut u32,
    out_len: usize,
    bytes: *mut u8,
    bytes_len: usize,
    told: *mut u64,
    told_len: usize,
) -> u32 {
    let (state, piece) = (from_raw_parts_mut(state, state_len), from_raw_parts(piece, piece_len));
    let (out, bytes) = (from_raw_parts_mut(out, out_len), from_raw_parts_mut(bytes, bytes_len));
    let marks = from_raw_parts(marks, marks_len);
    hear_recorded(state, piece, marks, out, bytes, from_raw_parts_mut(told, told_len))
}

/// Kind 2, or kind 5 with its mark and zeros for what is missing.
fn symbol_body(mark: u8, c: &[i32]) -> Vec<u8> {
    let mut body = if mark == 0 { vec![2] } else { vec![5, mark] };
    for (n, &c) in c.iter().enumerate() {
        let got = mark >> (n / 2) & 1 == 0;
        body.extend((if got { c } else { 0 } as i16).to_le_bytes());
    }
    body
}

fn hear_recorded(state: &mut [u64], piece: &[i32], marks: &[u8], out: &mut [u32], bytes: &mut [u8], told: &mut [u64]) -> u32 {
    if told.len() < 4 {
        return 8;
    }
    told[3] = 0;
    if load(state).is_none() {
        return closed(told);
    }
    if piece.len() != 4 * marks.len() || marks.iter().any(|&m| m > 3) {
        return answer(fast::refused(10), told);
    }
    let (mut taken, mut written, mut recorded) = (0, 0, 0);
    let mut given = (0, 0);
    for (c, &mark) in piece.chunks(4).zip(marks) {
        let (mut r, mut words) = (load(state).unwrap(), [0; 65]);
        let a = r.hear_marked(c, &[mark], &mut words);
        if a.number != 0 {
            given = (a.number, a.place);
            break;
        }
        let body = symbol_body(mark, c);
        let count = a.written as usize;
        let records = words_recorded(body, &words[..count]);
        if out.len() - written < count || bytes.len() - recorded < records.len() {
            given = (8, 0);
            break;
        }
        out[written..written + count].copy_from_slice(&words[..count]);
        bytes[recorded..recorded + records.len()].copy_from_slice(&records);
        store(&r, state);
        (taken, written, recorded) = (taken + 1, written + count, recorded + records.len());
    }
    tell(told, taken, written as u64, given.1);
    told[3] = recorded as u64;
    given.0
}

#[no_mangle]
pub unsafe extern "C" fn demfizagu_finish_recorded(
    state: *mut u64,
    state_len: usize,
    out: *mut u32,
    out_len: usize,
    bytes: *mut u8,
    bytes_len: usize,
    told: *mut u64,
    told_len: usize,
) -> u32 {
    let (state, out) = (from_raw_parts_mut(state, state_len), from_raw_parts_mut(out, out_len));
    let (bytes, told) = (from_raw_parts_mut(bytes, bytes_len), from_raw_parts_mut(told, told_len));
    if told.len() < 4 {
        return 8;
    }
    told[3] = 0;
    let Some(mut held) = load(state) else { return closed(told) };
    if bytes.len() < 1 + 5 * held.pending() {
        return answer(fast::refused(8), told);
    }
    let a = held.finish(out);
    if a.number == 0 {
        let records = words_recorded(vec![4], &out[..a.written as usize]);
        bytes[..records.len()].copy_from_slice(&records);
        told[3] = records.len() as u64;
        store(&held, state);
    }
    answer(a, told)
}

#[no_mangle]
pub unsafe extern "C" fn demfizagu_check_card(
    map: u32,
    u: u32,
    coordinates: *const i32,
    coordinates_len: usize,
    states: *const u32,
    states_len: usize,
    symbols: *const u32,
    symbols_len: usize,
    numbers: *const u64,
    numbers_len: usize,
) -> u32 {
    let (coordinates, states) = (from_raw_parts(coordinates, coordinates_len), from_raw_parts(states, states_len));
    let (symbols, numbers) = (from_raw_parts(symbols, symbols_len), from_raw_parts(numbers, numbers_len));
    let on = Sender { map, u, ..NO_SENDER };
    (is_line(map as u64, u as u64) && check_card(&on, coordinates, states, symbols, numbers)) as u32
}

#[no_mangle]
pub unsafe extern "C" fn demfizagu_sample(x: f32, y: f32, out: *mut i32, out_len: usize) -> u32 {
    let out = from_raw_parts_mut(out, out_len);
    if out.len() < 3 {
        return 8;
    }
    let (number, given) = match sample(x, y) {
        Ok((x, y)) => (0, [x, y, 0]),
        Err(place) => (5, [0, 0, place as i32]),
    };
    out[..3].copy_from_slice(&given);
    number
}

#[no_mangle]
pub unsafe extern "C" fn demfizagu_samples(
    floats: *const f32,
    floats_len: usize,
    out: *mut i32,
    out_len: usize,
    told: *mut u64,
    told_len: usize,
) -> u32 {
    let (floats, out) = (from_raw_parts(floats, floats_len), from_raw_parts_mut(out, out_len));
    let missing = vec![0; floats.len() / 2];
    samples(floats, &missing, out, from_raw_parts_mut(told, told_len))
}

#[no_mangle]
pub unsafe extern "C" fn demfizagu_samples_marked(
    floats: *const f32,
    floats_len: usize,
    missing: *const u8,
    missing_len: usize,
    out: *mut i32,
    out_len: usize,
    told: *mut u64,
    told_len: usize,
) -> u32 {
    let (floats, missing) = (from_raw_parts(floats, floats_len), from_raw_parts(missing, missing_len));
    samples(floats, missing, from_raw_parts_mut(out, out_len), from_raw_parts_mut(told, told_len))
}

fn samples(floats: &[f32], missing: &[u8], out: &mut [i32], told: &mut [u64]) -> u32 {
    if told.len() < 3 {
        return 8;
    }
    if floats.len() != 2 * missing.len() || missing.iter().any(|&m| m > 1) {
        tell(told, 0, 0, 0);
        return 10;
    }
    let mut done = 0;
    for (pair, &gone) in floats.chunks(2).zip(missing) {
        let heard = if gone == 1 { Ok((0, 0)) } else { sample(pair[0], pair[1]) };
        let (number, place) = match heard {
            Err(place) => (5, done as u64 + place),
            Ok(_) if out.len() - done < 2 => (8, 0),
            Ok((x, y)) => {
                out[done] = x;
                out[done + 1] = y;
                (0, 0)
            }
        };
        if number != 0 {
            tell(told, done as u64, done as u64, place);
            return number;
        }
        done += 2;
    }
    tell(told, done as u64, done as u64, 0);
    0
}
