//! Both ends of the line, written from the scope's words and for reading, not for speed.
//!
//! It leans on nothing but the standard library and shares no line with the proved code: the point table is made by its
//! rule, the receiver keeps whole sequences and compares their points. A number is the scope's number (0 done, 1 width,
//! 2 window, 3 start, 4 word, 5 coordinate, 6 window full, 8 output, 9 closed, 10 piece length).

/// The start that names no state.
pub const FREE: u32 = 16;
/// The window of the plain opening (02, Wish 9).
pub const PLAIN_WINDOW: u32 = 32;
/// The greatest coordinate that is heard.
pub const REACH: i64 = 8192;
/// Line units to one unit of a point's coordinate.
pub const SCALE: i64 = 128;
/// The most that the squared distance of one point counts for in a sum (02, Wish 8).
pub const CAP: u64 = 262_144;

pub type Point = (i32, i32);

/// A points: both coordinates 1 modulo 4, in order of x² + y², equal sums in order of falling y. The first 256.
pub fn a_points() -> Vec<Point> {
    let odd = || (-83..=85).step_by(4);
    let mut all: Vec<Point> = odd().flat_map(|x| odd().map(move |y| (x, y))).collect();
    all.sort_by_key(|&(x, y)| (x * x + y * y, -y));
    all.truncate(256);
    all
}

/// A quarter turn clockwise.
pub fn turned((x, y): Point) -> Point {
    (y, -x)
}

/// The map of 01, and the square map of 02, Wish 11.
pub const ROUND: u32 = 0;
pub const SQUARE: u32 = 1;

/// What both ends agree on: the map by its number, and the width.
#[derive(Clone, Copy, Debug, PartialEq, Eq)]
pub struct Line {
    pub map: u32,
    pub u: u32,
}

impl Line {
    pub fn round(u: u32) -> Line {
        Line { map: ROUND, u }
    }

    /// Whether there is such a line: "an odd u with this map is refused with 1", and so is a number that is no map's.
    pub fn exists(self) -> bool {
        self.u <= 8 && (self.map == ROUND || self.map == SQUARE && self.u % 2 == 0)
    }
}

/// Two's complement: bits from the highest on, which counts negative.
fn signed(bits: &[u32]) -> i32 {
    let below = bits[1..].iter().fold(0, |n, &bit| 2 * n + bit as i32);
    below - ((bits[0] as i32) << (bits.len() - 1))
}

/// The square map's point. "With b bits v .. x has the two's complement bits v(b-1), v(b-3), .., v1, 1 and y has v(b-2), .., v0, 1.
/// Label A has (v1, v0) = 00, C 01, B 11, D 10, and w, of b - 2 bits, is the rest with v2 as its low bit."
pub fn square_point(u: u32, label: u32, number: u32) -> Point {
    let (b, v) = (u + 2, number << 2 | [0b00, 0b01, 0b11, 0b10][label as usize]);
    let coordinate = |lowest: u32| {
        let places = (0..b / 2).rev().map(|k| 2 * k + lowest);
        signed(&places.map(|k| v >> k & 1).chain([1]).collect::<Vec<u32>>())
    };
    (coordinate(1), coordinate(0))
}

/// The points of each label, `points[label][number]`: of the round map, and of the square map for each half of its width.
pub struct Map {
    round: [Vec<Point>; 4],
    square: [[Vec<Point>; 4]; 5],
}

impl Map {
    pub fn new() -> Map {
        let a = a_points();
        let c: Vec<Point> = a.iter().map(|&p| turned(p)).collect();
        let b: Vec<Point> = c.iter().map(|&p| turned(p)).collect();
        let d: Vec<Point> = b.iter().map(|&p| turned(p)).collect();
        let grid = |u: u32| [0, 1, 2, 3].map(|l| (0..1 << u).map(|w| square_point(u, l, w)).collect());
        Map { round: [a, c, b, d], square: [0, 2, 4, 6, 8].map(grid) }
    }

    pub fn point(&self, line: Line, label: u32, number: u32) -> Point {
        let points = if line.map == SQUARE { &self.square[line.u as usize / 2] } else { &self.round };
        points[label as usize][number as usize]
    }
}

/// The state after `state`, by the rule for W1 W2 W3 W4.
pub fn next_state(state: u32, i1: u32, i2t: u32) -> u32 {
    let (w1, w2, w3, w4) = (state >> 3 & 1, state >> 2 & 1, state >> 1 & 1, state & 1);
    8 * w3 + 4 * w4 + 2 * ((w2 + i2t) % 2) + (w1 + w3 + i1) % 2
}

/// The two labels of a symbol with turn q.
pub fn labels(q: u32, y0: u32, i1: u32) -> (u32, u32) {
    (q, (q + y0 + 2 * i1) % 4)
}

/// A symbol: the parts that its word, its turn and its state gave it, and the two points that go over the line.
#[derive(Clone, Copy, Debug)]
pub struct Symbol {
    pub i1: u32,
    pub turn: u32,
    pub w1: u32,
    pub w2: u32,
    pub points: (Point, Point),
}

pub fn symbol(map: &Map, line: Line, y0: u32, i1: u32, turn: u32, w1: u32, w2: u32) -> Symbol {
    let (first, second) = labels(turn, y0, i1);
    Symbol { i1, turn, w1, w2, points: (map.point(line, first, w1), map.point(line, second, w2)) }
}

/// The word of a symbol that follows one with turn `before`. Where that is not known bits 1 and 2 are zero (02, Wish 5).
pub fn word_of(u: u32, before: Option<u32>, s: &Symbol) -> u32 {
    let turned_by = before.map_or(0, |before| (s.turn + 4 - before) % 4);
    s.i1 | turned_by << 1 | s.w1 << 3 | s.w2 << (3 + u)
}

// ---- the sender

#[derive(Clone, Debug)]
pub struct Sender {
    open: bool,
    line: Line,
    turn: u32,
    state: u32,
}

impl Sender {
    pub fn closed() -> Sender {
        Sender { open: false, line: Line::round(0), turn: 0, state: 0 }
    }

    pub fn open(line: Line) -> (u32, Sender) {
        if !line.exists() {
            return (1, Sender::closed());
        }
        (0, Sender { open: true, line, turn: 0, state: 0 })
    }

    pub fn is_open(&self) -> bool {
        self.open
    }

    pub fn send(&mut self, map: &Map, word: u32, out: &mut [i32]) -> u32 {
        if !self.open {
            return 9;
        }
        let u = self.line.u;
        if word >> (3 + 2 * u) != 0 {
            return 4;
        }
        if out.len() < 4 {
            return 8;
        }
        let low = (1 << u) - 1;
        let (i1, turned_by) = (word & 1, word >> 1 & 3);
        self.turn = (self.turn + turned_by) % 4;
        let s = symbol(map, self.line, self.state & 1, i1, self.turn, word >> 3 & low, word >> (3 + u) & low);
        self.state = next_state(self.state, i1, self.turn % 2);
        let ((x1, y1), (x2, y2)) = s.points;
        out[..4].copy_from_slice(&[x1, y1, x2, y2]);
        0
    }

    /// The words singly, each after those already written, up to the first that is refused: how many were sent, and why.
    pub fn send_list(&mut self, map: &Map, words: &[u32], out: &mut [i32]) -> (usize, u32) {
        if !self.open {
            return (0, 9);
        }
        for (sent, &word) in words.iter().enumerate() {
            let number = self.send(map, word, &mut out[4 * sent..]);
            if number != 0 {
                return (sent, number);
            }
        }
        (words.len(), 0)
    }
}

// ---- samples

/// The whole number nearest to 128·v, halves to even, from the bits of v; none if v is refused.
pub fn coordinate(bits: u32) -> Option<i32> {
    let exponent = bits >> 23 & 255;
    if exponent == 255 {
        return None;
    }
    let fraction = (bits & 0x7f_ffff) as u64;
    // |v| = mantissa · 2^(power - 150), so 128·|v| = mantissa · 2^(power - 143).
    let (mantissa, power) = if exponent == 0 { (fraction, 1) } else { (fraction | 0x80_0000, exponent) };
    let whole = if power >= 143 {
        // mantissa is 2^23 or more here
        return None;
    } else if 143 - power > 40 {
        0
    } else {
        let below = 143 - power;
        let (floor, rest, half) = (mantissa >> below, mantissa & ((1 << below) - 1), 1u64 << (below - 1));
        floor + (rest > half || (rest == half && floor % 2 == 1)) as u64
    };
    let signed = if bits >> 31 == 1 { -(whole as i64) } else { whole as i64 };
    (-REACH..=REACH).contains(&signed).then_some(signed as i32)
}

/// A sample: its two coordinates, or the place of the first at fault.
pub fn sample(x: u32, y: u32) -> Result<(i32, i32), u64> {
    let a = coordinate(x).ok_or(0u64)?;
    let b = coordinate(y).ok_or(1u64)?;
    Ok((a, b))
}

/// A list of coordinates, two to a sample. It gives the number, how many coordinates were written and the place for a 5.
/// A list of odd length is a 10; then sample by sample 5, 8, stopping at the first refusal.
pub fn samples(list: &[u32], out: &mut [i32]) -> (u32, u64, u64) {
    samples_marked(list, &vec![0; list.len() / 2], out)
}

/// The same with a byte for each sample, 1 if it is missing (02, Wish 4): it is written as 0, 0 whatever its floats are. Bytes
/// that are not one for each sample, or another byte than 0 and 1, are a 10.
pub fn samples_marked(list: &[u32], missing: &[u8], out: &mut [i32]) -> (u32, u64, u64) {
    if list.len() != 2 * missing.len() || missing.iter().any(|&m| m > 1) {
        return (10, 0, 0);
    }
    let mut written = 0;
    for (pair, &gone) in list.chunks(2).zip(missing) {
        let heard = if gone == 1 { Ok((0, 0)) } else { sample(pair[0], pair[1]) };
        let (x, y) = match heard {
            Ok(both) => both,
            Err(place) => return (5, written as u64, written as u64 + place),
        };
        if out.len() - written < 2 {
            return (8, written as u64, 0);
        }
        out[written] = x;
        out[written + 1] = y;
        written += 2;
    }
    (0, written as u64, 0)
}

// ---- the receiver

/// The best sequence into a state: its sum, and its symbols that are not yet released, oldest first.
#[derive(Clone, Debug)]
struct Reading {
    sum: u64,
    pending: Vec<Symbol>,
}

#[derive(Clone, Debug)]
pub struct Receiver {
    open: bool,
    line: Line,
    window: u32,
    /// What a point's distance counts for at most.
    cap: u64,
    /// The turn that the next released word is measured against: none before the first word of a free start.
    turn: Option<u32>,
    /// For each state the best sequence into it; none where it cannot be reached.
    best: Vec<Option<Reading>>,
}

#[derive(Clone, Copy, Debug, PartialEq, Eq)]
pub struct Answer {
    pub number: u32,
    pub taken: u64,
    pub written: u64,
    /// The coordinate first at fault if the number is 5, else 0.
    pub place: u64,
}

fn refused(number: u32) -> Answer {
    Answer { number, taken: 0, written: 0, place: 0 }
}

/// Squared distance of a heard point from a point of the table.
pub fn distance(heard: Point, p: Point) -> u64 {
    let dx = heard.0 as i64 - SCALE * p.0 as i64;
    let dy = heard.1 as i64 - SCALE * p.1 as i64;
    (dx * dx + dy * dy) as u64
}

/// A point that was never got is none: it is at distance 0 from every point (02, Wish 4).
pub type Received = Option<Point>;

/// The nearest number of a label, by its true distance, the smaller of equals; with that distance.
fn nearest(map: &Map, line: Line, label: u32, received: Received) -> (u64, u32) {
    let away = |w| received.map_or(0, |heard| distance(heard, map.point(line, label, w)));
    (0..1u32 << line.u).map(|w| (away(w), w)).min().unwrap()
}

/// For each subset 4·Y0 + 2·I1 + I2' the best symbol and the sum of its distances, each counted up to the cap.
fn best_of_subsets(map: &Map, line: Line, cap: u64, heard: (Received, Received)) -> Vec<(u64, Symbol)> {
    let first: Vec<(u64, u32)> = (0..4).map(|l| nearest(map, line, l, heard.0)).collect();
    let second: Vec<(u64, u32)> = (0..4).map(|l| nearest(map, line, l, heard.1)).collect();
    let of_type = |y0: u32, i1: u32, turn: u32| {
        let (a, b) = labels(turn, y0, i1);
        let ((d1, w1), (d2, w2)) = (first[a as usize], second[b as usize]);
        (d1.min(cap) + d2.min(cap), symbol(map, line, y0, i1, turn, w1, w2))
    };
    (0..8)
        .map(|subset| {
            let (y0, i1, i2t) = (subset >> 2, subset >> 1 & 1, subset & 1);
            let (zero, one) = (of_type(y0, i1, i2t), of_type(y0, i1, 2 + i2t));
            if one.0 < zero.0 {
                one
            } else {
                zero
            }
        })
        .collect()
}

/// How many symbols all these sequences begin with: both points equal.
fn agreed(best: &[Option<Reading>]) -> usize {
    let mut live = best.iter().flatten();
    let first = &live.next().expect("some state is always reached").pending;
    live.fold(first.len(), |most, other| {
        (0..most).find(|&k| other.pending[k].points != first[k].points).unwrap_or(most)
    })
}

impl Receiver {
    pub fn closed() -> Receiver {
        Receiver { open: false, line: Line::round(0), window: 0, cap: CAP, turn: None, best: vec![] }
    }

    pub fn open(line: Line, window: u32, start: u32) -> (u32, Receiver) {
        let number = if !line.exists() {
            1
        } else if !(1..=64).contains(&window) {
            2
        } else if start > FREE {
            3
        } else {
            0
        };
        if number != 0 {
            return (number, Receiver::closed());
        }
        let nothing = || Reading { sum: 0, pending: vec![] };
        let best = (0..16).map(|s| (start == FREE || start == s).then(nothing)).collect();
        (0, Receiver { open: true, line, window, cap: CAP, turn: (start != FREE).then_some(0), best })
    }

    /// The receiver of 01 alone, in which every distance counts whole.
    pub fn counting_whole(self) -> Receiver {
        Receiver { cap: u64::MAX, ..self }
    }

    pub fn open_plain(line: Line) -> (u32, Receiver) {
        Receiver::open(line, PLAIN_WINDOW, FREE)
    }

    pub fn is_open(&self) -> bool {
        self.open
    }

    pub fn pending(&self) -> usize {
        self.best.iter().flatten().next().map_or(0, |r| r.pending.len())
    }

    /// The best sequences after one more symbol. A state's predecessors are tried in rising order and a later one must be
    /// strictly better: ties go to the smaller state.
    fn after(&self, map: &Map, heard: (Received, Received)) -> Vec<Option<Reading>> {
        let choices = best_of_subsets(map, self.line, self.cap, heard);
        let mut found: Vec<Option<(u64, usize, Symbol)>> = vec![None; 16];
        for (before, reading) in self.best.iter().enumerate() {
            let Some(reading) = reading else { continue };
            for input in 0..4u32 {
                let (i1, i2t) = (input >> 1, input & 1);
                let into = next_state(before as u32, i1, i2t) as usize;
                let (cost, symbol) = choices[4 * (before & 1) + 2 * i1 as usize + i2t as usize];
                let sum = reading.sum + cost;
                if found[into].is_none_or(|(least, ..)| sum < least) {
                    found[into] = Some((sum, before, symbol));
                }
            }
        }
        let longer = |(sum, before, symbol): (u64, usize, Symbol)| {
            let mut pending = self.best[before].as_ref().unwrap().pending.clone();
            pending.push(symbol);
            Reading { sum, pending }
        };
        found.into_iter().map(|f| f.map(longer)).collect()
    }

    /// Writes the words of these symbols, and remembers the last one's turn.
    fn speak(&mut self, symbols: &[Symbol], out: &mut [u32]) {
        for (place, s) in out.iter_mut().zip(symbols) {
            *place = word_of(self.line.u, self.turn, s);
            self.turn = Some(s.turn);
        }
    }

    /// One symbol: how many words it wrote, or the number and place of its refusal. Bit 0 of the mark says that the first point is
    /// missing, bit 1 that the second is; what stands in their places is not looked at.
    fn hear_one(&mut self, map: &Map, mark: u8, c: &[i32], out: &mut [u32]) -> Result<usize, (u32, u64)> {
        let got = |point: usize| mark >> point & 1 == 0;
        let far = |c: i32| (c as i64) < -REACH || c as i64 > REACH;
        if let Some(place) = (0..4).find(|&k| got(k / 2) && far(c[k])) {
            return Err((5, place as u64));
        }
        let received = |point: usize| got(point).then_some((c[2 * point], c[2 * point + 1]));
        let mut best = self.after(map, (received(0), received(1)));
        let released = agreed(&best);
        let kept = self.pending() + 1 - released;
        if kept > self.window as usize {
            return Err((6, 0));
        }
        if out.len() < released {
            return Err((8, 0));
        }
        let common = best.iter().flatten().next().unwrap().pending[..released].to_vec();
        self.speak(&common, out);
        best.iter_mut().flatten().for_each(|r| drop(r.pending.drain(..released)));
        self.best = best;
        Ok(released)
    }

    /// A piece in which nothing is missing.
    pub fn hear(&mut self, map: &Map, piece: &[i32], out: &mut [u32]) -> Answer {
        self.hear_marked(map, piece, &vec![0; piece.len() / 4], out)
    }

    /// A piece with a mark for each symbol.
    pub fn hear_marked(&mut self, map: &Map, piece: &[i32], marks: &[u8], out: &mut [u32]) -> Answer {
        if !self.open {
            return refused(9);
        }
        if piece.len() != 4 * marks.len() || marks.iter().any(|&m| m > 3) {
            return refused(10);
        }
        let mut answer = refused(0);
        for (c, &mark) in piece.chunks(4).zip(marks) {
            match self.hear_one(map, mark, c, &mut out[answer.written as usize..]) {
                Ok(words) => {
                    answer.taken += 1;
                    answer.written += words as u64;
                }
                Err((number, place)) => return Answer { number, place, ..answer },
            }
        }
        answer
    }

    pub fn finish(&mut self, out: &mut [u32]) -> Answer {
        if !self.open {
            return refused(9);
        }
        let pending = self.pending();
        if out.len() < pending {
            return refused(8);
        }
        // min_by_key gives the first of equals: the smaller state.
        let answer = self.best.iter().flatten().min_by_key(|r| r.sum).unwrap().pending.clone();
        self.speak(&answer, out);
        *self = Receiver::closed();
        Answer { number: 0, taken: 0, written: pending as u64, place: 0 }
    }
}

/// The record of a word (02, Wish 2): kind 3, four bytes, low byte first.
fn word_record(word: u32) -> Vec<u8> {
    let mut r = vec![3];
    r.extend(word.to_le_bytes());
    r
}

/// The record of a symbol, and of the words that it released: kind 2; where a point is missing kind 5 with the mark, and zeros
/// for the missing (02, Wish 4).
fn symbol_records(mark: u8, c: &[i32], words: &[u32]) -> Vec<u8> {
    let mut r = if mark == 0 { vec![2] } else { vec![5, mark] };
    for point in 0..2 {
        let missing = mark >> point & 1 == 1;
        let coordinates = if missing { [0, 0] } else { [c[2 * point], c[2 * point + 1]] };
        coordinates.iter().for_each(|&c| r.extend((c as i16).to_le_bytes()));
    }
    words.iter().for_each(|&w| r.extend(word_record(w)));
    r
}

/// The record of an opening, kind 1, or 6 on the square map (02, Wish 11), and its number: 8, 1, 2, 3.
pub fn record_open(line: Line, window: u32, start: u32, bytes: &mut [u8]) -> u32 {
    if bytes.len() < 4 {
        return 8;
    }
    let (number, _) = Receiver::open(line, window, start);
    if number == 0 {
        let kind = if line.map == SQUARE { 6 } else { 1 };
        bytes[..4].copy_from_slice(&[kind, line.u as u8, window as u8, start as u8]);
    }
    number
}

impl Receiver {
    /// A piece that is recorded: the answer, and how many bytes were written.
    pub fn hear_recorded(&mut self, map: &Map, piece: &[i32], out: &mut [u32], bytes: &mut [u8]) -> (Answer, u64) {
        self.hear_marked_recorded(map, piece, &vec![0; piece.len() / 4], out, bytes)
    }

    /// The same with a mark for each symbol. Each symbol is first tried on a copy.
    pub fn hear_marked_recorded(
        &mut self,
        map: &Map,
        piece: &[i32],
        marks: &[u8],
        out: &mut [u32],
        bytes: &mut [u8],
    ) -> (Answer, u64) {
        if !self.open {
            return (refused(9), 0);
        }
        if piece.len() != 4 * marks.len() || marks.iter().any(|&m| m > 3) {
            return (refused(10), 0);
        }
        let (mut answer, mut recorded) = (refused(0), 0);
        for (c, &mark) in piece.chunks(4).zip(marks) {
            let (mut next, mut words) = (self.clone(), [0; 65]);
            let count = match next.hear_one(map, mark, c, &mut words) {
                Ok(count) => count,
                Err((number, place)) => return (Answer { number, place, ..answer }, recorded as u64),
            };
            let (at, records) = (answer.written as usize, symbol_records(mark, c, &words[..count]));
            if out.len() - at < count || bytes.len() - recorded < records.len() {
                return (Answer { number: 8, ..answer }, recorded as u64);
            }
            out[at..at + count].copy_from_slice(&words[..count]);
            bytes[recorded..recorded + records.len()].copy_from_slice(&records);
            recorded += records.len();
            answer.taken += 1;
            answer.written += count as u64;
            *self = next;
        }
        (answer, recorded as u64)
    }

    /// A finish that is recorded, kind 4, then its words.
    pub fn finish_recorded(&mut self, out: &mut [u32], bytes: &mut [u8]) -> (Answer, u64) {
        if self.open && bytes.len() < 1 + 5 * self.pending() {
            return (refused(8), 0);
        }
        let answer = self.finish(out);
        if answer.number != 0 {
            return (answer, 0);
        }
        let mut records = vec![4];
        out[..answer.written as usize].iter().for_each(|&w| records.extend(word_record(w)));
        bytes[..records.len()].copy_from_slice(&records);
        (answer, records.len() as u64)
    }
}

// ---- another maker's decoder (02, Wish 14)

/// What a signal card hands over, and what it was given: four coordinates a symbol, a state more than symbols, for each symbol Y0, I1, I2',
/// I3', w1 and w2, and sixteen numbers for the start and after each symbol.
pub struct Card<'a> {
    pub coordinates: &'a [i32],
    pub states: &'a [u32],
    pub symbols: &'a [u32],
    pub numbers: &'a [u64],
}

impl Card<'_> {
    /// Whether the lists are those of 1 to 64 symbols: how many, if so.
    fn count(&self) -> Option<usize> {
        let n = self.coordinates.len() / 4;
        let long = [self.coordinates.len(), self.states.len(), self.symbols.len(), self.numbers.len()];
        ((1..=64).contains(&n) && long == [4 * n, n + 1, 6 * n, 16 * (n + 1)]).then_some(n)
    }

    fn heard(&self, i: usize) -> (Point, Point) {
        let c = &self.coordinates[4 * i..4 * i + 4];
        ((c[0], c[1]), (c[2], c[3]))
    }

    /// What the i-th symbol of the card's sequence counts for, if it can be sent and carries its state to the next.
    fn counts(&self, map: &Map, line: Line, i: usize) -> Option<u64> {
        let [y0, i1, i2t, i3t, w1, w2] = self.symbols[6 * i..6 * i + 6].try_into().unwrap();
        let (from, to) = (self.states[i], self.states[i + 1]);
        let fits = [y0, i1, i2t, i3t].iter().all(|&bit| bit < 2) && w1 >> line.u == 0 && w2 >> line.u == 0;
        if !fits || from > 15 || y0 != from & 1 || next_state(from, i1, i2t) != to {
            return None;
        }
        let (first, second) = labels(2 * i3t + i2t, y0, i1);
        let counted = |heard, label, w| distance(heard, map.point(line, label, w)).min(CAP);
        Some(counted(self.heard(i).0, first, w1) + counted(self.heard(i).1, second, w2))
    }

    /// The sum of the card's sequence, where the lists fit, there is such a line, every coordinate is in range and the sequence is allowed.
    pub fn sum(&self, map: &Map, line: Line) -> Option<u64> {
        let n = self.count().filter(|_| line.exists())?;
        let in_range = self.coordinates.iter().all(|&c| (-REACH..=REACH).contains(&(c as i64)));
        (0..n).try_fold(0, |sum, i| Some(sum + self.counts(map, line, i)?)).filter(|_| in_range)
    }

    /// Whether the numbers and the sequence show that no allowed sequence has a smaller sum: the numbers are 0 at the start and rise by no
    /// more than each step counts for at least, and none of the last is below the sum of the sequence.
    pub fn accepted(&self, map: &Map, line: Line) -> bool {
        let Some(sum) = self.sum(map, line) else {
            return false;
        };
        let rises = |i: usize| {
            let heard = self.heard(i);
            let best = best_of_subsets(map, line, CAP, (Some(heard.0), Some(heard.1)));
            let (before, after) = (&self.numbers[16 * i..16 * i + 16], &self.numbers[16 * i + 16..16 * i + 32]);
            let step = |s: u32, i1: u32, i2t: u32| {
                let least = best[(4 * (s & 1) + 2 * i1 + i2t) as usize].0;
                after[next_state(s, i1, i2t) as usize] as u128 <= before[s as usize] as u128 + least as u128
            };
            (0..64).all(|k| step(k / 4, k / 2 % 2, k % 2))
        };
        let n = self.states.len() - 1;
        self.numbers[..16].iter().all(|&k| k == 0) && (0..n).all(rises) && self.numbers[16 * n..].iter().all(|&k| sum <= k)
    }
}
