//! Another maker's decoder (02, Wish 14). The cards are made here, by a decoder of their own that tries every point of a label and lets ties fall
//! by chance; each is handed over whole, and damaged in many ways. The library's verdict is held to the reference's. Apart from that, by 02's words
//! alone: a whole card is accepted, and what is accepted has the least sum that this decoder finds. On short lists its sums are held to the
//! definition, by every allowed sequence.

use crate::exhaustive::least_sums;
use crate::ffi;
use crate::reference::*;
use crate::rng::Rng;

/// How many cards were checked, how many of them were accepted, and how many of these had been damaged.
pub struct Cards {
    pub checked: usize,
    pub accepted: usize,
    pub damaged: usize,
}

/// What is handed over, and the line that it is said to be of.
#[derive(Clone, Debug)]
struct Handed {
    on: Line,
    coordinates: Vec<i32>,
    states: Vec<u32>,
    symbols: Vec<u32>,
    numbers: Vec<u64>,
}

impl Handed {
    fn card(&self) -> Card<'_> {
        Card { coordinates: &self.coordinates, states: &self.states, symbols: &self.symbols, numbers: &self.numbers }
    }

    /// A line for `lab`, which answers `?` where a list has another length than the coordinates say.
    fn line(&self) -> String {
        let map = if self.on.map == SQUARE { "square" } else { "round" };
        let mut line = format!("card {map} {} {}", self.on.u, self.coordinates.len() / 4);
        self.coordinates.iter().for_each(|n| line += &format!(" {n}"));
        self.states.iter().chain(&self.symbols).for_each(|n| line += &format!(" {n}"));
        self.numbers.iter().for_each(|n| line += &format!(" {n}"));
        line
    }
}

// ---- the decoder

/// For each label the least that a heard point counts for, and every number that counts for it.
type Counted = Vec<(u64, Vec<u32>)>;

fn counted(map: &Map, on: Line, heard: Point) -> Counted {
    let of = |label| {
        let away = |w| distance(heard, map.point(on, label, w)).min(CAP);
        let least = (0..1 << on.u).map(away).min().unwrap();
        (least, (0..1 << on.u).filter(|&w| away(w) == least).collect())
    };
    (0..4).map(of).collect()
}

/// What a card decodes: of each symbol what its two points count for, and the least sums of the start and after each symbol.
struct Decoded {
    points: Vec<(Counted, Counted)>,
    rows: Vec<Vec<u64>>,
}

/// Every I1 and turn.
fn branches() -> impl Iterator<Item = (u32, u32)> {
    (0..2).flat_map(|i1| (0..4).map(move |turn| (i1, turn)))
}

impl Decoded {
    fn new(map: &Map, on: Line, coordinates: &[i32]) -> Decoded {
        let each = |c: &[i32]| (counted(map, on, (c[0], c[1])), counted(map, on, (c[2], c[3])));
        let mut all = Decoded { points: coordinates.chunks(4).map(each).collect(), rows: vec![vec![0; 16]] };
        for i in 0..all.points.len() {
            let mut row = vec![u64::MAX; 16];
            for (from, (i1, turn)) in (0..16).flat_map(|from| branches().map(move |b| (from, b))) {
                let to = &mut row[next_state(from, i1, turn % 2) as usize];
                *to = (*to).min(all.rows[i][from as usize] + all.step(i, from, i1, turn));
            }
            all.rows.push(row);
        }
        all
    }

    /// The least that the i-th symbol counts for from this state with this I1 and turn.
    fn step(&self, i: usize, from: u32, i1: u32, turn: u32) -> u64 {
        let (a, b) = labels(turn, from & 1, i1);
        self.points[i].0[a as usize].0 + self.points[i].1[b as usize].0
    }

    fn least(&self) -> u64 {
        *self.rows.last().unwrap().iter().min().unwrap()
    }

    /// The states and symbols of one of the nearest sequences, any of them: from its end back.
    fn nearest(&self, rng: &mut Rng) -> (Vec<u32>, Vec<u32>) {
        let ends: Vec<u32> = (0..16).filter(|&s| self.rows.last().unwrap()[s as usize] == self.least()).collect();
        let (mut states, mut symbols) = (vec![rng.pick(&ends)], vec![]);
        for i in (0..self.points.len()).rev() {
            let to = states[0];
            let leads = |from: u32, i1: u32, turn: u32| {
                next_state(from, i1, turn % 2) == to
                    && self.rows[i][from as usize] + self.step(i, from, i1, turn) == self.rows[i + 1][to as usize]
            };
            let ways = (0..16).flat_map(|from| branches().map(move |(i1, turn)| (from, i1, turn)));
            let ways: Vec<(u32, u32, u32)> = ways.filter(|&(from, i1, turn)| leads(from, i1, turn)).collect();
            let (from, i1, turn) = rng.pick(&ways);
            let (a, b) = labels(turn, from & 1, i1);
            let (w1, w2) = (rng.pick(&self.points[i].0[a as usize].1), rng.pick(&self.points[i].1[b as usize].1));
            states.insert(0, from);
            symbols.splice(0..0, [from & 1, i1, turn % 2, turn / 2, w1, w2]);
        }
        (states, symbols)
    }
}

// ---- what is heard, and what goes wrong

/// Sent symbols with noise, places halfway between points, small numbers, which have many ties, or anything.
fn heard(map: &Map, on: Line, symbols: usize, rng: &mut Rng) -> Vec<i32> {
    let (kind, mut sender, mut all) = (rng.below(5), Sender::open(on).1, vec![]);
    for _ in 0..symbols {
        let mut points = [0; 4];
        sender.send(map, rng.next() as u32 & ((1 << (3 + 2 * on.u)) - 1), &mut points);
        all.extend(match kind {
            0 => points.map(|c| (128 * c + rng.noise(60.0)).clamp(-8192, 8192)),
            1 => points.map(|c| (128 * c + rng.noise(250.0)).clamp(-8192, 8192)),
            2 => points.map(|c| 128 * (c + rng.below(2) as i32)),
            3 => points.map(|_| rng.pick(&[0, 0, 1, -1, 20, -20, 300])),
            _ => points.map(|_| rng.below(16385) as i32 - 8192),
        });
    }
    all
}

/// Any allowed sequence.
fn wandered(on: Line, symbols: usize, rng: &mut Rng) -> (Vec<u32>, Vec<u32>) {
    let (mut states, mut all) = (vec![rng.below(16) as u32], vec![]);
    for _ in 0..symbols {
        let from = *states.last().unwrap();
        let [i1, i2t, i3t] = [(); 3].map(|_| rng.below(2) as u32);
        let [w1, w2] = [(); 2].map(|_| rng.below(1 << on.u) as u32);
        all.extend([from & 1, i1, i2t, i3t, w1, w2]);
        states.push(next_state(from, i1, i2t));
    }
    (states, all)
}

/// A list one longer or one shorter.
fn off_by_one<T: Copy + Default>(list: &mut Vec<T>, rng: &mut Rng) {
    if rng.once_in(2) {
        list.push(list.last().copied().unwrap_or_default());
    } else {
        list.pop();
    }
}

const FORGED: [u64; 8] = [u64::MAX, u64::MAX - 1, u64::MAX - 524_288, 1 << 63, (1 << 63) - 1, 1 << 32, u32::MAX as u64, 0];

/// How many ways a card is damaged in; each is tried on each card.
const DAMAGES: u64 = 16;

fn damaged(whole: &Handed, way: u64, rng: &mut Rng) -> Handed {
    let mut h = whole.clone();
    let n = h.states.len() - 1;
    let number = rng.below(h.numbers.len() as u64) as usize;
    let part = rng.below(h.symbols.len() as u64) as usize;
    match way {
        // the numbers
        0 => h.numbers[number] += 1,
        1 => h.numbers[number] = h.numbers[number].saturating_sub(1 + rng.below(3)),
        2 => h.numbers[number] = if rng.once_in(3) { rng.next() } else { rng.pick(&FORGED) },
        3 => h.numbers[number..].fill(rng.pick(&FORGED)),
        4 => {
            let by = rng.below(3);
            h.numbers[number..].iter_mut().for_each(|k| *k = k.wrapping_sub(by));
        }
        5 => {
            // a row too low, all but the state that the sequence is in
            let (row, on_the_way) = (number / 16, h.states[number / 16] as usize);
            (0..16).filter(|&s| s != on_the_way).for_each(|s| h.numbers[16 * row + s] = h.numbers[16 * row + s].saturating_sub(rng.below(4)));
        }
        // the sequence
        6 => {
            let at = rng.below(n as u64 + 1) as usize;
            h.states[at] = rng.pick(&[h.states[at] ^ 1, h.states[at] ^ 8, h.states[at] + 16, u32::MAX]);
        }
        7 => h.symbols[part] = rng.pick(&[h.symbols[part] ^ 1, h.symbols[part].wrapping_sub(1), 2, u32::MAX]),
        8 => {
            // a number of another width
            let at = 6 * (part / 6) + 4 + part % 2;
            h.symbols[at] += rng.pick(&[1 << h.on.u, 1 << 8, 1 << 31]);
        }
        9 => (h.states, h.symbols) = wandered(h.on, n, rng),
        10 => {
            let at = 6 * (part / 6) + 4 + part % 2;
            h.symbols[at] = rng.below(1 << h.on.u) as u32;
        }
        // what was heard, and on which line
        11 => {
            let at = rng.below(4 * n as u64) as usize;
            let next = h.coordinates[at] + if rng.once_in(2) { 1 } else { -1 };
            h.coordinates[at] = rng.pick(&[next, next, 8193, -8193, i32::MAX, i32::MIN]);
        }
        12 => h.on.u = rng.pick(&[h.on.u + 1, h.on.u.wrapping_sub(1), 9, 10, 32, u32::MAX]),
        13 => h.on.map = rng.pick(&[1 - h.on.map, 2, u32::MAX]),
        // the lengths
        14 => match rng.below(4) {
            0 => off_by_one(&mut h.coordinates, rng),
            1 => off_by_one(&mut h.states, rng),
            2 => off_by_one(&mut h.symbols, rng),
            _ => off_by_one(&mut h.numbers, rng),
        },
        _ => match rng.below(6) {
            0 => h.coordinates.truncate(4 * n - 4),
            1 => h.states.truncate(n),
            2 => h.symbols.truncate(6 * n - 6),
            3 => h.numbers.truncate(16 * n),
            4 => (h.coordinates, h.states, h.symbols, h.numbers) = (vec![], vec![0], vec![], vec![0; 16]),
            _ => (h.coordinates, h.states, h.symbols, h.numbers) = (vec![], vec![], vec![], vec![]),
        },
    }
    h
}

// ---- the test

/// The library's verdict, which is the reference's, and is right by 02's words.
fn verdict(map: &Map, h: &Handed) -> Result<bool, String> {
    let number = ffi::check_card(h.on.map, h.on.u, &h.coordinates, &h.states, &h.symbols, &h.numbers);
    let expected = h.card().accepted(map, h.on);
    if number != expected as u32 {
        return Err(format!("a card: expected {}, the library gave {number}: {}\n{h:?}", expected as u32, h.line()));
    }
    if expected && h.card().sum(map, h.on) != Some(Decoded::new(map, h.on, &h.coordinates).least()) {
        return Err(format!("a card is accepted and not nearest: {}", h.line()));
    }
    Ok(expected)
}

/// A card of so many symbols, and its sums; ties fall anyhow.
fn whole(map: &Map, on: Line, symbols: usize, rng: &mut Rng) -> Handed {
    let coordinates = heard(map, on, symbols, rng);
    let decoded = Decoded::new(map, on, &coordinates);
    let (states, symbols) = decoded.nearest(rng);
    Handed { on, coordinates, states, symbols, numbers: decoded.rows.concat() }
}

/// The decoder's sums after each symbol of short lists are those of the definition.
fn check_sums(map: &Map, rng: &mut Rng) -> Result<(), String> {
    let sizes = [(ROUND, 0, 4), (ROUND, 1, 2), (ROUND, 2, 1), (SQUARE, 0, 3), (SQUARE, 2, 1)];
    for (on, symbols) in sizes.iter().flat_map(|&(map, u, n)| [(Line { map, u }, n); 6]) {
        let coordinates = heard(map, on, symbols, rng);
        let pairs: Vec<(Point, Point)> = coordinates.chunks(4).map(|c| ((c[0], c[1]), (c[2], c[3]))).collect();
        let rows = Decoded::new(map, on, &coordinates).rows;
        if let Some(k) = (0..=symbols).find(|&k| least_sums(map, on, &pairs[..k]) != rows[k]) {
            return Err(format!("{on:?}, heard {pairs:?}: other least sums than the definition's after {k} symbols"));
        }
    }
    Ok(())
}

/// Cards of 1 to 64 symbols on both maps and at every width, each whole and damaged in every way; some of 65, which are too long.
pub fn check(map: &Map, seed: u64) -> Result<Cards, String> {
    let mut rng = Rng::new(seed);
    check_sums(map, &mut rng)?;
    let mut seen = Cards { checked: 0, accepted: 0, damaged: 0 };
    for index in 0..1500 {
        let on = if index % 3 == 0 { Line { map: SQUARE, u: index / 3 % 5 * 2 } } else { Line::round(index / 3 % 9) };
        let symbols = match index % 50 {
            0 => 64,
            1 => 65,
            _ if rng.once_in(8) => 1 + rng.below(64) as usize,
            _ => 1 + rng.below(10) as usize,
        };
        let card = whole(map, on, symbols, &mut rng);
        if verdict(map, &card)? != (symbols <= 64) {
            return Err(format!("a whole card of {symbols} symbols got the wrong verdict: {}", card.line()));
        }
        seen.accepted += (symbols <= 64) as usize;
        for way in 0..DAMAGES {
            let accepted = verdict(map, &damaged(&card, way, &mut rng))?;
            seen.accepted += accepted as usize;
            seen.damaged += accepted as usize;
        }
        seen.checked += 1 + DAMAGES as usize;
    }
    if seen.damaged < 500 || seen.damaged > seen.checked / 2 {
        return Err(format!("of {} cards {} were accepted though damaged", seen.checked, seen.damaged));
    }
    Ok(seen)
}
