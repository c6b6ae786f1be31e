//! A quarter turn must not matter (02, Wish 10). Lines, some with missing points, go as they were heard and once more turned through two
//! receivers of the library with a free start, cut differently. Where no second symbol sequence is as near, the words after finish are held
//! to each other, whole on the round map and by bits 0 to 2 on the square one; how many nearest ones there are is found here.

use crate::ffi;
use crate::reference::*;
use crate::rng::Rng;

/// How many lines were compared, how many had several nearest symbol sequences, and of how many of these the words differed.
pub struct Turned {
    pub compared: usize,
    pub several: usize,
    pub differing: usize,
}

/// A symbol as it is handed over: its mark and its four coordinates.
type Heard = (u8, [i32; 4]);

/// The least sum into a state, and the nearest symbol sequences there, each as a number that stands for it. Two of them are enough to
/// know that there is more than one.
#[derive(Clone)]
struct Nearest {
    sum: u64,
    some: Vec<u64>,
}

impl Nearest {
    fn offer(&mut self, sum: u64, sequence: u64) {
        if sum < self.sum {
            *self = Nearest { sum, some: vec![] };
        }
        if sum == self.sum && self.some.len() < 2 && !self.some.contains(&sequence) {
            self.some.push(sequence);
        }
    }
}

/// A sequence and one symbol more.
fn longer(sequence: u64, labels: (u32, u32), w: (u32, u32)) -> u64 {
    let symbol = ((labels.0 * 4 + labels.1) << 16 | w.0 << 8 | w.1) as u64 + 1;
    Rng::new(sequence.wrapping_mul(0x1_0000_0001_b3) ^ symbol).next()
}

/// The least counted distance of a label's points, and up to two numbers that have it.
fn counted(map: &Map, on: Line, label: u32, received: Received) -> (u64, Vec<u32>) {
    let away = |w| received.map_or(0, |heard| distance(heard, map.point(on, label, w)).min(CAP));
    let least = (0..1 << on.u).map(away).min().unwrap();
    (least, (0..1 << on.u).filter(|&w| away(w) == least).take(2).collect())
}

/// Whether one symbol sequence alone has the least sum, with a free start.
fn is_alone(map: &Map, on: Line, line: &[Heard]) -> bool {
    let nothing = Nearest { sum: u64::MAX, some: vec![] };
    let mut best = vec![Nearest { sum: 0, some: vec![0] }; 16];
    for (mark, c) in line {
        let of = |k: usize| {
            let received = (mark >> k & 1 == 0).then_some((c[2 * k], c[2 * k + 1]));
            (0..4).map(|l| counted(map, on, l, received)).collect::<Vec<_>>()
        };
        let (first, second) = (of(0), of(1));
        let mut next = vec![nothing.clone(); 16];
        for (state, before) in best.iter().enumerate() {
            for (i1, turn) in (0..2).flat_map(|i1| (0..4).map(move |turn| (i1, turn))) {
                let pair = labels(turn, state as u32 & 1, i1);
                let ((a, w1s), (b, w2s)) = (&first[pair.0 as usize], &second[pair.1 as usize]);
                let into = &mut next[next_state(state as u32, i1, turn % 2) as usize];
                for &sequence in &before.some {
                    for (&w1, &w2) in w1s.iter().flat_map(|w1| w2s.iter().map(move |w2| (w1, w2))) {
                        into.offer(before.sum + a + b, longer(sequence, pair, (w1, w2)));
                    }
                }
            }
        }
        best = next;
    }
    let mut all = nothing;
    best.iter().for_each(|n| n.some.iter().for_each(|&s| all.offer(n.sum, s)));
    all.some.len() == 1
}

/// One symbol: points of the map with noise, places halfway between points, or anything. Now and then something of it is missing, at
/// width 0: where a label has more points a missing one leaves all of them equally near.
fn symbol_heard(map: &Map, on: Line, kind: u64, sender: &mut Sender, rng: &mut Rng) -> Heard {
    let word = rng.next() as u32 & ((1 << (3 + 2 * on.u)) - 1);
    let mut points = [0; 4];
    sender.send(map, word, &mut points);
    let coordinates = match kind {
        0 => points.map(|c| (128 * c + rng.noise(60.0)).clamp(-8192, 8192)),
        1 => points.map(|c| (128 * c + rng.noise(200.0)).clamp(-8192, 8192)),
        2 => points.map(|c| 128 * (c + if rng.once_in(12) { 1 } else { 0 })),
        _ => points.map(|_| rng.below(16385) as i32 - 8192),
    };
    (if on.u == 0 && rng.once_in(12) { rng.below(4) as u8 } else { 0 }, coordinates)
}

fn turned_by(turns: u64, (mark, c): Heard) -> Heard {
    (mark, (0..turns).fold(c, |c, _| [c[1], -c[0], c[3], -c[2]]))
}

/// What of a word no quarter turn changes: all of it on the round map, I1, I2 and I3 on the square one.
fn kept(on: Line, word: u32) -> u32 {
    if on.map == ROUND {
        word
    } else {
        word % 8
    }
}

/// What is kept of all words of a line, through the library, cut anyhow.
fn words_of(on: Line, line: &[Heard], rng: &mut Rng) -> Result<Vec<u32>, String> {
    let (mut state, mut words) = (vec![0; ffi::receiver_words()], vec![]);
    let (mut out, mut told) = ([0; 128], [0; 3]);
    let mut given = vec![ffi::receiver_open_map(&mut state, on.map, on.u, 64, FREE)];
    let mut left = line;
    while !left.is_empty() {
        let (piece, later) = left.split_at(1 + rng.below(left.len() as u64) as usize);
        let (marks, coordinates): (Vec<u8>, Vec<[i32; 4]>) = piece.iter().copied().unzip();
        given.push(ffi::hear_marked(&mut state, &coordinates.concat(), &marks, &mut out, &mut told));
        words.extend_from_slice(&out[..told[1] as usize]);
        left = later;
    }
    given.push(ffi::finish(&mut state, &mut out, &mut told));
    words.extend_from_slice(&out[..told[1] as usize]);
    if given.iter().any(|&n| n != 0) || words.len() != line.len() {
        return Err(format!("{on:?}, line {line:?}: numbers {given:?}, {} words", words.len()));
    }
    Ok(words.into_iter().map(|word| kept(on, word)).collect())
}

/// Lines of up to 64 symbols, so that a window of 64 refuses none; every third is on the square map.
pub fn check(map: &Map, seed: u64) -> Result<Turned, String> {
    let mut rng = Rng::new(seed);
    let mut seen = Turned { compared: 0, several: 0, differing: 0 };
    for index in 0..3000 {
        let on = if index % 3 == 0 { Line { map: SQUARE, u: index / 3 % 5 * 2 } } else { Line::round(index / 3 % 9) };
        let (kind, turns) = (rng.below(4), 1 + rng.below(3));
        let mut sender = Sender::open(on).1;
        let most = if rng.once_in(4) { 64 } else { 12 };
        let length = 1 + rng.below(most);
        let line: Vec<Heard> = (0..length).map(|_| symbol_heard(map, on, kind, &mut sender, &mut rng)).collect();
        let other: Vec<Heard> = line.iter().map(|&h| turned_by(turns, h)).collect();
        let (words, after) = (words_of(on, &line, &mut rng)?, words_of(on, &other, &mut rng)?);
        if is_alone(map, on, &line) {
            seen.compared += 1;
            if words != after {
                return Err(format!(
                    "{on:?}, {turns} quarter turns, line {line:?}: words {words:?}, turned {after:?}"
                ));
            }
        } else {
            seen.several += 1;
            seen.differing += (words != after) as usize;
        }
    }
    if seen.compared < 300 || seen.differing < 30 {
        return Err(format!("only {} turned lines compared, {} differing", seen.compared, seen.differing));
    }
    Ok(seen)
}
