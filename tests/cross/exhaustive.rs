//! The scope's answer and release by their definition: every allowed sequence is listed and the order of ties is applied
//! as it is worded. It serves to check the reference on short lists, and leans on it for the code's rules alone.

use crate::reference::*;
use crate::rng::Rng;

/// In one symbol I3', then for each point its true distance and its number.
type Ties = (u32, (u64, u32), (u64, u32));

/// An allowed sequence. The key is the order of 02, Wish 8: the sum of counted distances, the states from the last back to the
/// first, then the ties of each symbol.
#[derive(Clone)]
struct Sequence {
    sum: u64,
    states: Vec<u32>,
    symbols: Vec<Symbol>,
    ties: Vec<Ties>,
}

impl Sequence {
    fn key(&self) -> (u64, Vec<u32>, &[Ties]) {
        let back = self.states.iter().rev().copied().collect();
        (self.sum, back, &self.ties)
    }

    fn is_before(&self, other: &Sequence) -> bool {
        self.sum < other.sum || (self.sum == other.sum && self.key() < other.key())
    }

    fn last(&self) -> u32 {
        *self.states.last().unwrap()
    }
}

fn offer(place: &mut Option<Sequence>, s: &Sequence) {
    if place.as_ref().is_none_or(|best| s.is_before(best)) {
        *place = Some(s.clone());
    }
}

/// Goes through every allowed continuation of `so_far` and offers each whole sequence to the state it ends in.
fn list_all(map: &Map, line: Line, heard: &[(Received, Received)], so_far: &mut Sequence, best: &mut [Option<Sequence>]) {
    let Some(&y) = heard.get(so_far.symbols.len()) else {
        return offer(&mut best[so_far.last() as usize], so_far);
    };
    let (from, sum, u) = (so_far.last(), so_far.sum, line.u);
    for parts in 0..1u32 << (3 + 2 * u) {
        let low = (1 << u) - 1;
        let (i1, turn) = (parts & 1, parts >> 1 & 3);
        let s = symbol(map, line, from & 1, i1, turn, parts >> 3 & low, parts >> (3 + u) & low);
        so_far.symbols.push(s);
        so_far.states.push(next_state(from, i1, turn % 2));
        let away = |received: Received, p: Point| received.map_or(0, |heard| distance(heard, p));
        let (d1, d2) = (away(y.0, s.points.0), away(y.1, s.points.1));
        so_far.ties.push((turn >> 1, (d1, s.w1), (d2, s.w2)));
        so_far.sum = sum + d1.min(CAP) + d2.min(CAP);
        list_all(map, line, heard, so_far, best);
        so_far.ties.pop();
        so_far.symbols.pop();
        so_far.states.pop();
        so_far.sum = sum;
    }
}

/// The words of a sequence. Before the first symbol of a free start no turn is known (02, Wish 5).
fn words(u: u32, start: u32, symbols: &[Symbol]) -> Vec<u32> {
    let first = if start == FREE { None } else { Some(0) };
    let before = std::iter::once(first).chain(symbols.iter().map(|s| Some(s.turn)));
    symbols.iter().zip(before).map(|(s, b)| word_of(u, b, s)).collect()
}

/// For each state the first of all allowed sequences into it.
fn bests(map: &Map, line: Line, start: u32, heard: &[(Received, Received)]) -> Vec<Option<Sequence>> {
    let mut best: Vec<Option<Sequence>> = vec![None; 16];
    for s in (0..16).filter(|&s| start == FREE || start == s) {
        let mut none = Sequence { sum: 0, states: vec![s], symbols: vec![], ties: vec![] };
        list_all(map, line, heard, &mut none, &mut best);
    }
    best
}

/// The least sums into the sixteen states, with a free start.
pub fn least_sums(map: &Map, line: Line, heard: &[(Point, Point)]) -> Vec<u64> {
    let heard: Vec<(Received, Received)> = heard.iter().map(|&(a, b)| (Some(a), Some(b))).collect();
    bests(map, line, FREE, &heard).iter().flatten().map(|s| s.sum).collect()
}

/// What is owed for a list: the words of the longest common beginning, and the words of the answer.
fn owed(map: &Map, line: Line, start: u32, heard: &[(Received, Received)]) -> (Vec<u32>, Vec<u32>) {
    let best = bests(map, line, start, heard);
    let live: Vec<&Sequence> = best.iter().flatten().collect();
    let mut answer = None;
    live.iter().for_each(|s| offer(&mut answer, s));
    let same = |k: &usize| live.iter().all(|s| s.symbols[*k].points == live[0].symbols[*k].points);
    let common = (0..heard.len()).take_while(same).count();
    (words(line.u, start, &live[0].symbols[..common]), words(line.u, start, &answer.unwrap().symbols))
}

/// One received coordinate: small whole points, midpoints (ties), the ends of the range, where distances pass the cap, or
/// anything.
fn coordinate(rng: &mut Rng) -> i32 {
    match rng.below(6) {
        0 => 0,
        1 => 128 * (rng.below(9) as i32 - 4),
        2 => [-8192, 8192, -8191, 8191][rng.below(4) as usize],
        3 => rng.below(16385) as i32 - 8192,
        4 => (rng.below(2) as i32 * 2 - 1) * (384 + rng.below(1400) as i32),
        _ => 256 * (rng.below(5) as i32 - 2) + 128 + rng.below(61) as i32 - 30,
    }
}

/// Compares the reference with the definition after every symbol of short lists. Gives the number of lists.
pub fn check(map: &Map, seed: u64) -> Result<usize, String> {
    let mut rng = Rng::new(seed);
    // map, width, longest list with a free start, with a named start, lists
    let sizes = [
        (ROUND, 0, 4, 5, 200),
        (ROUND, 0, 5, 6, 20),
        (ROUND, 1, 2, 3, 60),
        (ROUND, 2, 1, 2, 30),
        (ROUND, 3, 1, 1, 20),
        (SQUARE, 0, 4, 5, 60),
        (SQUARE, 2, 1, 2, 60),
    ];
    let mut lists = 0;
    for (map_number, u, free, named, times) in sizes {
        let line = Line { map: map_number, u };
        for _ in 0..times {
            let start = if rng.below(2) == 0 { FREE } else { rng.below(16) as u32 };
            let length = if start == FREE { free } else { named };
            let (_, mut receiver) = Receiver::open(line, 64, start);
            let (mut heard, mut spoken) = (vec![], vec![]);
            for k in 1..=length {
                let c: Vec<i32> = (0..4).map(|_| coordinate(&mut rng)).collect();
                // "A missing point adds 0 to every distance" (02, Wish 4)
                let mark = if rng.below(3) == 0 { rng.below(4) as u8 } else { 0 };
                let received = |point: usize| (mark >> point & 1 == 0).then_some((c[2 * point], c[2 * point + 1]));
                heard.push((received(0), received(1)));
                let mut out = [0; 64];
                let answer = receiver.hear_marked(map, &c, &[mark], &mut out);
                spoken.extend_from_slice(&out[..answer.written as usize]);
                let mut rest = [0; 64];
                let last = receiver.clone().finish(&mut rest);
                let all: Vec<u32> = spoken.iter().chain(&rest[..last.written as usize]).copied().collect();
                let (common, answer_words) = owed(map, line, start, &heard);
                if (&spoken, &all) != (&common, &answer_words) {
                    return Err(format!(
                        "{line:?}, start {start}, heard {heard:?}: after {k} symbols the reference spoke {spoken:?} of {all:?}, \
                         the definition owes {common:?} of {answer_words:?}"
                    ));
                }
            }
            lists += 1;
        }
    }
    Ok(lists)
}
