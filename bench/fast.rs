//! The receiver written for speed in safe Rust, with exact release.
//!
//! `Receiver` is generic over how the nearest points are searched and how the undecided symbols are remembered, so that
//! the table of `bench/run` can tell what each costs. It is no oracle: `tests/cross` holds it to the clear reference.
//!
//! - `Keyed`: every point of every label is tried; the square multiplied out, distance and number in one key, the two dot
//!   products of a point shared by its four turns; the compiler turns this loop into vector code. `Columns` (`columns.rs`): the
//!   library's search on the round map. `Grid`: the square map, each axis rounded and clamped alone.
//! - In both memories each state keeps the subsets of its own undecided symbols as bits, moved on with the state.
//!   `Registers`: three words a state, three bits a symbol. Only the words that hold undecided symbols are moved: one for
//!   up to 21. Of each symbol it keeps only what its word is put together from once it is released.
//!   `Planes`: four words a state, which move in pairs, one bit of a symbol in each of three. Of each symbol it keeps
//!   the words of all eight subsets, ready.

/// The first 256 A points, 1 modulo 4 in both coordinates, by x² + y², equal sums by falling y.
#[allow(long_running_const_eval)]
pub const A_POINTS: [(i32, i32); 256] = {
    let mut table = [(0, 0); 256];
    let (mut found, mut sum) = (0, 2);
    while found < 256 {
        let mut y = 37;
        while y >= -39 {
            let mut x = -39;
            while x <= 37 {
                if x * x + y * y == sum && found < 256 {
                    table[found] = (x, y);
                    found += 1;
                }
                x += 4;
            }
            y -= 4;
        }
        sum += 8;
    }
    table
};

/// Of the nearest point of each label what its squared distance counts for, and its number.
pub type Near = [(u32, u32); 4];

/// The most that the distance of one point counts for in a sum.
pub const CAP: u32 = 262_144;

pub trait Search {
    fn nearest(points: usize, x: i32, y: i32) -> Near;
}

/// A heard point turned back so that label l is searched among the A points.
pub fn turned_back(x: i32, y: i32) -> [(i32, i32); 4] {
    [(x, y), (-y, x), (-x, -y), (y, -x)]
}

pub struct Keyed;

/// 256·x, 256·y and 16384·(x² + y²) + w of each A point. With r heard, |128·p - r|² is |r|² + 16384·|p|² - 256·p·r.
struct Keys {
    x: [i32; 256],
    y: [i32; 256],
    norm: [i32; 256],
}

static KEYS: Keys = {
    let mut keys = Keys { x: [0; 256], y: [0; 256], norm: [0; 256] };
    let mut w = 0;
    while w < 256 {
        let (x, y) = A_POINTS[w];
        keys.x[w] = 256 * x;
        keys.y[w] = 256 * y;
        keys.norm[w] = 16384 * (x * x + y * y) + w as i32;
        w += 1;
    }
    keys
};

impl Search for Keyed {
    #[inline(always)]
    fn nearest(points: usize, x: i32, y: i32) -> Near {
        let mut least = [i32::MAX; 4];
        let (px, py, norm) = (&KEYS.x[..points], &KEYS.y[..points], &KEYS.norm[..points]);
        for w in 0..points {
            let along = px[w] * x + py[w] * y;
            let across = py[w] * x - px[w] * y;
            least[0] = least[0].min(norm[w] - along);
            least[1] = least[1].min(norm[w] - across);
            least[2] = least[2].min(norm[w] + along);
            least[3] = least[3].min(norm[w] + across);
        }
        let heard = x * x + y * y;
        least.map(|key| (((heard + (key & !255)) as u32).min(CAP), key as u32 & 255))
    }
}

/// The square map, each axis alone. On an axis a label's points stand at 128·(4j + 2e + 1), e the label's bit there and j a signed
/// number of m bits, for m = 0 that of e; the bits of j go into the number. Of two equally near the smaller bits win: -1 loses to 0.
pub struct Grid;

#[inline(always)]
fn axis(m: u32, e: i32, r: i32) -> (u32, u32) {
    let from = r - 128 * (2 * e + 1);
    let (least, most) = if m == 0 { (-e, -e) } else { (-(1 << (m - 1)), (1 << (m - 1)) - 1) };
    let down = (from + 255) >> 9;
    let j = if from == -256 { 0 } else { down }.clamp(least, most);
    let away = from - 512 * j;
    ((away * away) as u32, j as u32 & ((1 << m) - 1))
}

/// The bits of k moved two places apart.
#[inline(always)]
fn apart(k: u32) -> u32 {
    (0..4).fold(0, |w, n| w | (k >> n & 1) << (2 * n))
}

impl Search for Grid {
    #[inline(always)]
    fn nearest(points: usize, x: i32, y: i32) -> Near {
        let m = points.trailing_zeros() / 2;
        let (xs, ys) = ([axis(m, 0, x), axis(m, 1, x)], [axis(m, 0, y), axis(m, 1, y)]);
        let at = |a: usize, b: usize| {
            let ((dx, jx), (dy, jy)) = (xs[a], ys[b]);
            ((dx + dy).min(CAP), apart(jx) << 1 | apart(jy))
        };
        [at(0, 0), at(0, 1), at(1, 1), at(1, 0)]
    }
}

/// For each subset its least sum of counted distances and I3' of its best symbol; for each label the number of the nearest
/// first point, then for each label that of the second.
pub struct Choices {
    costs: [u32; 8],
    i3: [bool; 8],
    numbers: [u8; 8],
}

/// The labels of the two points of a subset's symbol. The first is the turn.
#[inline(always)]
fn labels(subset: usize, i3: bool) -> (usize, usize) {
    let (y0, i1, i2t) = (subset >> 2, subset >> 1 & 1, subset & 1);
    let turn = 2 * i3 as usize + i2t;
    (turn, (turn + y0 + 2 * i1) % 4)
}

/// The word of a subset's symbol, with the turn itself at bits 1, 2.
#[inline(always)]
fn word(u: u32, subset: usize, i3: bool, number: impl Fn(usize) -> u32) -> u32 {
    let (first, second) = labels(subset, i3);
    (subset >> 1 & 1 | first << 1) as u32 | number(first) << 3 | number(4 + second) << (3 + u)
}

/// The nearest points to a received point: a missing one is at distance 0 from all.
#[inline(always)]
fn near<S: Search>(points: usize, missing: bool, x: i32, y: i32) -> Near {
    if missing {
        [(0, 0); 4]
    } else {
        S::nearest(points, x, y)
    }
}

#[inline(always)]
fn choices<S: Search>(u: u32, mark: u8, c: &[i32]) -> Choices {
    let near = [near::<S>(1 << u, mark & 1 != 0, c[0], c[1]), near::<S>(1 << u, mark & 2 != 0, c[2], c[3])];
    let numbers = std::array::from_fn(|n| near[n / 4][n % 4].1 as u8);
    let mut best = Choices { costs: [0; 8], i3: [false; 8], numbers };
    for subset in 0..8 {
        let cost = |i3: bool| {
            let (first, second) = labels(subset, i3);
            near[0][first].0 + near[1][second].0
        };
        let (zero, one) = (cost(false), cost(true));
        (best.costs[subset], best.i3[subset]) = if one < zero { (one, true) } else { (zero, false) };
    }
    best
}

/// The states before state s are 4k + s / 4 for k 0 to 3. The subset on the way from the k-th of them.
#[inline(always)]
const fn subset_of(s: usize, k: usize) -> usize {
    let (group, swapped) = (s >> 2, (s & 1) << 1 | s >> 1 & 1);
    (group & 1) << 2 | (swapped ^ k ^ group & 2)
}

/// Sums of states that cannot be reached: more than any sum of two symbols, after which every state is reached.
const UNREACHED: u32 = 1 << 26;

/// Into each state of group G: the least sum, and which k it came from (ties to the smaller k). Sums are held times four,
/// so that k stands in the two low bits while they are compared.
#[inline(always)]
fn select_group<const G: usize>(sums: &[u32; 16], costs: &[u32; 8], new: &mut [u32; 16], from: &mut [u8; 16]) {
    let before = [sums[G], sums[4 + G] + 1, sums[8 + G] + 2, sums[12 + G] + 3];
    for s in 4 * G..4 * G + 4 {
        let way = |k: usize| before[k] + 4 * costs[subset_of(s, k)];
        let least = way(0).min(way(1)).min(way(2).min(way(3)));
        new[s] = least & !3;
        from[s] = (least & 3) as u8;
    }
}

/// The new sums less the least of them, so that they fit 32 bits for good.
#[inline(always)]
fn select(sums: &[u32; 16], costs: &[u32; 8]) -> ([u32; 16], [u8; 16]) {
    let (mut new, mut from) = ([0; 16], [0; 16]);
    select_group::<0>(sums, costs, &mut new, &mut from);
    select_group::<1>(sums, costs, &mut new, &mut from);
    select_group::<2>(sums, costs, &mut new, &mut from);
    select_group::<3>(sums, costs, &mut new, &mut from);
    let low = new.iter().fold(new[0], |low, &sum| low.min(sum));
    (new.map(|sum| sum - low), from)
}

/// What is remembered of the undecided symbols: their subsets on the best way to each state, and the best of each subset.
pub trait Memory: Copy {
    /// What is kept of one symbol's choices.
    type Pick;
    /// A step into all states, not yet stored: the symbol may be refused.
    type Step;
    fn new() -> Self;
    fn pick(u: u32, choices: &Choices) -> Self::Pick;
    fn step(&self, from: [u8; 16]) -> Self::Step;
    /// How many of the oldest `pending` symbols all states agree on once this is the newest step.
    fn agreed(&self, step: &Self::Step, pending: usize) -> usize;
    /// Keeps a step that comes after `pending` undecided symbols; what is picked goes to `slot`.
    fn keep(&mut self, step: &Self::Step, pick: &Self::Pick, slot: usize, pending: usize);
    /// The word of the symbol `age` before the newest, kept in `slot`, on the way to `state`. The turn itself is at bits 1, 2.
    fn word(&self, u: u32, state: usize, slot: usize, age: usize) -> u32;
}

#[derive(Clone, Copy)]
pub struct Registers {
    /// State s has 192 bits, in `words[b][s]` for b 0 to 2. Bits 3n to 3n + 2 are the subset of the symbol n before the
    /// newest, on the best way to s. A word that holds no undecided symbol is neither moved nor read.
    pub words: [[u64; 16]; 3],
    /// Bit n of a subset's register is I3' of its best symbol, for the symbol n before the newest.
    pub i3: [u64; 8],
    /// The numbers of each symbol's choices, a byte to each.
    pub numbers: [u64; 64],
}

/// For each state the k of the state that it came from, and word 0 of that state.
pub struct Before {
    from: [u8; 16],
    ways: [u64; 16],
}

/// For each state the word of the state that it came from.
#[inline(always)]
fn words_before(words: &[u64; 16], from: &[u8; 16]) -> [u64; 16] {
    std::array::from_fn(|s| words[4 * (from[s] as usize & 3) + (s >> 2)])
}

/// The highest of the lowest n bits in which the words differ.
#[inline(always)]
fn highest_apart(words: &[u64; 16], n: usize) -> Option<u32> {
    let apart = words.iter().fold(0, |bits, word| bits | (word ^ words[0]));
    let lowest = if n < 64 { (1 << n) - 1 } else { u64::MAX };
    (apart & lowest).checked_ilog2()
}

impl Memory for Registers {
    type Pick = ([bool; 8], u64);
    type Step = Before;

    fn new() -> Registers {
        Registers { words: [[0; 16]; 3], i3: [0; 8], numbers: [0; 64] }
    }

    #[inline(always)]
    fn pick(_u: u32, choices: &Choices) -> Self::Pick {
        (choices.i3, u64::from_le_bytes(choices.numbers))
    }

    #[inline(always)]
    fn step(&self, from: [u8; 16]) -> Before {
        Before { from, ways: words_before(&self.words[0], &from) }
    }

    #[inline(always)]
    fn agreed(&self, before: &Before, pending: usize) -> usize {
        let n = 3 * pending;
        for b in [2, 1] {
            if n > 64 * b {
                let ways = words_before(&self.words[b], &before.from);
                if let Some(bit) = highest_apart(&ways, n - 64 * b) {
                    return pending - (64 * b + bit as usize) / 3 - 1;
                }
            }
        }
        highest_apart(&before.ways, n).map_or(pending, |bit| pending - bit as usize / 3 - 1)
    }

    #[inline(always)]
    fn keep(&mut self, before: &Before, (i3, numbers): &Self::Pick, slot: usize, pending: usize) {
        let Before { from, ways } = before;
        let n = pending + 1;
        if n > 21 {
            let middle = words_before(&self.words[1], from);
            if n > 42 {
                let high = words_before(&self.words[2], from);
                self.words[2] = std::array::from_fn(|s| high[s] << 3 | middle[s] >> 61);
            }
            self.words[1] = std::array::from_fn(|s| middle[s] << 3 | ways[s] >> 61);
        }
        self.words[0] = std::array::from_fn(|s| ways[s] << 3 | subset_of(s, from[s] as usize) as u64);
        for subset in 0..8 {
            self.i3[subset] = self.i3[subset] << 1 | i3[subset] as u64;
        }
        self.numbers[slot] = *numbers;
    }

    #[inline(always)]
    fn word(&self, u: u32, state: usize, slot: usize, age: usize) -> u32 {
        let bit = |n: usize| (self.words[n / 64][state] >> (n % 64)) as usize & 1;
        let subset = bit(3 * age + 2) << 2 | bit(3 * age + 1) << 1 | bit(3 * age);
        let (i3, numbers) = (self.i3[subset] >> age & 1, self.numbers[slot]);
        word(u, subset, i3 == 1, |n| (numbers >> (8 * n)) as u32 & 255)
    }
}

/// The bits of the subset on the way to s from the k-th, one to a word.
static NEWEST: [[[u64; 4]; 4]; 16] = {
    let mut table = [[[0; 4]; 4]; 16];
    let mut n = 0;
    while n < 64 {
        let (s, k) = (n / 4, n % 4);
        let subset = subset_of(s, k) as u64;
        table[s][k] = [subset & 1, subset >> 1 & 1, subset >> 2, 0];
        n += 1;
    }
    table
};

/// The subset of the symbol `age` before the newest, from the words of its three bits.
#[inline(always)]
fn subset_at(low: u64, middle: u64, high: u64, age: usize) -> usize {
    ((high >> age & 1) << 2 | (middle >> age & 1) << 1 | low >> age & 1) as usize
}

#[derive(Clone, Copy)]
pub struct Planes {
    /// Bit n of plane b of state s is bit b of the subset of the symbol n before the newest, on the best way to s. A state
    /// has four planes, so that they move in pairs; the last stays empty.
    pub bits: [[u64; 4]; 16],
    /// The word of each subset's best symbol, for each symbol.
    pub words: [[u32; 8]; 64],
}

impl Memory for Planes {
    type Pick = [u32; 8];
    type Step = [u8; 16];

    fn new() -> Planes {
        Planes { bits: [[0; 4]; 16], words: [[0; 8]; 64] }
    }

    #[inline(always)]
    fn pick(u: u32, choices: &Choices) -> Self::Pick {
        std::array::from_fn(|subset| {
            // both are put together and one is taken, so that no number is looked up
            let of_type = |i3| word(u, subset, i3, |n| choices.numbers[n] as u32);
            let (zero, one) = (of_type(false), of_type(true));
            if choices.i3[subset] {
                one
            } else {
                zero
            }
        })
    }

    #[inline(always)]
    fn step(&self, from: [u8; 16]) -> [u8; 16] {
        from
    }

    #[inline(always)]
    fn agreed(&self, from: &[u8; 16], pending: usize) -> usize {
        let first = self.bits[4 * (from[0] as usize & 3)];
        let mut differ = [0; 4];
        for s in 1..16 {
            let other = &self.bits[4 * (from[s] as usize & 3) + (s >> 2)];
            for b in 0..4 {
                differ[b] |= other[b] ^ first[b];
            }
        }
        let differ: u64 = differ[0] | differ[1] | differ[2];
        pending - (64 - differ.leading_zeros() as usize).min(pending)
    }

    #[inline(always)]
    fn keep(&mut self, from: &[u8; 16], words: &[u32; 8], slot: usize, _pending: usize) {
        let old = self.bits;
        for s in 0..16 {
            let k = from[s] as usize & 3;
            let (way, newest) = (&old[4 * k + (s >> 2)], &NEWEST[s][k]);
            for b in 0..4 {
                self.bits[s][b] = way[b] << 1 | newest[b];
            }
        }
        self.words[slot] = *words;
    }

    #[inline(always)]
    fn word(&self, _u: u32, state: usize, slot: usize, age: usize) -> u32 {
        let [low, middle, high, _] = self.bits[state];
        self.words[slot][subset_at(low, middle, high, age)]
    }
}

#[derive(Clone, Copy, Debug, PartialEq, Eq)]
pub struct Answer {
    pub number: u32,
    pub taken: u64,
    pub written: u64,
    pub place: u64,
}

#[derive(Clone, Copy)]
pub struct Receiver<S, M> {
    pub open: bool,
    pub u: u32,
    pub window: u32,
    pub turn: u32,
    /// The ring slot of the next symbol, and how many symbols are undecided.
    pub slot: usize,
    pub pending: usize,
    pub sums: [u32; 16],
    pub memory: M,
    search: std::marker::PhantomData<S>,
}

pub fn refused(number: u32) -> Answer {
    Answer { number, taken: 0, written: 0, place: 0 }
}

impl<S: Search, M: Memory> Receiver<S, M> {
    pub fn closed() -> Self {
        Receiver {
            open: false,
            u: 0,
            window: 0,
            turn: 0,
            slot: 0,
            pending: 0,
            sums: [0; 16],
            memory: M::new(),
            search: std::marker::PhantomData,
        }
    }

    pub fn open(u: u32, window: u32, start: u32) -> (u32, Self) {
        let mut r = Self::closed();
        if u > 8 {
            return (1, r);
        }
        if window == 0 || window > 64 {
            return (2, r);
        }
        if start > 16 {
            return (3, r);
        }
        r.open = true;
        r.u = u;
        r.window = window;
        // 4 stands for a turn that is not known: before the first word of a free start
        r.turn = if start < 16 { 0 } else { 4 };
        if start < 16 {
            r.sums = [UNREACHED; 16];
            r.sums[start as usize] = 0;
        }
        (0, r)
    }

    /// Writes the words of the oldest `count` undecided symbols on the way to `state`.
    #[inline(always)]
    fn speak(&mut self, state: usize, count: usize, out: &mut [u32]) {
        for n in 0..count {
            let oldest = (self.slot + 64 - self.pending + n) & 63;
            let word = self.memory.word(self.u, state, oldest, self.pending - 1 - n);
            let turn = word >> 1 & 3;
            let turned_by = if self.turn == 4 { 0 } else { (turn + 4 - self.turn) & 3 };
            out[n] = word & !6 | turned_by << 1;
            self.turn = turn;
        }
    }

    /// Bit 0 of the mark says that the first point is missing, bit 1 that the second is.
    #[inline(always)]
    fn hear_one(&mut self, mark: u8, c: &[i32], out: &mut [u32]) -> Result<usize, (u32, u64)> {
        let bad = |c: i32| c.wrapping_add(8192) as u32 > 16384;
        let at_fault = |n: usize| mark >> (n / 2) & 1 == 0 && bad(c[n]);
        if at_fault(0) | at_fault(1) | at_fault(2) | at_fault(3) {
            return Err((5, (0..4).position(at_fault).unwrap_or(0) as u64));
        }
        let choices = choices::<S>(self.u, mark, c);
        // before the select, while what was compared is still at hand
        let pick = M::pick(self.u, &choices);
        let (sums, from) = select(&self.sums, &choices.costs);
        let step = self.memory.step(from);
        // From a named start four states are reached after one symbol and all after two. The first symbol releases nothing
        // whatever is reached, so every state may be taken for live here.
        let agreed = self.memory.agreed(&step, self.pending);
        if self.pending + 1 - agreed > self.window as usize {
            return Err((6, 0));
        }
        if out.len() < agreed {
            return Err((8, 0));
        }
        if agreed > 0 {
            self.speak(4 * from[0] as usize, agreed, out);
        }
        self.memory.keep(&step, &pick, self.slot, self.pending);
        self.sums = sums;
        self.slot = (self.slot + 1) & 63;
        self.pending = self.pending + 1 - agreed;
        Ok(agreed)
    }

    /// The symbols of a piece, with the mark of each.
    #[inline(always)]
    fn hear_all(&mut self, piece: &[i32], mark: impl Fn(usize) -> u8, out: &mut [u32]) -> Answer {
        let mut answer = refused(0);
        for (n, c) in piece.chunks_exact(4).enumerate() {
            match self.hear_one(mark(n), c, &mut out[answer.written as usize..]) {
                Ok(words) => {
                    answer.taken += 1;
                    answer.written += words as u64;
                }
                Err((number, place)) => return Answer { number, place, ..answer },
            }
        }
        answer
    }

    #[inline(never)]
    pub fn hear(&mut self, piece: &[i32], out: &mut [u32]) -> Answer {
        if !self.open {
            return refused(9);
        }
        if piece.len() % 4 != 0 {
            return refused(10);
        }
        self.hear_all(piece, |_| 0, out)
    }

    #[inline(never)]
    pub fn hear_marked(&mut self, piece: &[i32], marks: &[u8], out: &mut [u32]) -> Answer {
        if !self.open {
            return refused(9);
        }
        if piece.len() != 4 * marks.len() || marks.iter().any(|&m| m > 3) {
            return refused(10);
        }
        self.hear_all(piece, |n| marks[n], out)
    }

    #[inline(never)]
    pub fn finish(&mut self, out: &mut [u32]) -> Answer {
        if !self.open {
            return refused(9);
        }
        if out.len() < self.pending {
            return refused(8);
        }
        let written = self.pending as u64;
        let best = (0..16).min_by_key(|&s| self.sums[s]).unwrap_or(0);
        self.speak(best, self.pending, out);
        self.open = false;
        self.pending = 0;
        Answer { number: 0, taken: 0, written, place: 0 }
    }
}
