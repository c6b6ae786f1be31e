//! What the runs are made of: openings over all widths, windows and starts; lines that are clean, noisy, damaged, tied on
//! purpose or at the ends of the range; pieces and outputs of every length; and the calls that a careless caller makes.

use crate::machine::*;
use crate::reference::*;
use crate::rng::Rng;

/// Openings in one session, and how many sessions go once through every width, window and start. Where both maps have the width, either
/// is opened.
pub const OPENINGS: u64 = 17;
pub const ALL: u64 = 9 * 64;

/// Where the received symbols of a line come from.
#[derive(Clone, Copy)]
enum Source {
    /// Sent words with noise of this deviation.
    Sent(f64),
    /// The same with bursts in which nothing of the sent symbol is left.
    Bursts(f64),
    /// The same with sparks: now and then a single point is anywhere, most often beyond the cap.
    Sparks(f64),
    /// Halfway between points, and on them: many sums are equal.
    Ties,
    /// One symbol again and again.
    Same([i32; 4]),
    /// The ends of the range and their neighbours.
    Ends,
    Anything,
    /// Another one of the above for each symbol.
    Mixed,
}

pub struct Session<'m> {
    map: &'m Map,
    rng: Rng,
    pub machine: Machine<'m>,
    /// All steps so far, to be run again or pasted.
    pub log: Vec<Step>,
    /// How often each number was given.
    pub numbers: [u64; 11],
}

pub struct Failure {
    pub log: Vec<Step>,
    pub what: String,
}

const FORGED: [i32; 12] =
    [8193, -8193, 8194, 16384, -16384, 65536, -65536, 1 << 24, i32::MAX, i32::MIN, i32::MIN + 8192, i32::MAX - 8191];

const BAD_WIDTHS: [u32; 6] = [9, 10, 16, 255, 256, u32::MAX];
/// Maps of refused openings: the two, and numbers that are no map's.
const MAPS: [u32; 6] = [ROUND, ROUND, SQUARE, SQUARE, 2, u32::MAX];
const BAD_WINDOWS: [u32; 6] = [0, 65, 66, 128, 256, u32::MAX];
const BAD_STARTS: [u32; 6] = [17, 18, 31, 32, 256, u32::MAX];

impl<'m> Session<'m> {
    /// The steps of session `index`, run as they are made.
    pub fn run(map: &'m Map, seed: u64, index: u64) -> Result<Session<'m>, Failure> {
        let fresh = Machine::new(map).map_err(|what| Failure { log: vec![], what })?;
        let rng = Rng::new(Rng::new(seed ^ index.wrapping_mul(0x9e37_79b9)).next());
        let mut session = Session { map, rng, machine: fresh, log: vec![], numbers: [0; 11] };
        match session.all(index) {
            Ok(()) => Ok(session),
            Err(what) => Err(Failure { log: session.log, what }),
        }
    }

    fn step(&mut self, step: Step) -> Result<Given, String> {
        self.log.push(step);
        let given = self.machine.step(&self.log[self.log.len() - 1])?;
        self.numbers[given.number as usize] += 1;
        Ok(given)
    }

    fn all(&mut self, index: u64) -> Result<(), String> {
        for start in 0..OPENINGS {
            let (u, window) = (index % 9, 1 + index / 9 % 64);
            if self.rng.once_in(6) {
                self.refused_openings()?;
            }
            let square = u % 2 == 0 && self.rng.once_in(2);
            let line = Line { map: if square { SQUARE } else { ROUND }, u: u as u32 };
            self.line(line, window as u32, start as u32)?;
        }
        Ok(())
    }

    /// Openings that must be refused, over closed ends and over open ones, and calls on the closed ends that they leave.
    fn refused_openings(&mut self) -> Result<(), String> {
        if self.rng.once_in(2) {
            let line = Line::round(self.rng.below(9) as u32);
            self.step(Step::Plain { line })?;
            self.step(Step::Sender { line })?;
            self.step(Step::Piece { room: 64, coordinates: vec![128; 12], marks: None })?;
        }
        let r = &mut self.rng;
        let u = if r.once_in(2) { r.pick(&BAD_WIDTHS) } else { r.below(9) as u32 };
        let window = if r.once_in(2) { r.pick(&BAD_WINDOWS) } else { 1 + r.below(64) as u32 };
        let start = if r.once_in(2) { r.pick(&BAD_STARTS) } else { r.below(17) as u32 };
        let line = Line { map: r.pick(&MAPS), u };
        let odd = Line { map: SQUARE, u: 1 + 2 * r.below(4) as u32 };
        let wide = Line { map: r.pick(&MAPS), u: r.pick(&BAD_WIDTHS) };
        let bad = r.pick(&[wide, odd, Line { map: 2, u: 0 }]);
        self.step(Step::Receiver { line, window, start })?;
        self.call_closed()?;
        self.step(Step::Plain { line: bad })?;
        self.step(Step::Sender { line: bad })?;
        self.step(Step::Send { word: 0, room: 4 })?;
        self.call_closed()
    }

    /// Calls that a closed receiver refuses, or an open one answers.
    fn call_closed(&mut self) -> Result<(), String> {
        let length = self.rng.below(10) as usize;
        let coordinates = (0..length).map(|_| self.any_coordinate()).collect();
        let marks = self.rng.once_in(3).then(|| self.any_marks(length / 4));
        self.step(Step::Piece { room: length, coordinates, marks })?;
        self.step(Step::Finish { room: 64 })?;
        self.step(Step::Pending)?;
        Ok(())
    }

    fn any_coordinate(&mut self) -> i32 {
        let r = &mut self.rng;
        if r.once_in(5) {
            r.pick(&FORGED)
        } else {
            r.below(16385) as i32 - 8192
        }
    }

    /// Marks for so many symbols: now and then one too many or too few, or a byte that is no mark.
    fn any_marks(&mut self, symbols: usize) -> Vec<u8> {
        let r = &mut self.rng;
        let count = r.pick(&[symbols, symbols, symbols, symbols + 1, symbols.saturating_sub(1), 0]);
        let mut marks: Vec<u8> = (0..count).map(|_| r.below(4) as u8).collect();
        if count > 0 && r.once_in(3) {
            marks[r.below(count as u64) as usize] = r.pick(&[4, 5, 7, 128, 255]);
        }
        marks
    }

    fn source(&mut self) -> Source {
        let r = &mut self.rng;
        let deviation = r.pick(&[0.0, 10.0, 40.0, 60.0, 75.0, 90.0, 130.0, 400.0]);
        match r.below(17) {
            0..=8 => Source::Sent(deviation),
            9 => Source::Bursts(deviation.min(60.0)),
            10 | 11 => Source::Ties,
            12 => {
                let c = r.pick(&[0, 128, -128, 256, 8192, -8192, 77]);
                Source::Same([c, r.pick(&[0, c]), c, r.pick(&[-c, c])])
            }
            13 => Source::Ends,
            14 => Source::Anything,
            15 => Source::Sparks(deviation.min(60.0)),
            _ => Source::Mixed,
        }
    }

    /// One line: openings of both ends, pieces until enough symbols are taken or the window is full, a finish.
    fn line(&mut self, line: Line, window: u32, start: u32) -> Result<(), String> {
        let plain = window == 64 && start == FREE && self.rng.once_in(2);
        self.step(if plain { Step::Plain { line } } else { Step::Receiver { line, window, start } })?;
        let mut source = LineSource::new(self, line);
        // a few lines go beyond what 16 bits count
        let long = window > 24 && self.rng.once_in(600);
        if long {
            source = LineSource { source: Source::Sent(40.0), logged: false, ..source };
        }
        if source.logged {
            self.step(Step::Sender { line })?;
        }
        let mut left = match self.rng.below(16) {
            _ if long => 70_000,
            0..=2 => self.rng.below(8),
            3..=12 => 20 + self.rng.below(150),
            13 | 14 => 150 + self.rng.below(450),
            _ => 1000 + self.rng.below(2000),
        } as usize;
        let longest = if long { 1000 } else { self.rng.pick(&[1, 1, 3, 16, 64, 300, 1000]) };
        let (mut waiting, mut marks): (Vec<i32>, Vec<u8>) = (vec![], vec![]);
        let mut tries = 0;
        while left > 0 {
            if self.rng.once_in(24) {
                self.careless()?;
            }
            if waiting.is_empty() {
                let symbols = (1 + self.rng.below(longest) as usize).min(left);
                for _ in 0..symbols {
                    let (symbol, mark) = source.next(self)?;
                    waiting.extend(symbol);
                    marks.push(mark);
                }
            }
            let room = self.room(&waiting, &marks);
            let marked = source.missing > 0 || self.rng.once_in(30);
            let piece = Step::Piece { room, coordinates: waiting.clone(), marks: marked.then(|| marks.clone()) };
            let given = self.step(piece)?;
            left -= given.taken.min(left);
            let mut gone = given.taken;
            match given.number {
                5 => gone += 1,
                6 if tries < 3 && self.rng.once_in(4) => {
                    tries += 1;
                    gone += 1;
                }
                6 => break,
                _ => {}
            }
            waiting.drain(..4 * gone);
            marks.drain(..gone);
        }
        self.end_line()
    }

    fn end_line(&mut self) -> Result<(), String> {
        let pending = self.machine.receiver.pending();
        if pending > 0 && self.rng.once_in(2) {
            self.step(Step::Finish { room: pending - 1 })?;
        }
        let room = pending + self.rng.pick(&[0, 0, 1, 64]);
        self.step(Step::Finish { room })?;
        if self.rng.once_in(4) {
            self.call_closed()?;
        }
        Ok(())
    }

    /// Mostly room enough; often just enough, one too few, or none.
    fn room(&mut self, piece: &[i32], marks: &[u8]) -> usize {
        let symbols = piece.len() / 4;
        match self.rng.below(12) {
            0 => 0,
            1 => self.rng.below(symbols as u64 + 2) as usize,
            k @ 2..=4 => {
                let mut out = vec![0; symbols + 64];
                let mut receiver = self.machine.receiver.clone();
                let needed = receiver.hear_marked(self.map, piece, marks, &mut out).written as usize;
                if k == 2 {
                    needed
                } else {
                    needed.saturating_sub(1)
                }
            }
            _ => symbols + 64,
        }
    }

    /// A call beside the line: asked at any time, with anything.
    fn careless(&mut self) -> Result<(), String> {
        if self.rng.once_in(12) {
            return self.forged_marks();
        }
        let r = &mut self.rng;
        let step = match r.below(15) {
            0 => Step::Pending,
            1 => Step::Piece { room: r.below(5) as usize, coordinates: vec![], marks: r.once_in(2).then(Vec::new) },
            2 => {
                let length = 4 * r.below(9) as usize + 1 + r.below(3) as usize;
                let coordinates = (0..length).map(|_| r.below(257) as i32 - 128).collect();
                Step::Piece { room: length, coordinates, marks: r.once_in(3).then(|| vec![0; length / 4]) }
            }
            3 => Step::Send { word: r.next() as u32 >> r.below(32), room: r.below(7) as usize },
            4 => Step::Sample { x: float(r), y: float(r), extra: r.below(3) as usize },
            5 => {
                let length = r.below(12) as usize + r.below(2) as usize;
                let list = (0..length).map(|_| if r.once_in(9) { float(r) } else { near_float(r) }).collect();
                let missing = r.once_in(2).then(|| any_flags(r, length / 2));
                Step::Samples { list, missing, room: r.pick(&[0, 1, length.saturating_sub(1), length, length + 2]) }
            }
            6 => Step::Moved { extra: r.below(4) as usize },
            7 => Step::Short(Short::Told(r.below(3) as usize)),
            8 => Step::Short(Short::State(r.pick(&[1, 1, 2, 5, 1000]))),
            9 => Step::Short(Short::Opening(r.pick(&[1, 1, 2, 5, 1000]))),
            10 => Step::Short(Short::SampleOut(r.below(3) as usize)),
            11 => Step::WrongEnd,
            13 => {
                let (length, low) = (r.below(12) as usize, (1u32 << (3 + 2 * r.below(9))) - 1);
                let word = |r: &mut Rng| if r.once_in(16) { u32::MAX >> r.below(32) } else { r.next() as u32 & low };
                let words: Vec<u32> = (0..length).map(|_| word(r)).collect();
                Step::List { words, room: r.pick(&[0, 3, (4 * length).saturating_sub(1), 4 * length, 4 * length, 4 * length + 2]) }
            }
            12 => Step::Forged(match r.below(4) {
                0 => Forgery::Ones,
                1 => Forgery::Noise { seed: r.next(), tagged: r.once_in(2) },
                _ => Forgery::Tag(1 << r.below(64)),
            }),
            _ => Step::Forged(Forgery::Word { at: r.next() as usize % 4096, bits: forged_bits(r) }),
        };
        self.step(step).map(drop)
    }

    /// A piece beside the line, with marks that seldom fit it.
    fn forged_marks(&mut self) -> Result<(), String> {
        let symbols = self.rng.below(5) as usize;
        let coordinates = (0..4 * symbols).map(|_| self.any_coordinate()).collect();
        let mut marks = self.any_marks(symbols);
        marks.push(self.rng.pick(&[0, 3, 4, 255]));
        self.step(Step::Piece { room: symbols, coordinates, marks: Some(marks) }).map(drop)
    }
}

/// A byte for each sample, 1 if it is missing: now and then one too many, or a byte that is none.
fn any_flags(r: &mut Rng, samples: usize) -> Vec<u8> {
    let count = if r.once_in(8) { samples + 1 } else { samples };
    (0..count).map(|_| if r.once_in(40) { r.pick(&[2, 3, 255]) } else { r.below(2) as u8 }).collect()
}

fn forged_bits(r: &mut Rng) -> u64 {
    match r.below(3) {
        0 => 1 << r.below(64),
        1 => u64::MAX << r.below(64),
        _ => r.next(),
    }
}

/// Any float by its bits: refused ones, halves, the ends of the range.
fn float(r: &mut Rng) -> u32 {
    match r.below(5) {
        0 => r.next() as u32,
        1 => r.pick(&[0x7f80_0000, 0xff80_0000, 0x7fc0_0000, 0xffff_ffff, 0x7f80_0001, 0x8000_0000, 0, 1, 0x8000_0001]),
        2 => (((r.below(4) as i32 - 2) as f32 * 64.0) + (r.below(9) as f32 - 4.0) / 512.0).to_bits(),
        _ => near_float(r),
    }
}

/// A float whose 128-fold is near a whole number or a half within the range.
fn near_float(r: &mut Rng) -> u32 {
    let halves = r.below(32769) as f32 - 16384.0;
    let bits = (halves / 256.0).to_bits();
    bits.wrapping_add(r.below(3) as u32).wrapping_sub(1)
}

/// The received symbols of one line.
struct LineSource {
    source: Source,
    u: u32,
    sender: Sender,
    /// Whether the words are sent as steps on both sides, or by the reference alone.
    logged: bool,
    /// Symbols left of a burst.
    burst: u64,
    /// One symbol in so many gets a coordinate that must be refused; 0 for none.
    forged: u64,
    /// One symbol in so many misses a point or both; 0 for none.
    missing: u64,
}

impl LineSource {
    fn new(session: &mut Session, line: Line) -> LineSource {
        let source = session.source();
        let r = &mut session.rng;
        let (logged, forged) = (r.once_in(4), r.pick(&[0, 0, 0, 200, 20]));
        let missing = r.pick(&[0, 0, 0, 1, 4, 30]);
        LineSource { source, u: line.u, sender: Sender::open(line).1, logged, burst: 0, forged, missing }
    }

    /// A symbol and its mark. What stands in the places of a missing point is anything.
    fn next(&mut self, session: &mut Session) -> Result<([i32; 4], u8), String> {
        let mut symbol = self.undamaged(self.source, session)?;
        if self.forged > 0 && session.rng.once_in(self.forged) {
            for _ in 0..1 + session.rng.below(2) {
                symbol[session.rng.below(4) as usize] = session.rng.pick(&FORGED);
            }
        }
        let drops = self.missing > 0 && session.rng.once_in(self.missing);
        let mark = if drops { session.rng.below(4) as u8 } else { 0 };
        for n in (0..4).filter(|n| mark >> (n / 2) & 1 == 1) {
            if session.rng.once_in(2) {
                symbol[n] = session.any_coordinate();
            }
        }
        Ok((symbol, mark))
    }

    fn undamaged(&mut self, source: Source, session: &mut Session) -> Result<[i32; 4], String> {
        let each = |r: &mut Rng, f: &dyn Fn(&mut Rng) -> i32| [f(r), f(r), f(r), f(r)];
        let anything = |r: &mut Rng| r.below(16385) as i32 - 8192;
        match source {
            Source::Sent(deviation) => {
                let points = self.send(session)?;
                Ok(points.map(|c| (128 * c + session.rng.noise(deviation)).clamp(-8192, 8192)))
            }
            Source::Bursts(deviation) => {
                if self.burst == 0 && session.rng.once_in(60) {
                    self.burst = 1 + session.rng.below(12);
                }
                if self.burst > 0 {
                    self.burst -= 1;
                    self.send(session)?;
                    return Ok(each(&mut session.rng, &anything));
                }
                self.undamaged(Source::Sent(deviation), session)
            }
            Source::Sparks(deviation) => {
                let mut symbol = self.undamaged(Source::Sent(deviation), session)?;
                let r = &mut session.rng;
                if r.once_in(8) {
                    let at = 2 * r.below(2) as usize;
                    symbol[at] = anything(r);
                    symbol[at + 1] = anything(r);
                }
                Ok(symbol)
            }
            Source::Ties => Ok(each(&mut session.rng, &|r| match r.below(4) {
                0 => 0,
                1 => 256 * (r.below(9) as i32 - 4),
                2 => 128 * (r.below(17) as i32 - 8),
                _ => 256 * (r.below(33) as i32 - 16),
            })),
            Source::Same(symbol) => Ok(symbol),
            Source::Ends => Ok(each(&mut session.rng, &|r| r.pick(&[-8192, 8192, -8191, 8191, 8192, -8192, 0]))),
            Source::Anything => Ok(each(&mut session.rng, &anything)),
            Source::Mixed => {
                let of = [Source::Sent(50.0), Source::Sent(0.0), Source::Ties, Source::Ends, Source::Anything];
                let of = session.rng.pick(&of);
                self.undamaged(of, session)
            }
        }
    }

    /// The points of one more random word; where they are logged, now and then a send that must be refused goes before.
    fn send(&mut self, session: &mut Session) -> Result<[i32; 4], String> {
        let word = session.rng.next() as u32 & ((1 << (3 + 2 * self.u)) - 1);
        let mut points = [0; 4];
        self.sender.send(session.map, word, &mut points);
        if self.logged {
            if session.rng.once_in(32) {
                let bad = word | 1 << (3 + 2 * self.u as u64 + session.rng.below(29 - 2 * self.u as u64));
                let room = session.rng.below(4) as usize;
                session.step(Step::Send { word: bad, room: 4 })?;
                session.step(Step::Send { word, room })?;
            }
            let room = 4 + session.rng.below(3) as usize;
            session.step(Step::Send { word, room })?;
        }
        Ok(points)
    }
}
