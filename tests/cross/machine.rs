//! One sender and one receiver, held twice: by the reference and by the library. Each step is done on both, and what they
//! give and leave is compared. A step that `lab` knows prints as its line.

use crate::ffi;
use crate::lab::answer_line;
use crate::lent::Lent;
use crate::reference::*;

#[derive(Clone, Debug)]
pub enum Step {
    Sender {
        line: Line,
    },
    Send {
        word: u32,
        room: usize,
    },
    List {
        words: Vec<u32>,
        room: usize,
    },
    Receiver {
        line: Line,
        window: u32,
        start: u32,
    },
    /// On the square map a caller in C names the plain window.
    Plain {
        line: Line,
    },
    Piece {
        room: usize,
        coordinates: Vec<i32>,
        /// A mark for each symbol, or none: then nothing is missing.
        marks: Option<Vec<u8>>,
    },
    Finish {
        room: usize,
    },
    Pending,
    Sample {
        x: u32,
        y: u32,
        extra: usize,
    },
    /// What only a caller in C can do.
    Samples {
        list: Vec<u32>,
        missing: Option<Vec<u8>>,
        room: usize,
    },
    Moved {
        extra: usize,
    },
    Short(Short),
    WrongEnd,
    Forged(Forgery),
}

/// A slice that is too short to serve.
#[derive(Clone, Copy, Debug)]
pub enum Short {
    Told(usize),
    State(usize),
    Opening(usize),
    SampleOut(usize),
}

/// A state with other words in it than a call left there.
#[derive(Clone, Copy, Debug)]
pub enum Forgery {
    /// The tag changed by these bits.
    Tag(u64),
    /// The right tag, and all other bits one: no record is sound so.
    Ones,
    /// Bits of a later word changed: the record may be sound or not.
    Word { at: usize, bits: u64 },
    /// Words that no call wrote, from a seed; they may have the right tag.
    Noise { seed: u64, tagged: bool },
}

/// What a step gave: the number, and for a piece how many symbols were taken.
pub struct Given {
    pub number: u32,
    pub taken: usize,
}

pub struct Machine<'m> {
    map: &'m Map,
    pub sender: Sender,
    pub receiver: Receiver,
    sender_state: Lent<u64>,
    receiver_state: Lent<u64>,
    /// Symbols that the receiver took.
    pub symbols: u64,
}

fn same<T: PartialEq + std::fmt::Debug>(what: &str, expected: T, got: T) -> Result<(), String> {
    if expected == got {
        Ok(())
    } else {
        Err(format!("{what}: expected {expected:?}, the library gave {got:?}"))
    }
}

fn holds(what: &str, yes: bool) -> Result<(), String> {
    if yes {
        Ok(())
    } else {
        Err(what.to_string())
    }
}

fn floats(bits: &[u32]) -> Vec<f32> {
    bits.iter().map(|&b| f32::from_bits(b)).collect()
}

/// The call that hears a piece, with marks or without.
fn call_hear(state: &mut [u64], piece: &[i32], marks: Option<&[u8]>, out: &mut [u32], told: &mut [u64]) -> u32 {
    match marks {
        Some(marks) => ffi::hear_marked(state, piece, marks, out, told),
        None => ffi::hear(state, piece, out, told),
    }
}

/// Calls hear and compares everything that it gives and lends with what is expected. The state is the caller's to check.
fn compare_hear(
    state: &mut [u64],
    piece: &[i32],
    marks: Option<&[u8]>,
    expected: &Answer,
    words: &[u32],
) -> Result<(), String> {
    let (mut out, mut told) = (Lent::new(words.len()), Lent::new(3));
    let number = call_hear(state, piece, marks, out.slice(), told.slice());
    compare_answer(expected, words, number, &out, &told)
}

fn compare_finish(state: &mut [u64], expected: &Answer, words: &[u32]) -> Result<(), String> {
    let (mut out, mut told) = (Lent::new(words.len()), Lent::new(4));
    let number = ffi::finish(state, out.slice(), told.slice());
    compare_answer(expected, words, number, &out, &told)
}

/// `words` is the whole output as it should stand, with marks where nothing is written.
fn compare_answer(
    expected: &Answer,
    words: &[u32],
    number: u32,
    out: &Lent<u32>,
    told: &Lent<u64>,
) -> Result<(), String> {
    let t = told.seen();
    let got = Answer { number, taken: t[0], written: t[1], place: t[2] };
    if *expected != got || words != out.seen() {
        return Err(differing(expected, words, &got, out.seen()));
    }
    holds("places outside the output changed", out.rest_stayed(words.len()))?;
    holds("told changed beyond its third place", told.rest_stayed(3))
}

/// Says in the form of `lab` what was expected and what was given.
fn differing(expected: &Answer, words: &[u32], got: &Answer, out: &[u32]) -> String {
    let line = |a: &Answer, out: &[u32]| answer_line(a, &out[..(a.written as usize).min(out.len())]);
    let (e, g) = (line(expected, words), line(got, out));
    if e != g {
        return format!("expected {e}\n# the library gave {g}");
    }
    if expected != got {
        return format!("expected place {}, the library gave {}", expected.place, got.place);
    }
    let k = (0..words.len()).find(|&k| words[k] != out[k]).unwrap_or(0);
    format!("expected {e}, and so the library gave, but it wrote to place {k} of the output too")
}

const CLOSED: Answer = Answer { number: 9, taken: 0, written: 0, place: 0 };

/// Everything that can be asked of a state that is to be read as a closed receiver. Nothing but `told` may be touched.
fn compare_closed_receiver(what: &str, state: &[u64]) -> Result<(), String> {
    let mut lent = Lent::holding(state);
    let named = |e: String| format!("{what}: {e}");
    compare_hear(lent.slice(), &[0; 8], None, &CLOSED, &Lent::<u32>::marks(9)).map_err(named)?;
    compare_hear(lent.slice(), &[0; 5], None, &CLOSED, &[]).map_err(named)?;
    compare_hear(lent.slice(), &[], None, &CLOSED, &[]).map_err(named)?;
    compare_hear(lent.slice(), &[0; 8], Some(&[0, 3]), &CLOSED, &Lent::<u32>::marks(9)).map_err(named)?;
    compare_hear(lent.slice(), &[0; 8], Some(&[4]), &CLOSED, &[]).map_err(named)?;
    compare_finish(lent.slice(), &CLOSED, &Lent::<u32>::marks(70)).map_err(named)?;
    compare_finish(lent.slice(), &CLOSED, &[]).map_err(named)?;
    same(&format!("{what}: pending"), 0, ffi::pending(lent.seen()))?;
    holds(&format!("{what}: a call on a closed state changed it"), lent.seen() == state)?;
    holds(&format!("{what}: places outside the state changed"), lent.rest_stayed(state.len()))
}

fn compare_closed_sender(what: &str, state: &[u64]) -> Result<(), String> {
    let mut lent = Lent::holding(state);
    for (word, room) in [(0, 4), (u32::MAX, 6), (0, 0)] {
        let mut out = Lent::<i32>::new(room);
        same(&format!("{what}: send"), 9, ffi::send(lent.slice(), word, out.slice()))?;
        holds(&format!("{what}: a refused send wrote to its output"), out.rest_stayed(0))?;
    }
    for (words, room) in [(&[][..], 0), (&[0, 1], 8), (&[u32::MAX], 3)] {
        let (mut out, mut told) = (Lent::<i32>::new(room), Lent::<u64>::new(4));
        same(&format!("{what}: list"), 9, ffi::send_list(lent.slice(), words, out.slice(), told.slice()))?;
        same(&format!("{what}: told of a list"), &[0; 3][..], &told.seen()[..3])?;
        holds(&format!("{what}: a refused list wrote to its output"), out.rest_stayed(0) && told.rest_stayed(3))?;
    }
    holds(&format!("{what}: a call on a closed state changed it"), lent.seen() == state)?;
    holds(&format!("{what}: places outside the state changed"), lent.rest_stayed(state.len()))
}

/// A state that may be sound or not. The calls must agree with each other, be the same each time, keep to their slices and
/// leave a closed state as it was.
fn compare_maybe(state: &[u64]) -> Result<(), String> {
    let open = ffi::is_open(state);
    holds("is_open is neither 0 nor 1", open < 2)?;
    if open == 0 {
        compare_closed_receiver("forged receiver", state)?;
        return compare_closed_sender("forged sender", state);
    }
    let tries: Vec<_> = (0..2).map(|_| maybe_open(state)).collect::<Result<_, _>>()?;
    holds("the same calls on two copies of a forged state gave different results", tries[0] == tries[1])
}

/// Calls on a forged state that says it is open. Only limits can be checked; what it gave is returned for comparison.
fn maybe_open(state: &[u64]) -> Result<Vec<u64>, String> {
    let mut lent = Lent::holding(state);
    let mut given = vec![];
    let pieces: [(&[i32], Option<&[u8]>); 7] = [
        (&[], None),
        (&[0; 7], None),
        (&[128; 40], None),
        (&[-8192, 8192, 0, 1], None),
        (&[0, 0, 8193, 0], None),
        (&[8193; 8], Some(&[3, 1])),
        (&[0; 8], Some(&[0, 255])),
    ];
    for (piece, marks) in pieces {
        let (mut out, mut told) = (Lent::<u32>::new(20), Lent::<u64>::new(3));
        let number = call_hear(lent.slice(), piece, marks, out.slice(), told.slice());
        let t = told.seen().to_vec();
        holds("forged state: more taken than the piece has", t[0] <= piece.len() as u64 / 4)?;
        holds("forged state: more written than there is room", t[1] <= 20)?;
        holds("forged state: a place with a number that has none", number == 5 || t[2] == 0)?;
        holds("forged state: output changed beyond the words", out.rest_stayed(t[1] as usize) && told.rest_stayed(3))?;
        given.extend([number as u64, t[0], t[1], t[2]]);
        given.extend(out.seen().iter().map(|&w| w as u64));
    }
    let (mut out, mut told) = (Lent::<u32>::new(70), Lent::<u64>::new(3));
    let number = ffi::finish(lent.slice(), out.slice(), told.slice());
    holds("forged state: finish wrote more than 64 words", told.seen()[1] <= 64)?;
    holds("forged state: output changed beyond the words", out.rest_stayed(told.seen()[1] as usize))?;
    given.push(number as u64);
    let mut points = Lent::<i32>::new(5);
    let sent = ffi::send(lent.slice(), 1, points.slice());
    holds("forged state: send wrote beyond four places", points.rest_stayed(if sent == 0 { 4 } else { 0 }))?;
    given.push(sent as u64);
    let (mut points, mut told) = (Lent::<i32>::new(9), Lent::<u64>::new(3));
    let listed = ffi::send_list(lent.slice(), &[1, 0, 2, u32::MAX], points.slice(), told.slice());
    let t = told.seen().to_vec();
    holds("forged state: a list that is longer than its room", t[0] <= 2 && t[1] == 4 * t[0] && t[2] == 0)?;
    holds("forged state: a list wrote beyond its coordinates", points.rest_stayed(t[1] as usize) && told.rest_stayed(3))?;
    holds("forged state: a list is done though it has no room", listed != 0)?;
    holds("forged state: a word and a list disagree", (sent == 9) == (listed == 9))?;
    given.extend([listed as u64, t[0], t[1]]);
    holds("forged state: neither end answers though it is open", given[0] != 9 || sent != 9)?;
    holds("places outside a forged state changed", lent.rest_stayed(state.len()))?;
    given.extend(lent.seen());
    Ok(given)
}

/// Seeded words that no call wrote.
fn noise_words(seed: u64, tag: u64, length: usize, tagged: bool) -> Vec<u64> {
    let mut rng = crate::rng::Rng::new(seed);
    let mut words: Vec<u64> = (0..length).map(|_| rng.next() >> rng.below(64)).collect();
    words[0] = if tagged { tag } else { words[0] ^ tag ^ 1 };
    words
}

impl<'m> Machine<'m> {
    /// Both ends closed: in the library, states that a refused opening wrote.
    pub fn new(map: &'m Map) -> Result<Machine<'m>, String> {
        let (s, r) = (Lent::new(ffi::sender_words()), Lent::new(ffi::receiver_words()));
        let (sender, receiver) = (Sender::closed(), Receiver::closed());
        let mut m = Machine { map, sender, receiver, sender_state: s, receiver_state: r, symbols: 0 };
        m.step(&Step::Sender { line: Line::round(9) })?;
        m.step(&Step::Receiver { line: Line::round(9), window: 64, start: 0 })?;
        Ok(m)
    }

    /// Does one step on both sides. The error says what differs.
    pub fn step(&mut self, step: &Step) -> Result<Given, String> {
        let plain = |number| Given { number, taken: 0 };
        match step {
            Step::Sender { line } => self.open_sender(*line).map(plain),
            Step::Send { word, room } => self.send(*word, *room).map(plain),
            Step::List { words, room } => self.send_list(words, *room).map(plain),
            Step::Receiver { line, window, start } => self.open_receiver(*line, Some((*window, *start))).map(plain),
            Step::Plain { line } => self.open_receiver(*line, None).map(plain),
            Step::Piece { room, coordinates, marks } => self.hear(*room, coordinates, marks.as_deref()),
            Step::Finish { room } => self.finish(*room).map(plain),
            Step::Pending => self.ask().map(|()| plain(0)),
            Step::Sample { x, y, extra } => self.sample(*x, *y, *extra).map(plain),
            Step::Samples { list, missing, room } => self.samples(list, missing.as_deref(), *room).map(plain),
            Step::Moved { extra } => Ok(self.moved(*extra)).map(|()| plain(0)),
            Step::Short(short) => self.short(*short).map(|()| plain(0)),
            Step::WrongEnd => self.wrong_end().map(|()| plain(0)),
            Step::Forged(forgery) => self.forged(*forgery).map(|()| plain(0)),
        }
    }

    fn states_stayed_inside(&self) -> Result<(), String> {
        let inside = self.sender_state.rest_stayed(ffi::sender_words());
        holds("places outside the sender's state changed", inside)?;
        let inside = self.receiver_state.rest_stayed(ffi::receiver_words());
        holds("places outside the receiver's state changed", inside)
    }

    fn open_sender(&mut self, line: Line) -> Result<u32, String> {
        let (number, sender) = Sender::open(line);
        self.sender = sender;
        same("number", number, ffi::sender_open_map(self.sender_state.slice(), line.map, line.u))?;
        self.states_stayed_inside()?;
        if line.map == ROUND {
            let mut other = Lent::holding(self.sender_state.seen());
            same("number of the opening that names no map", number, ffi::sender_open(other.slice(), line.u))?;
            same("its state", self.sender_state.seen(), other.seen())?;
        }
        self.ask()?;
        Ok(number)
    }

    fn open_receiver(&mut self, line: Line, named: Option<(u32, u32)>) -> Result<u32, String> {
        let (number, receiver) = match named {
            Some((window, start)) => Receiver::open(line, window, start),
            None => Receiver::open_plain(line),
        };
        self.receiver = receiver;
        let (window, start) = named.unwrap_or((PLAIN_WINDOW, FREE));
        let got = ffi::receiver_open_map(self.receiver_state.slice(), line.map, line.u, window, start);
        same("number", number, got)?;
        self.states_stayed_inside()?;
        if line.map == ROUND {
            let mut other = Lent::holding(self.receiver_state.seen());
            let got = match named {
                Some((window, start)) => ffi::receiver_open(other.slice(), line.u, window, start),
                None => ffi::receiver_open_plain(other.slice(), line.u),
            };
            same("number of the opening that names no map", number, got)?;
            same("its state", self.receiver_state.seen(), other.seen())?;
        }
        self.ask()?;
        if number != 0 {
            compare_closed_receiver("after a refused opening", self.receiver_state.seen())?;
        }
        Ok(number)
    }

    fn send(&mut self, word: u32, room: usize) -> Result<u32, String> {
        let before = self.sender_state.seen().to_vec();
        let (mut points, mut out) = (Lent::<i32>::marks(room), Lent::<i32>::new(room));
        let number = self.sender.send(self.map, word, &mut points);
        same("number", number, ffi::send(self.sender_state.slice(), word, out.slice()))?;
        same("points", &points[..], out.seen())?;
        holds("places outside the output changed", out.rest_stayed(room))?;
        if number == 9 || number == 4 {
            holds("a refused send changed the state", before == self.sender_state.seen())?;
        }
        self.states_stayed_inside()?;
        Ok(number)
    }

    /// A list in one call, and on copies the same list cut in two calls and, to see the told places, with a `told` too short.
    fn send_list(&mut self, words: &[u32], room: usize) -> Result<u32, String> {
        let before = self.sender_state.seen().to_vec();
        let mut points = Lent::<i32>::marks(room);
        let (sent, number) = self.sender.send_list(self.map, words, &mut points);
        for short in 0..3 {
            let (mut out, mut told) = (Lent::<i32>::new(room), Lent::<u64>::new(short));
            same("told too short", 8, ffi::send_list(self.sender_state.slice(), words, out.slice(), told.slice()))?;
            let kept = before == self.sender_state.seen() && out.rest_stayed(0) && told.rest_stayed(0);
            holds("a list with a short told did something", kept)?;
        }
        let (mut out, mut told) = (Lent::<i32>::new(room), Lent::<u64>::new(3));
        same("number", number, ffi::send_list(self.sender_state.slice(), words, out.slice(), told.slice()))?;
        same("told", &[sent as u64, 4 * sent as u64, 0][..], told.seen())?;
        same("points", &points[..], out.seen())?;
        holds("places outside the output changed", out.rest_stayed(room) && told.rest_stayed(3))?;
        holds("a list that sent nothing changed the state", sent > 0 || before == self.sender_state.seen())?;
        let (mut cut, mut out) = (Lent::holding(&before), Lent::<i32>::new(room));
        let (first, second) = words.split_at(words.len() / 2);
        let mut last = ffi::send_list(cut.slice(), first, out.slice(), told.slice());
        let mut done = told.seen()[0] as usize;
        if last == 0 {
            last = ffi::send_list(cut.slice(), second, &mut out.slice()[4 * done..], told.slice());
            done += told.seen()[0] as usize;
        }
        same("a list cut in two", (number, sent, &points[..]), (last, done, out.seen()))?;
        same("the state after a list cut in two", self.sender_state.seen(), cut.seen())?;
        self.states_stayed_inside()?;
        Ok(number)
    }

    fn hear(&mut self, room: usize, coordinates: &[i32], marks: Option<&[u8]>) -> Result<Given, String> {
        let before = (!self.receiver.is_open()).then(|| self.receiver_state.seen().to_vec());
        let mut words = Lent::<u32>::marks(room);
        let expected = match marks {
            Some(marks) => self.receiver.hear_marked(self.map, coordinates, marks, &mut words),
            None => self.receiver.hear(self.map, coordinates, &mut words),
        };
        self.symbols += expected.taken;
        compare_hear(self.receiver_state.slice(), coordinates, marks, &expected, &words)?;
        holds("a 9 changed the state", before.is_none_or(|b| b == self.receiver_state.seen()))?;
        self.states_stayed_inside()?;
        Ok(Given { number: expected.number, taken: expected.taken as usize })
    }

    fn finish(&mut self, room: usize) -> Result<u32, String> {
        let before = (!self.receiver.is_open()).then(|| self.receiver_state.seen().to_vec());
        let mut words = Lent::<u32>::marks(room);
        let expected = self.receiver.finish(&mut words);
        compare_finish(self.receiver_state.slice(), &expected, &words)?;
        holds("a 9 changed the state", before.is_none_or(|b| b == self.receiver_state.seen()))?;
        self.states_stayed_inside()?;
        self.ask()?;
        Ok(expected.number)
    }

    /// Pending and open, of both ends.
    fn ask(&self) -> Result<(), String> {
        let (s, r) = (self.sender_state.seen(), self.receiver_state.seen());
        same("pending", self.receiver.pending() as u32, ffi::pending(r))?;
        same("receiver open", self.receiver.is_open() as u32, ffi::is_open(r))?;
        same("sender open", self.sender.is_open() as u32, ffi::is_open(s))?;
        same("pending of a sender", 0, ffi::pending(s))
    }

    fn sample(&self, x: u32, y: u32, extra: usize) -> Result<u32, String> {
        let mut out = Lent::<i32>::new(3 + extra);
        let got = ffi::sample(f32::from_bits(x), f32::from_bits(y), out.slice());
        let (number, given) = match sample(x, y) {
            Ok((x, y)) => (0, [x, y, 0]),
            Err(place) => (5, [0, 0, place as i32]),
        };
        same("number", number, got)?;
        same("sample", &given[..], &out.seen()[..3])?;
        holds("places beyond the sample's three changed", out.rest_stayed(3))?;
        Ok(number)
    }

    fn samples(&self, list: &[u32], missing: Option<&[u8]>, room: usize) -> Result<u32, String> {
        let mut written = Lent::<i32>::marks(room);
        let (mut out, mut told) = (Lent::<i32>::new(room), Lent::<u64>::new(3));
        let ((number, count, place), given) = match missing {
            Some(missing) => (
                samples_marked(list, missing, &mut written),
                ffi::samples_marked(&floats(list), missing, out.slice(), told.slice()),
            ),
            None => (samples(list, &mut written), ffi::samples(&floats(list), out.slice(), told.slice())),
        };
        same("number", number, given)?;
        same("told", &[count, count, place][..], told.seen())?;
        same("coordinates", &written[..], out.seen())?;
        holds("places outside the output changed", out.rest_stayed(room) && told.rest_stayed(3))?;
        Ok(number)
    }

    /// Both states go to another place in memory, with more room than they need.
    fn moved(&mut self, extra: usize) {
        let elsewhere = |state: &[u64], words: usize| {
            let mut new = Lent::new(words + extra);
            new.slice()[..words].copy_from_slice(&state[..words]);
            new
        };
        self.sender_state = elsewhere(self.sender_state.seen(), ffi::sender_words());
        self.receiver_state = elsewhere(self.receiver_state.seen(), ffi::receiver_words());
    }

    fn short(&mut self, short: Short) -> Result<(), String> {
        match short {
            Short::Told(length) => self.short_told(length),
            Short::State(by) => {
                let (s, r) = (self.sender_state.seen(), self.receiver_state.seen());
                let (s, r) =
                    (&s[..ffi::sender_words().saturating_sub(by)], &r[..ffi::receiver_words().saturating_sub(by)]);
                compare_closed_sender("a sender's state that is too short", s)?;
                compare_closed_receiver("a receiver's state that is too short", r)?;
                same("open though too short", (0, 0), (ffi::is_open(s), ffi::is_open(r)))
            }
            Short::Opening(by) => {
                let mut s = Lent::<u64>::new(ffi::sender_words().saturating_sub(by));
                let mut r = Lent::<u64>::new(ffi::receiver_words().saturating_sub(by));
                for u in [0, 8, 9] {
                    same("opening a sender that is too short", 8, ffi::sender_open(s.slice(), u))?;
                    same("opening a sender that is too short", 8, ffi::sender_open_map(s.slice(), 1 + u % 2, u))?;
                    let given = ffi::receiver_open_map(r.slice(), 1 + u % 2, u, u + 60, 17 - u);
                    same("opening a receiver that is too short", 8, given)?;
                    same("opening a receiver that is too short", 8, ffi::receiver_open(r.slice(), u, u + 60, 17 - u))?;
                    same("opening a receiver that is too short", 8, ffi::receiver_open_plain(r.slice(), u))?;
                }
                holds("an opening wrote to a state that is too short", s.rest_stayed(0) && r.rest_stayed(0))
            }
            Short::SampleOut(length) => {
                let mut out = Lent::<i32>::new(length);
                same("a sample's output that is too short", 8, ffi::sample(1.0, f32::NAN, out.slice()))?;
                holds("a sample wrote to an output that is too short", out.rest_stayed(0))
            }
        }
    }

    /// Hear, finish and samples with a `told` of less than three places: 8 before all else, and nothing written.
    fn short_told(&mut self, length: usize) -> Result<(), String> {
        let before = self.receiver_state.seen().to_vec();
        let (mut out, mut told, mut points) = (Lent::<u32>::new(70), Lent::<u64>::new(length), Lent::<i32>::new(4));
        let state = self.receiver_state.slice();
        for piece in [&[0; 8][..], &[], &[0; 3], &[9999; 4]] {
            same("hear, told too short", 8, ffi::hear(state, piece, out.slice(), told.slice()))?;
            for marks in [&[][..], &[0, 3], &[4]] {
                let given = ffi::hear_marked(state, piece, marks, out.slice(), told.slice());
                same("a marked piece, told too short", 8, given)?;
            }
        }
        same("finish, told too short", 8, ffi::finish(state, out.slice(), told.slice()))?;
        let list = [1.0, 2.0, f32::NAN];
        same("samples, told too short", 8, ffi::samples(&list, points.slice(), told.slice()))?;
        same("marked samples, told too short", 8, ffi::samples_marked(&list, &[2], points.slice(), told.slice()))?;
        let stayed = out.rest_stayed(0) && told.rest_stayed(0) && points.rest_stayed(0);
        holds("a call whose told is too short wrote something", stayed)?;
        holds("a call whose told is too short changed the state", before == self.receiver_state.seen())
    }

    /// Each end's state given to the other end's functions.
    fn wrong_end(&self) -> Result<(), String> {
        let (s, r) = (self.sender_state.seen(), self.receiver_state.seen());
        let longer = [s, &vec![0; ffi::receiver_words()]].concat();
        compare_closed_receiver("a sender's state given to the receiver", s)?;
        compare_closed_receiver("a sender's state given to the receiver", &longer)?;
        compare_closed_sender("a receiver's state given to the sender", r)
    }

    fn forged(&self, forgery: Forgery) -> Result<(), String> {
        let ends =
            [(self.sender_state.seen(), ffi::sender_words()), (self.receiver_state.seen(), ffi::receiver_words())];
        for (state, length) in ends {
            let mut words = state[..length].to_vec();
            let certain = match forgery {
                Forgery::Tag(bits) => {
                    words[0] ^= bits;
                    // the other end's tag stays away from here
                    words[0] != self.sender_state.seen()[0] && words[0] != self.receiver_state.seen()[0]
                }
                Forgery::Ones => {
                    words[1..].fill(u64::MAX);
                    true
                }
                Forgery::Word { at, bits } => {
                    if length > 1 {
                        words[1 + at % (length - 1)] ^= bits;
                    }
                    false
                }
                Forgery::Noise { seed, tagged } => {
                    words = noise_words(seed, state[0], length, tagged);
                    !tagged && words[0] != self.sender_state.seen()[0] && words[0] != self.receiver_state.seen()[0]
                }
            };
            if certain {
                same("open though forged", 0, ffi::is_open(&words))?;
            }
            compare_maybe(&words)?;
        }
        Ok(())
    }
}

/// A number that is no map's has no line.
fn alone(line: Line) -> &'static str {
    if line.map > SQUARE {
        "# in C alone, no map: "
    } else {
        ""
    }
}

fn on(line: Line) -> &'static str {
    if line.map == SQUARE {
        " square"
    } else {
        ""
    }
}

impl std::fmt::Display for Step {
    /// The line that `lab` takes, or a comment where it has none.
    fn fmt(&self, f: &mut std::fmt::Formatter) -> std::fmt::Result {
        match self {
            Step::Sender { line } => write!(f, "{}sender {}{}", alone(*line), line.u, on(*line)),
            Step::Send { word, room } => write!(f, "send {word} {room}"),
            Step::List { words, room } => {
                write!(f, "list {room}")?;
                words.iter().try_for_each(|w| write!(f, " {w}"))
            }
            Step::Plain { line } => write!(f, "{}receiver {}{}", alone(*line), line.u, on(*line)),
            Step::Receiver { line, window, start: FREE } => {
                write!(f, "{}receiver {} {window} free{}", alone(*line), line.u, on(*line))
            }
            Step::Receiver { line, window, start } => {
                write!(f, "{}receiver {} {window} at {start}{}", alone(*line), line.u, on(*line))
            }
            Step::Piece { room, coordinates, marks } => {
                match marks {
                    None => write!(f, "piece {room}")?,
                    Some(marks) if marks.iter().all(|&m| m <= 3) => {
                        write!(f, "marked {room} {}", if marks.is_empty() { "-" } else { "" })?;
                        marks.iter().try_for_each(|m| write!(f, "{m}"))?;
                    }
                    Some(marks) => write!(f, "# in C alone: marked {room} {marks:?}")?,
                }
                coordinates.iter().try_for_each(|c| write!(f, " {c}"))
            }
            Step::Finish { room } => write!(f, "finish {room}"),
            Step::Pending => write!(f, "pending"),
            Step::Sample { x, y, .. } => write!(f, "sample {x:08x} {y:08x}"),
            Step::Samples { list, missing, room } => {
                write!(f, "# in C alone: samples with room for {room}, missing {missing:?}:")?;
                list.iter().try_for_each(|b| write!(f, " {b:08x}"))
            }
            other => write!(f, "# in C alone: {other:?}"),
        }
    }
}
