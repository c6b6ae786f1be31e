//! The recorded calls: seeded runs on the reference and on the library, with rooms for words and for bytes that are often too
//! short, and everything compared that a call gives or leaves.

use crate::ffi;
use crate::lent::Lent;
use crate::reference::{record_open, Line, Map, Receiver, ROUND, SQUARE};
use crate::rng::Rng;

const RUNS: u64 = 3000;

fn differs<T: PartialEq + std::fmt::Debug>(what: &str, expected: T, given: T) -> Result<(), String> {
    if expected == given {
        Ok(())
    } else {
        Err(format!("{what}: expected {expected:?}, the library gave {given:?}"))
    }
}

/// A list that a call wrote at its front, and left alone otherwise.
fn left<T: crate::lent::Cell>(what: &str, expected: &[T], written: u64, given: &Lent<T>) -> Result<(), String> {
    let n = written as usize;
    differs(what, &expected[..n], &given.seen()[..n])?;
    differs(&format!("{what} after what was written"), true, given.rest_stayed(n))
}

fn opening(rng: &mut Rng, line: Line, window: u32, start: u32) -> Result<(), String> {
    let length = rng.below(8) as usize;
    let mut expected = vec![0; length];
    let number = record_open(line, window, start, &mut expected);
    let mut bytes = Lent::<u8>::new(length);
    differs("record_open_map", number, ffi::record_open_map(line.map, line.u, window, start, bytes.slice()))?;
    left("record_open_map: bytes", &expected, if number == 0 { 4 } else { 0 }, &bytes)?;
    if line.map != ROUND {
        return Ok(());
    }
    let mut bytes = Lent::<u8>::new(length);
    differs("record_open", number, ffi::record_open(line.u, window, start, bytes.slice()))?;
    left("record_open: bytes", &expected, if number == 0 { 4 } else { 0 }, &bytes)
}

/// Symbols of a line with noise, now and then one out of range or cut.
fn piece(rng: &mut Rng) -> Vec<i32> {
    let count = rng.below(12);
    let mut list: Vec<i32> = (0..4 * count).map(|_| 128 * (2 * rng.below(8) as i32 - 7) + rng.noise(40.0)).collect();
    if !list.is_empty() && rng.once_in(6) {
        let at = rng.below(list.len() as u64) as usize;
        list[at] = rng.pick(&[8193, -8193, 8192, -8192, i32::MAX, i32::MIN]);
    }
    if !list.is_empty() && rng.once_in(12) {
        list.pop();
    }
    list
}

/// Marks of such a piece, now and then one too many or one that is none.
fn marks_for(rng: &mut Rng, list: &[i32]) -> Vec<u8> {
    let mut marks: Vec<u8> = (0..list.len() / 4).map(|_| if rng.once_in(2) { rng.below(4) as u8 } else { 0 }).collect();
    if rng.once_in(20) {
        marks.push(0);
    }
    if !marks.is_empty() && rng.once_in(20) {
        let at = rng.below(marks.len() as u64) as usize;
        marks[at] = rng.pick(&[4, 5, 255]);
    }
    marks
}

fn told(what: &str, expected: [u64; 4], given: &Lent<u64>) -> Result<(), String> {
    differs(what, &expected[..], &given.seen()[..4])?;
    differs(&format!("{what} after its four places"), true, given.rest_stayed(4))
}

fn run(map: &Map, rng: &mut Rng) -> Result<u64, String> {
    let line = Line { map: rng.pick(&[ROUND, ROUND, SQUARE, SQUARE, 2]), u: rng.below(10) as u32 };
    let window = rng.pick(&[0, 1, 2, 3, 5, 8, 32, 64, 65]);
    let start = rng.below(18) as u32;
    opening(rng, line, window, start)?;
    let (number, mut reference) = Receiver::open(line, window, start);
    let mut state = Lent::<u64>::new(ffi::receiver_words());
    differs("receiver_open_map", number, ffi::receiver_open_map(state.slice(), line.map, line.u, window, start))?;
    let mut recorded = 0;
    for _ in 0..rng.below(12) {
        let list = piece(rng);
        let (room, space) = (rng.pick(&[0, 1, 2, 4, 65]), rng.pick(&[0, 5, 8, 9, 10, 13, 14, 15, 19, 20, 40, 400]));
        let (mut out, mut bytes) = (Lent::<u32>::new(room), Lent::<u8>::new(space));
        let (mut words, mut records) = (vec![0; room], vec![0; space]);
        let places = if rng.once_in(20) { 3 } else { 5 };
        let mut tells = Lent::<u64>::new(places);
        let (finish, marked) = (rng.once_in(8), rng.once_in(2));
        let marks = marks_for(rng, &list);
        let (what, number) = if finish {
            ("finish_recorded", ffi::finish_recorded(state.slice(), out.slice(), bytes.slice(), tells.slice()))
        } else if marked {
            let number = ffi::hear_marked_recorded(state.slice(), &list, &marks, out.slice(), bytes.slice(), tells.slice());
            ("hear_marked_recorded", number)
        } else {
            ("hear_recorded", ffi::hear_recorded(state.slice(), &list, out.slice(), bytes.slice(), tells.slice()))
        };
        if places < 4 {
            differs(what, 8, number)?;
            differs("a told that is too short", true, tells.rest_stayed(0) && out.rest_stayed(0) && bytes.rest_stayed(0))?;
            continue;
        }
        let (a, n) = if finish {
            reference.finish_recorded(&mut words, &mut records)
        } else if marked {
            reference.hear_marked_recorded(map, &list, &marks, &mut words, &mut records)
        } else {
            reference.hear_recorded(map, &list, &mut words, &mut records)
        };
        differs(what, a.number, number)?;
        told(&format!("{what}: told"), [a.taken, a.written, a.place, n], &tells)?;
        left(&format!("{what}: out"), &words, a.written, &out)?;
        left(&format!("{what}: bytes"), &records, n, &bytes)?;
        differs("pending", reference.pending() as u32, ffi::pending(state.seen()))?;
        differs("is_open", reference.is_open() as u32, ffi::is_open(state.seen()))?;
        recorded += n;
    }
    Ok(recorded)
}

/// How many bytes were recorded in all runs, or what differed.
pub fn check(map: &Map, seed: u64) -> Result<u64, String> {
    let mut bytes = 0;
    for index in 0..RUNS {
        let mut rng = Rng::new(seed.wrapping_mul(0x9e37_79b9_7f4a_7c15) ^ index);
        bytes += run(map, &mut rng).map_err(|what| format!("recorded run {index}: {what}"))?;
    }
    Ok(bytes)
}
