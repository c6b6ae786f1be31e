//! The public vectors against the reference: sender, receiver, float and the cases of `lab`. Each file's head says its form.

use crate::lab::Lab;
use crate::reference::*;
use std::path::Path;

/// The numbers of a vector file, line ends and comments dropped.
struct Numbers(std::vec::IntoIter<i64>);

impl Numbers {
    fn read(path: &Path) -> Result<Numbers, String> {
        let text = std::fs::read_to_string(path).map_err(|e| format!("{}: {e}", path.display()))?;
        let lines = text.lines().filter(|l| !l.starts_with('#'));
        let all: Result<Vec<i64>, _> = lines.flat_map(|l| l.split_whitespace()).map(|n| n.parse()).collect();
        Ok(Numbers(all.map_err(|e| format!("{}: {e}", path.display()))?.into_iter()))
    }

    fn next(&mut self) -> i64 {
        self.0.next().expect("the file ends in the middle of a case")
    }

    fn list(&mut self, n: i64) -> Vec<i64> {
        (0..n).map(|_| self.next()).collect()
    }
}

const UNTOUCHED: u32 = 0xa5a5_a5a5;

fn same<T: PartialEq + std::fmt::Debug>(what: &str, expected: T, got: T) -> Result<(), String> {
    if expected == got {
        Ok(())
    } else {
        Err(format!("{what}: expected {expected:?}, got {got:?}"))
    }
}

fn sender(path: &Path, map: &Map) -> Result<usize, String> {
    let mut file = Numbers::read(path)?;
    let mut sends = 0;
    while let Some(kind) = file.0.next() {
        same("kind", 1, kind)?;
        let u = file.next() as u32;
        let (number, mut sender) = Sender::open(Line::round(u));
        same("opening", file.next(), number as i64)?;
        for _ in 0..file.next() {
            let (word, capacity) = (file.next() as u32, file.next() as usize);
            let mut out = vec![UNTOUCHED as i32; capacity];
            let number = sender.send(map, word, &mut out);
            same(&format!("u {u} word {word}"), file.next(), number as i64)?;
            let k = file.next();
            let mut expected: Vec<i64> = file.list(k);
            expected.resize(capacity.max(expected.len()), UNTOUCHED as i32 as i64);
            same(&format!("u {u} word {word}"), expected, out.iter().map(|&c| c as i64).collect())?;
            sends += 1;
        }
    }
    Ok(sends)
}

/// The cases are of 01 alone: distances count whole, as they did before 02, Wish 8. Wish 5 clears bits 1 and 2 of the first
/// word that a free start releases. With counted distances the reference is held to lab's cases and to the definition.
fn receiver(path: &Path, map: &Map) -> Result<usize, String> {
    let mut file = Numbers::read(path)?;
    let mut calls = 0;
    while let Some(kind) = file.0.next() {
        same("kind", 2, kind)?;
        let (u, window, start) = (file.next(), file.next(), file.next());
        let named = if start < 0 {
            FREE
        } else {
            if start > 15 {
                17
            } else {
                start as u32
            }
        };
        let (number, receiver) = Receiver::open(Line::round(u as u32), window as u32, named);
        let mut receiver = receiver.counting_whole();
        let case = format!("u {u} window {window} start {start}");
        same(&case, file.next(), number as i64)?;
        let mut unclaimed = if start < 0 { 6 } else { 0 };
        for k in 0..file.next() {
            let hears = file.next() == 1;
            let length = if hears { file.next() } else { 0 };
            let piece: Vec<i32> = file.list(length).into_iter().map(|c| c as i32).collect();
            let capacity = file.next() as usize;
            let mut out = vec![UNTOUCHED; capacity];
            let a = if hears { receiver.hear(map, &piece, &mut out) } else { receiver.finish(&mut out) };
            let expected = file.list(4);
            let place = if a.number == 5 { a.place as i64 } else { -1 };
            let case = format!("{case} call {k}");
            same(&case, expected.clone(), vec![a.taken as i64, a.written as i64, a.number as i64, place])?;
            let mut words: Vec<u32> = file.list(expected[1]).into_iter().map(|w| w as u32).collect();
            if let Some(first) = words.first_mut() {
                *first &= !std::mem::take(&mut unclaimed);
            }
            words.resize(capacity, UNTOUCHED);
            same(&case, words, out)?;
            calls += 1;
        }
    }
    Ok(calls)
}

fn float(path: &Path) -> Result<usize, String> {
    let mut file = Numbers::read(path)?;
    let mut lines = 0;
    while let Some(kind) = file.0.next() {
        if kind == 3 {
            let bits = file.next() as u32;
            let (number, value) = coordinate(bits).map_or((5, 0), |v| (0, v as i64));
            same(&format!("float {bits:08x}"), file.list(2), vec![number, value])?;
        } else {
            same("kind", 5, kind)?;
            let (x, y) = (file.next() as u32, file.next() as u32);
            let got = match sample(x, y) {
                Ok((x, y)) => vec![0, x as i64, y as i64, -1],
                Err(place) => vec![5, 0, 0, place as i64],
            };
            same(&format!("sample {x:08x} {y:08x}"), file.list(4), got)?;
        }
        lines += 1;
    }
    Ok(lines)
}

fn lab(input: &Path, output: &Path) -> Result<usize, String> {
    let read = |p: &Path| std::fs::read(p).map_err(|e| format!("{}: {e}", p.display()));
    let (said, expected) = (Lab::new().all(&read(input)?), read(output)?);
    if said.as_bytes() != expected {
        let expected = String::from_utf8_lossy(&expected).into_owned();
        let k = said.lines().zip(expected.lines()).position(|(a, b)| a != b);
        let k = k.unwrap_or(said.lines().count().min(expected.lines().count()));
        let line = |s: &str| s.lines().nth(k).unwrap_or("nothing").to_string();
        return Err(format!("answer {}: expected {}, got {}", k + 1, line(&expected), line(&said)));
    }
    Ok(said.lines().count())
}

/// Runs the files of a folder, and the cases of `lab`. Gives a line for the reader.
pub fn check(folder: &Path, lab_in: &Path, lab_out: &Path, map: &Map) -> Result<String, String> {
    let at = |file: &str| folder.join(file);
    let named = |file: &'static str| move |e: String| format!("{file}: {e}");
    let sends = sender(&at("sender.txt"), map).map_err(named("sender.txt"))?;
    let calls = receiver(&at("receiver.txt"), map).map_err(named("receiver.txt"))?;
    let floats = float(&at("float.txt")).map_err(named("float.txt"))?;
    let answers = lab(lab_in, lab_out).map_err(named("lab"))?;
    Ok(format!("{sends} sends, {calls} receiver calls, {floats} floats, {answers} lab answers"))
}
