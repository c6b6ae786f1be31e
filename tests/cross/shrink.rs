//! Makes a failing list of steps shorter while it still fails, so that it can be read and pasted.

use crate::machine::*;
use crate::reference::Map;
use std::time::{Duration, Instant};

/// Runs steps from fresh ends: the place of the first that fails, and what differs.
pub fn replay(map: &Map, steps: &[Step]) -> Option<(usize, String)> {
    let mut machine = match Machine::new(map) {
        Ok(machine) => machine,
        Err(what) => return Some((0, what)),
    };
    steps.iter().enumerate().find_map(|(k, s)| machine.step(s).err().map(|what| (k, what)))
}

struct Shrinker<'m> {
    map: &'m Map,
    steps: Vec<Step>,
    what: String,
    until: Instant,
}

impl Shrinker<'_> {
    /// Takes these steps instead if they fail too.
    fn offer(&mut self, mut steps: Vec<Step>) -> bool {
        let Some((k, what)) = replay(self.map, &steps) else { return false };
        steps.truncate(k + 1);
        self.steps = steps;
        self.what = what;
        true
    }

    fn in_time(&self) -> bool {
        Instant::now() < self.until
    }

    /// Drops runs of steps, long ones first.
    fn drop_steps(&mut self) {
        let mut run = self.steps.len();
        while run > 0 && self.in_time() {
            let mut at = 0;
            while at < self.steps.len() && self.in_time() {
                let end = (at + run).min(self.steps.len());
                if !self.offer([&self.steps[..at], &self.steps[end..]].concat()) {
                    at = end;
                }
            }
            run /= 2;
        }
    }

    /// Drops runs of symbols, and of their marks, from one piece.
    fn drop_symbols(&mut self, step: usize) {
        let Some(Step::Piece { coordinates, .. }) = self.steps.get(step) else { return };
        let mut run = coordinates.len() / 8;
        while run > 0 && self.in_time() {
            let mut at = 0;
            while let Some(Step::Piece { room, coordinates, marks }) = self.steps.get(step) {
                if 4 * at >= coordinates.len() || !self.in_time() {
                    break;
                }
                let end = at + run;
                let marks = marks.as_ref().map(|marks| without(marks, at, end));
                let coordinates = without(coordinates, 4 * at, 4 * end);
                let mut steps = self.steps.clone();
                steps[step] = Step::Piece { room: *room, coordinates, marks };
                if !self.offer(steps) {
                    at = end;
                }
            }
            run /= 2;
        }
    }
}

/// A list without the places from `at` to `end`.
fn without<T: Clone>(list: &[T], at: usize, end: usize) -> Vec<T> {
    let place = |n: usize| n.min(list.len());
    [&list[..place(at)], &list[place(end)..]].concat()
}

/// A shorter list that fails, within a few seconds, and what differs at its last step.
pub fn shrink(map: &Map, steps: Vec<Step>, what: String) -> (Vec<Step>, String) {
    let until = Instant::now() + Duration::from_secs(4);
    let mut s = Shrinker { map, steps, what, until };
    s.drop_steps();
    for step in 0..s.steps.len() {
        s.drop_symbols(step);
    }
    s.drop_steps();
    (s.steps, s.what)
}
