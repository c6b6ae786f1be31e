//! One line that goes on, as a pump station's does: tens of millions of symbols through the library in one receiver. The noise is
//! bounded, so that no other allowed sequence comes as near as what was sent: every word must come back, and no call refuses.

use crate::ffi;
use crate::rng::Rng;
use std::collections::VecDeque;

const WIDTH: u32 = 2;
const WINDOW: u32 = 32;
const PIECE: usize = 1000;

fn done(what: &str, number: u32) -> Result<(), String> {
    (number == 0).then_some(()).ok_or(format!("a long line: {what} gave {number}"))
}

/// Each word that was said is the oldest of those that were sent and not said yet.
fn came_back(sent: &mut VecDeque<u32>, said: &[u32], at: u64) -> Result<(), String> {
    match said.iter().find(|&&word| sent.pop_front() != Some(word)) {
        None => Ok(()),
        Some(word) => Err(format!("a long line: {word} was said before symbol {at}, and is not what was sent")),
    }
}

/// How many words came back, of so many symbols.
pub fn check(seed: u64, symbols: u64) -> Result<u64, String> {
    let mut rng = Rng::new(seed);
    let (mut sender, mut receiver) = (vec![0; ffi::sender_words()], vec![0; ffi::receiver_words()]);
    done("an opening", ffi::sender_open(&mut sender, WIDTH))?;
    done("an opening", ffi::receiver_open(&mut receiver, WIDTH, WINDOW, 0))?;
    let (mut words, mut points, mut out) = ([0; PIECE], [0; 4 * PIECE], [0; PIECE + WINDOW as usize]);
    let (mut told, mut sent, mut at) = ([0; 3], VecDeque::new(), 0);
    while at < symbols {
        let many = PIECE.min((symbols - at) as usize);
        words[..many].fill_with(|| rng.below(1 << (3 + 2 * WIDTH)) as u32);
        done("a list", ffi::send_list(&mut sender, &words[..many], &mut points, &mut told))?;
        for symbol in points[..4 * many].chunks_exact_mut(4) {
            let bits = rng.next();
            (0..4).for_each(|k| symbol[k] = 128 * symbol[k] + (bits >> (16 * k) & 63) as i32 - 32);
        }
        sent.extend(&words[..many]);
        done("a piece", ffi::hear(&mut receiver, &points[..4 * many], &mut out, &mut told))?;
        at += many as u64;
        came_back(&mut sent, &out[..told[1] as usize], at)?;
    }
    done("the finish", ffi::finish(&mut receiver, &mut out, &mut told))?;
    came_back(&mut sent, &out[..told[1] as usize], at)?;
    (sent.is_empty()).then_some(at).ok_or(format!("a long line: {} words never came back", sent.len()))
}
