//! A line to try by hand: random words through the library's sender, the wire, the library's receiver; what came of it as a
//! table. `pictures/simulate` builds and runs it. The same words and seed give the same table on every machine.

#[allow(dead_code)]
mod chance;
#[path = "../tests/cross/ffi.rs"]
#[allow(dead_code)]
mod ffi;
#[allow(dead_code)]
mod line;

use chance::decibels;
use line::{deviation, energy, Ear, Line, Setting, Tally, Watch, FREE, LOOKBACK};
use std::fmt::Write;
use std::io::Write as _;
use std::str::FromStr;

const HELP: &str = "\
pictures/simulate [OPTION VALUE]..   one line through the library, as a table

  --map round|square   the point map; both ends have it (round)
  --width U            0 to 8, on the square map even; a word has 3 + 2U bits (2)
  --window W           how many symbols may be pending, 1 to 64 (32)
  --start free|S       what the receiver knows: nothing, or the sender's state, which is 0 when the line begins (free)
  --snr DECIBELS       signal-to-noise ratio: average energy of a 2D point over the noise in both dimensions (15)
  --noise DEVIATION    the noise of a coordinate instead, in line units: neighbouring points stand 256 apart
  --sparks SHARE       of the points, thrown to a corner of what can be heard, 8192 line units off in x and y (0)
  --missing SHARE      of the points, which the front end never got and marks as missing (0)
  --turn QUARTERS      by which every point is turned, clockwise, from the middle of the line on, 0 to 3 (0)
  --words N            how many are sent (100000)
  --seed S             of words and noise (1)

The table says how many words were wrong, of those struck (a spark hit a point, or one is missing) and of the others; how often
the window was full (sixes: after each the receiver finishes and is opened again with a free start); how many words a reader
that waits for 16 symbols, and no longer, says and the answer with window 64 denies; and after how many more symbols words
were final. With a free start bits 1 and 2 of the first word are not known, and nothing is asked of them.
";

struct Asked {
    setting: Setting,
    window: u32,
    turn: u32,
    words: u64,
    seed: u64,
}

/// The value of an option, if it is a number from low to high.
fn within<T: FromStr + PartialOrd>(name: &str, value: &str, low: T, high: T) -> Result<T, String> {
    value.parse().ok().filter(|v| *v >= low && *v <= high).ok_or(format!("{name} {value}: no number in its range"))
}

fn asked(words: &[String]) -> Result<Asked, String> {
    let mut s = Setting { map: 0, width: 2, start: FREE, deviation: 0.0, sparks: 0.0, missing: 0.0 };
    let (mut ratio, mut noise) = (15.0, None);
    let mut a = Asked { setting: s, window: 32, turn: 0, words: 100_000, seed: 1 };
    for pair in words.chunks(2) {
        let [name, value] = pair else { return Err(format!("{}: no option with a value", pair[0])) };
        match (name.as_str(), value.as_str()) {
            ("--map", "round") => s.map = 0,
            ("--map", "square") => s.map = 1,
            ("--width", v) => s.width = within(name, v, 0, 8)?,
            ("--window", v) => a.window = within(name, v, 1, 64)?,
            ("--start", "free") => s.start = FREE,
            ("--start", v) => s.start = within(name, v, 0, 15)?,
            ("--snr", v) => ratio = within(name, v, -20.0, 200.0)?,
            ("--noise", v) => noise = Some(within(name, v, 0.0, 8192.0)?),
            ("--sparks", v) => s.sparks = within(name, v, 0.0, 1.0)?,
            ("--missing", v) => s.missing = within(name, v, 0.0, 1.0)?,
            ("--turn", v) => a.turn = within(name, v, 0, 3)?,
            ("--words", v) => a.words = within(name, v, 1, u64::MAX)?,
            ("--seed", v) => a.seed = within(name, v, 0, u64::MAX)?,
            _ => return Err(format!("{name} {value}: not known")),
        }
    }
    if s.map == 1 && s.width % 2 == 1 {
        return Err("--width: the square map has even ones only".into());
    }
    s.deviation = noise.unwrap_or_else(|| deviation(energy(s.map, s.width), ratio));
    Ok(Asked { setting: s, ..a })
}

/// What the receiver made of the line; and one with the widest window, beside which the hasty reader has all the time it needs.
fn run(a: &Asked) -> [Tally; 2] {
    let ears = [a.window, 64].map(|window| Ear::new(a.setting, window, Watch::Symbols));
    let mut line = Line::new(a.setting, ears.into(), a.seed);
    line.run(a.words - a.words / 2);
    line.turn(a.turn);
    line.run(a.words / 2);
    line.end();
    [0, 1].map(|n| line.ears[n].tally.clone())
}

fn setting(a: &Asked) -> String {
    let s = &a.setting;
    let map = if s.map == 0 { "round" } else { "square" };
    let start = if s.start == FREE { "free".into() } else { s.start.to_string() };
    let noise = if s.deviation > 0.0 {
        let ratio = decibels(energy(s.map, s.width) * 16384.0 / (2.0 * s.deviation * s.deviation));
        format!("noise {:.1} line units ({ratio:.2} dB)", s.deviation)
    } else {
        "no noise".into()
    };
    format!("{map} map, width {}, window {}, start {start}, {noise}, seed {}", s.width, a.window, a.seed)
}

fn wrong(t: &Tally) -> String {
    let mut out = t.wrong.to_string();
    if t.struck > 0 {
        let (struck, others) = (t.struck_wrong, t.wrong - t.struck_wrong);
        write!(out, ": {struck} of {} struck words, {others} of {} others", t.struck, t.words - t.struck).unwrap();
    }
    if let Some((from, to)) = t.between {
        write!(out, "; from word {from} to word {to}").unwrap();
    }
    out
}

fn table(a: &Asked, t: &Tally, wide: &Tally) -> String {
    let mut out = String::new();
    let mut say = |name: &str, what: String| writeln!(out, "{name:12}{what}").unwrap();
    say("line", setting(a));
    say("words", format!("{}, {} of them struck: a spark or a missing point", t.words, t.struck));
    say("wrong", wrong(t));
    say("sixes", t.sixes.to_string());
    say("denied", format!("{} of the words that a reader with a lookback of {LOOKBACK} says", wide.denied));
    say("final after", "words     not yet".into());
    let mut left = t.words;
    for (k, &n) in t.late.iter().enumerate().filter(|(_, &n)| n > 0) {
        left -= n;
        say(&format!("{k:11}"), format!("{n:<9} {left}"));
    }
    say("by a finish", format!("{}", t.cut.iter().sum::<u64>() + t.rest));
    out
}

fn main() {
    let words: Vec<String> = std::env::args().skip(1).collect();
    let text = if words.iter().any(|w| w == "--help" || w == "-h") {
        HELP.into()
    } else {
        match asked(&words) {
            Ok(a) => {
                let [t, wide] = run(&a);
                table(&a, &t, &wide)
            }
            Err(why) => {
                eprintln!("simulate: {why}; --help has all options");
                std::process::exit(2);
            }
        }
    };
    // whoever reads may have had enough: no fault of the line's
    let _ = std::io::stdout().write_all(text.as_bytes());
}
