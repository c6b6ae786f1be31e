//! Measures what the pictures show and draws them; `pictures/run` builds this and says how it is used.

mod chance;
mod draw;
#[path = "../tests/cross/ffi.rs"]
#[allow(dead_code)]
mod ffi;
mod gains;
mod gather;
#[allow(dead_code)]
mod line;
mod measure;
mod tables;
mod uncoded;

use gather::{failed, put};

fn read(folder: &str, name: &str) -> String {
    let path = format!("{folder}/{name}");
    std::fs::read_to_string(&path).unwrap_or_else(|why| failed(&path, &format!("{why}; measure first")))
}

fn drawn(folder: &str) {
    let [points, delay, waterfall] =
        ["constellations.txt", "delay.txt", "waterfall.txt"].map(|name| read(folder, name));
    for (name, text) in [
        ("gains.txt", gains::gains(&waterfall)),
        ("constellations.svg", draw::constellations(&points)),
        ("delay.svg", draw::delay(&delay)),
        ("haste.svg", draw::haste(&delay)),
        ("waterfall.svg", draw::waterfall(&waterfall)),
    ] {
        put(&format!("{folder}/{name}"), &text);
    }
}

fn main() {
    let words: Vec<String> = std::env::args().skip(1).collect();
    let words: Vec<&str> = words.iter().map(String::as_str).collect();
    match words[..] {
        ["measure", folder] => measure::measured(folder, &measure::WHOLE),
        ["quick", folder] => measure::measured(folder, &measure::QUICK),
        ["draw", folder] => drawn(folder),
        ["tables", folder] => print!("{}", tables::all(|name| read(folder, name))),
        _ => {
            eprintln!("pictures measure|quick|draw|tables FOLDER");
            std::process::exit(2);
        }
    }
}
