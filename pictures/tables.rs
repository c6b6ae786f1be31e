//! The tables of docs/LINE.md, from those that were measured: tests/pictures holds the document to them.

use crate::gather::rows;
use crate::line::LOOKBACK;
use crate::measure::{drawn, ENDS, WIDTHS};
use std::fmt::Write;

/// A count, as so many in a million, to two digits.
fn million(count: f64, of: f64) -> String {
    let share = 1e6 * count / of;
    if share >= 100.0 {
        let scale = 10f64.powi(share.log10().floor() as i32 - 1);
        let digits = format!("{}", (share / scale).round() * scale);
        let groups: Vec<&str> =
            digits.as_bytes().rchunks(3).rev().map(|g| std::str::from_utf8(g).expect("digits")).collect();
        groups.join(",")
    } else if share >= 10.0 || share == 0.0 {
        format!("{share:.0}")
    } else if share >= 1.0 {
        format!("{share:.1}")
    } else {
        format!("{share:.2}")
    }
}

fn find(table: &[Vec<f64>], width: u32, ratio: f64) -> &[f64] {
    table.iter().find(|r| r[0] == width as f64 && r[1] == ratio).expect("measured")
}

/// Which ratio each rate of wrong words needs, and what the code gains.
fn gains(gains: &[Vec<f64>], energies: &[Vec<f64>]) -> String {
    let mut out = String::from(
        "| width | bits a 2D point | dB for 10⁻⁵ | uncoded | gain | dB for 10⁻⁶ | uncoded | gain | in the limit | noise for 10⁻⁶ |\n\
         |---|---|---|---|---|---|---|---|---|---|\n",
    );
    for r in gains {
        write!(out, "| {} | {} |", r[0], r[0] + 1.5).unwrap();
        r[1..7].iter().for_each(|v| write!(out, " {v:.2} |").unwrap());
        writeln!(out, " {:.2} | {:.1} |", energies[r[0] as usize][8], r[10]).unwrap();
    }
    out
}

/// What each width needs.
fn widths(energies: &[Vec<f64>]) -> String {
    let mut out =
        [String::from("| width |"), String::from("|---|"), String::from("| bits a word |"), String::from("| dB |")];
    for e in energies {
        out.iter_mut().zip([e[0].to_string(), "---".into(), e[1].to_string(), format!("{:.1}", e[10])]).for_each(
            |(row, v)| {
                let space = if v == "---" { "" } else { " " };
                write!(row, "{space}{v}{space}|").unwrap();
            },
        );
    }
    out.join("\n") + "\n"
}

/// The gains as the documents count them.
fn documents(gains: &[Vec<f64>], energies: &[Vec<f64>]) -> String {
    let mut out =
        String::from("| width | in the limit | at 10⁻⁶ | coefficient | wrong words a burst |\n|---|---|---|---|---|\n");
    for r in gains {
        let limit = energies[r[0] as usize][9];
        writeln!(out, "| {} | {limit:.2} | {:.2} | {:.1} | {:.1} |", r[0], r[14], r[15], r[16]).unwrap();
    }
    out
}

/// How late words are final, and what haste and a window cost, in a million words.
fn delays(delay: &[Vec<f64>]) -> String {
    let mut out = String::from(
        "| width | dB | wrong | half final after | 99 % after | later than 16 | window for all but 10⁻⁶ | 6 with 16 | 6 with 32 | 6 with 64 | \
         denied |\n|---|---|---|---|---|---|---|---|---|---|---|\n",
    );
    for (width, ratio) in WIDTHS.into_iter().flat_map(|width| drawn(width).map(|r| (width, r))) {
        let r = find(delay, width, ratio);
        let of = |count: f64| million(count, r[2]);
        let after = |share: f64| r[12..].iter().position(|not| *not <= share * r[2]).expect("within the window");
        let window = if r[11] < 65.0 { r[11].to_string() } else { "above 64".into() };
        write!(out, "| {width} | {ratio} | {} | {} | {} |", of(r[3]), after(0.5), after(0.01)).unwrap();
        write!(out, " {} | {window} |", of(r[12 + LOOKBACK])).unwrap();
        writeln!(out, " {} | {} | {} | {} |", of(r[6]), of(r[7]), of(r[8]), of(r[4])).unwrap();
    }
    out
}

/// How many more words are wrong for each 6, with windows 16 and 32.
fn sixes(delay: &[Vec<f64>]) -> String {
    let mut out = String::from("| width | dB | with 16 | with 32 |\n|---|---|---|---|\n");
    for (width, ratio) in
        WIDTHS.into_iter().flat_map(|width| drawn(width)[..2].to_vec().into_iter().map(move |r| (width, r)))
    {
        let r = find(delay, width, ratio);
        let more =
            |sixes: f64, wrong: f64| if sixes < 100.0 { "".into() } else { format!("{:.1}", (wrong - r[3]) / sixes) };
        writeln!(out, "| {width} | {ratio} | {} | {} |", more(r[6], r[9]), more(r[7], r[10])).unwrap();
    }
    out
}

/// Words that are wrong at the ends of a line, in a million, beside those of a line that goes on.
fn ends(ends: &[Vec<f64>], delay: &[Vec<f64>]) -> String {
    let mut out = String::from(
        "| width | dB | first | second | fourth | eighth | in the middle | twelfth last | eighth last | fourth last | second last | last |\n\
         |---|---|---|---|---|---|---|---|---|---|---|---|\n",
    );
    for width in WIDTHS {
        let ratio = drawn(width)[2];
        let (r, d) = (find(ends, width, ratio), find(delay, width, ratio));
        let place = |n: usize| million(r[n], r[2]);
        write!(out, "| {width} | {ratio} |").unwrap();
        [3, 4, 6, 10].iter().for_each(|n| write!(out, " {} |", place(*n)).unwrap());
        write!(out, " {} |", million(d[3], d[2])).unwrap();
        [11, 7, 3, 1, 0].iter().for_each(|n| write!(out, " {} |", place(2 + 2 * ENDS - n)).unwrap());
        out.push('\n');
    }
    out
}

/// All tables, one after the other.
pub fn all(read: impl Fn(&str) -> String) -> String {
    let [g, e, d, s] = ["gains.txt", "energies.txt", "delay.txt", "ends.txt"].map(|name| rows(&read(name)));
    [gains(&g, &e), widths(&e), documents(&g, &e), delays(&d), sixes(&d), ends(&s, &d)].join("\n")
}
