//! What follows from the table of the waterfall: where each rate is reached, and what the code gains.

use crate::chance::{decibels, tail};
use crate::gather::rows;
use crate::line::{deviation, energy};
use crate::measure::WIDTHS;
use crate::uncoded::{reached, Square, Uncoded};
use std::fmt::Write;

const HEAD: &str = "\
# From waterfall.txt, between two of its rows by the logarithm; NaN where it does not go so far.
# coded, uncoded: decibels at which the word error rate is 1e-5 and 1e-6, measured and by the formula; gain: how many the code gains
# there, over two uncoded points with as many bits; over_square: over squares of 2^(width + 1.5) points. deviation: the noise of a
# coordinate at coded, in line units, of which neighbouring points stand 256 apart. even: where the code begins to gain.
# As the documents count: bursts and points are the decibels at which bursts a 2D point, and wrong points of such squares, are 1e-6;
# book_gain: the difference; coefficient: bursts a 2D point in the last row, over Q(256 / deviation); a_burst: wrong words a burst there.
# width coded_1e-5 uncoded_1e-5 gain_1e-5 coded_1e-6 uncoded_1e-6 gain_1e-6 over_square_1e-5 over_square_1e-6 deviation_1e-5
# .. deviation_1e-6 even bursts points book_gain coefficient a_burst
";

/// A column of a width's rows, by decibels.
pub fn curve(table: &[Vec<f64>], width: u32, of: impl Fn(&[f64]) -> f64) -> Vec<(f64, f64)> {
    table.iter().filter(|r| r[0] == width as f64).map(|r| (r[1], of(r))).collect()
}

/// The decibels at which a falling curve of (decibels, rate) has a rate, between two of its points by the logarithm.
pub fn crossing(curve: &[(f64, f64)], rate: f64) -> Option<f64> {
    curve.windows(2).find_map(|w| {
        let ((a, p), (b, q)) = (w[0], w[1]);
        (p >= rate && q < rate).then(|| a + (b - a) * decibels(p / rate) / decibels(p / q))
    })
}

/// The gains as a table.
pub fn gains(waterfall: &str) -> String {
    let data = rows(waterfall);
    let mut out = String::from(HEAD);
    for width in WIDTHS {
        let (plain, square, e) = (Uncoded::new(width), Square::new(width), energy(0, width));
        let wrong = curve(&data, width, |r| r[3] / r[2]);
        let bursts = curve(&data, width, |r| r[4] / r[2] / 2.0);
        let at = |curve: &[(f64, f64)], rate| crossing(curve, rate).unwrap_or(f64::NAN);
        let rates = [1e-5, 1e-6];
        write!(out, "{width}").unwrap();
        for rate in rates {
            let (coded, uncoded) = (at(&wrong, rate), reached(rate, |d| plain.wrong(d)));
            write!(out, " {coded:.2} {uncoded:.2} {:.2}", uncoded - coded).unwrap();
        }
        for rate in rates {
            write!(out, " {:.2}", reached(rate, |d| square.wrong(d)) - at(&wrong, rate)).unwrap();
        }
        for rate in rates {
            write!(out, " {:.1}", deviation(e, at(&wrong, rate))).unwrap();
        }
        let beside: Vec<(f64, f64)> = wrong.iter().map(|&(d, p)| (d, p / plain.wrong(d))).collect();
        let (burst, point) = (at(&bursts, 1e-6), reached(1e-6, |d| square.point_wrong(d)));
        let (last, rate) = *bursts.last().expect("a row");
        let coefficient = rate / tail(256.0 / deviation(e, last));
        write!(out, " {:.1} {burst:.2} {point:.2} {:.2} {coefficient:.1}", at(&beside, 1.0), point - burst).unwrap();
        writeln!(out, " {:.1}", wrong.last().expect("a row").1 / rate / 2.0).unwrap();
    }
    out
}
