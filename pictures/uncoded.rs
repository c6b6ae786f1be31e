//! What uncoded points would do on the same line: the measure that the code is held to, by formulas.
//!
//! A word of 3 + 2u bits goes out as two points without a code: one of u + 1 bits and one of u + 2 bits, squares and crosses
//! of one and the same spacing. So it has as many bits and as many points as a coded word, and some modem could send it.

use crate::chance::{exp, ratio, tail};
use std::f64::consts::LN_2;

/// The points of 2^bits on a grid of spacing 2: a square for even bits, for odd ones a square without its corners. With 3 bits
/// there is no such cross, but half a square of 16; with 1 bit there are two points.
fn grid(bits: u32) -> Vec<(i32, i32)> {
    let (across, up, corner) = match bits {
        1 => (2, 1, 0),
        3 => (4, 2, 0),
        b if b % 2 == 0 => (1 << (b / 2), 1 << (b / 2), 0),
        b => (6 << ((b - 5) / 2), 6 << ((b - 5) / 2), 1 << ((b - 5) / 2)),
    };
    let odd = |n: i32| (0..n).map(move |i| 2 * i + 1 - n);
    let cut = |c: i32, n: i32| c.abs() > n - 2 * corner;
    let all = odd(across).flat_map(|x| odd(up).map(move |y| (x, y)));
    all.filter(|&(x, y)| !(cut(x, across) && cut(y, up))).collect()
}

/// The energy of a point of so many bits, on the average: its square's distance from the middle.
pub fn energy(bits: u32) -> f64 {
    let points = grid(bits);
    points.iter().map(|(x, y)| x * x + y * y).sum::<i32>() as f64 / points.len() as f64
}

/// How many points of so many bits have h neighbours beside them and v above and below: the share of each h and v.
fn neighbours(bits: u32) -> [[f64; 3]; 3] {
    let points = grid(bits);
    let mut share = [[0.0; 3]; 3];
    for (x, y) in &points {
        let has = |dx: i32, dy: i32| points.contains(&(x + dx, y + dy)) as usize;
        share[has(2, 0) + has(-2, 0)][has(0, 2) + has(0, -2)] += 1.0 / points.len() as f64;
    }
    share
}

/// Two constellations for one word.
pub struct Uncoded {
    pub energy: f64,
    shares: [[[f64; 3]; 3]; 2],
}

impl Uncoded {
    pub fn new(width: u32) -> Uncoded {
        let bits = [width + 1, width + 2];
        Uncoded { energy: (energy(bits[0]) + energy(bits[1])) / 2.0, shares: bits.map(neighbours) }
    }

    /// The share of wrong words. With Q the chance that noise passes half the spacing, a point with h neighbours beside it and v
    /// above and below is right with (1 - hQ)(1 - vQ), which is exact in squares; in a cross it leaves out that points beside a
    /// missing corner may be taken for each other, which is rarer by orders of magnitude. A word is right if both points are.
    pub fn wrong(&self, decibels: f64) -> f64 {
        let q = tail((2.0 * ratio(decibels) / self.energy).sqrt());
        let mut missed = [0.0; 2];
        for (missed, share) in missed.iter_mut().zip(&self.shares) {
            for (h, v) in (0..9).map(|i| (i / 3, i % 3)) {
                let (h, v, part) = (h as f64, v as f64, share[h][v]);
                *missed += part * (h * q + v * q - h * v * q * q);
            }
        }
        missed[0] + missed[1] - missed[0] * missed[1]
    }
}

/// The same by the formula of a square of M = 2^(u + 1.5) points, which need not be a whole number: no modem sends them, but it
/// compares all widths alike, and it is what the books' gains are over. A point is wrong with 1 - (1 - 2(1 - 1/√M)Q)², where
/// Q is taken at √(3S/(M - 1)).
pub struct Square {
    m: f64,
}

impl Square {
    pub fn new(width: u32) -> Square {
        Square { m: exp((width as f64 + 1.5) * LN_2) }
    }

    /// The energy of such a square on a grid of spacing 2.
    pub fn energy(&self) -> f64 {
        2.0 / 3.0 * (self.m - 1.0)
    }

    pub fn point_wrong(&self, decibels: f64) -> f64 {
        let q = tail((3.0 * ratio(decibels) / (self.m - 1.0)).sqrt());
        let side = 2.0 * (1.0 - 1.0 / self.m.sqrt()) * q;
        2.0 * side - side * side
    }

    pub fn wrong(&self, decibels: f64) -> f64 {
        let p = self.point_wrong(decibels);
        2.0 * p - p * p
    }
}

/// The decibels at which a falling share is reached.
pub fn reached(share: f64, of: impl Fn(f64) -> f64) -> f64 {
    let (mut low, mut high) = (-20.0, 80.0);
    for _ in 0..60 {
        let middle = (low + high) / 2.0;
        if of(middle) > share {
            low = middle;
        } else {
            high = middle;
        }
    }
    (low + high) / 2.0
}

#[cfg(test)]
mod tests {
    use super::*;
    use crate::chance::Rng;

    #[test]
    fn known_energies() {
        let known = [(1, 1.0), (2, 2.0), (3, 6.0), (4, 10.0), (5, 20.0), (6, 42.0), (7, 82.0), (9, 330.0), (10, 682.0)];
        for (bits, e) in known {
            assert_eq!((grid(bits).len(), energy(bits)), (1 << bits, e));
        }
    }

    /// The formula beside points sent through noise and taken for the nearest.
    #[test]
    fn formula_is_what_happens() {
        let mut rng = Rng::new(3);
        for (width, decibels) in [(0, 8.0), (2, 15.0), (5, 24.0)] {
            let u = Uncoded::new(width);
            let sigma = (u.energy / (2.0 * ratio(decibels))).sqrt();
            let (n, mut wrong) = (20_000, 0);
            let grids = [grid(width + 1), grid(width + 2)];
            for _ in 0..n {
                wrong += grids.iter().fold(0, |bad, grid| {
                    let (x, y) = grid[rng.next() as usize % grid.len()];
                    let (a, b) = (x as f64 + sigma * rng.normal(), y as f64 + sigma * rng.normal());
                    let far = |&(x, y): &(i32, i32)| (a - x as f64) * (a - x as f64) + (b - y as f64) * (b - y as f64);
                    bad | grid.iter().any(|p| far(p) < far(&(x, y))) as i32
                });
            }
            let mean = u.wrong(decibels) * n as f64;
            assert!((wrong as f64 - mean).abs() < 4.0 * mean.sqrt(), "width {width}: {wrong}, expected {mean}");
        }
    }

    #[test]
    fn squares_agree_with_the_formula() {
        let four = Square { m: 16.0 };
        let e = Uncoded { energy: energy(4), shares: [neighbours(4), neighbours(4)] };
        assert!((four.energy() - 10.0).abs() < 1e-12 && (four.wrong(15.0) / e.wrong(15.0) - 1.0).abs() < 1e-9);
    }
}
