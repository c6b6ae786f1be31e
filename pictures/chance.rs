//! Chance that is the same on every machine: a seeded generator, normal noise, and the functions of real numbers that the
//! pictures need.
//!
//! All is made of sums, differences, products, quotients and square roots of doubles. IEEE 754 fixes each of these to the
//! last bit, and Rust neither reorders nor fuses them. Logarithm and exponential are written out by them here, for those of
//! a machine's own library may differ in the last bit.

use std::f64::consts::{LN_10, LN_2, PI, SQRT_2};
use std::sync::OnceLock;

// ---- functions

/// 1/k for the odd k up to 21: the series of ln((1 + s)/(1 - s))/2 in s².
const ODD: [f64; 11] = [
    1.0,
    1.0 / 3.0,
    1.0 / 5.0,
    1.0 / 7.0,
    1.0 / 9.0,
    1.0 / 11.0,
    1.0 / 13.0,
    1.0 / 15.0,
    1.0 / 17.0,
    1.0 / 19.0,
    1.0 / 21.0,
];

/// The logarithm of a positive number that is not denormal: x is m·2^e with m near 1, where the series is short.
pub fn ln(x: f64) -> f64 {
    let bits = x.to_bits();
    let mut e = (bits >> 52) as i32 - 1023;
    let mut m = f64::from_bits(bits & ((1 << 52) - 1) | 1023 << 52);
    if m > SQRT_2 {
        m *= 0.5;
        e += 1;
    }
    let s = (m - 1.0) / (m + 1.0);
    let sum = ODD.iter().rev().fold(0.0, |sum, odd| sum * (s * s) + odd);
    2.0 * s * sum + e as f64 * LN_2
}

/// The exponential, 0 below -700.
pub fn exp(x: f64) -> f64 {
    if x < -700.0 {
        return 0.0;
    }
    let e = (x / LN_2).round();
    let r = x - e * LN_2;
    let sum = (1..=20).rev().fold(1.0, |sum, k| 1.0 + sum * r / k as f64);
    sum * f64::from_bits(((1023 + e as i64) as u64) << 52)
}

/// The ratio that so many decibels are, and the other way round.
pub fn ratio(decibels: f64) -> f64 {
    exp(decibels / 10.0 * LN_10)
}

pub fn decibels(ratio: f64) -> f64 {
    10.0 / LN_10 * ln(ratio)
}

/// Q(x), the share of a normal variable beyond x deviations, x not negative: by Laplace's continued fraction beyond 3, below
/// that by a series.
pub fn tail(x: f64) -> f64 {
    let density = exp(-x * x / 2.0) / (2.0 * PI).sqrt();
    if x > 3.0 {
        return density / (1..60).rev().fold(x, |below, k| x + k as f64 / below);
    }
    let (mut term, mut sum, mut k) = (x, x, 1.0);
    while term > 1e-17 {
        k += 2.0;
        term *= x * x / k;
        sum += term;
    }
    0.5 - density * sum
}

// ---- the generator

/// How many layers of equal area the bell is cut into, and where the lowest begins to be its tail: Marsaglia and Tsang, "The
/// Ziggurat Method for Generating Random Variables", 2000.
const LAYERS: usize = 256;
const EDGE: f64 = 3.6541528853610088;

/// The bell that the layers fill: e^(-x²/2).
fn bell(x: f64) -> f64 {
    exp(-x * x / 2.0)
}

/// How far layer i reaches, and the bell's height there; the lowest layer is as wide as its area asks, tail and all.
struct Layers {
    reach: [f64; LAYERS + 1],
    height: [f64; LAYERS + 1],
}

/// The layers, made at their first use.
fn layers() -> &'static Layers {
    static MADE: OnceLock<Layers> = OnceLock::new();
    MADE.get_or_init(|| {
        let area = EDGE * bell(EDGE) + (2.0 * PI).sqrt() * tail(EDGE);
        let mut reach = [0.0; LAYERS + 1];
        (reach[0], reach[1]) = (area / bell(EDGE), EDGE);
        for i in 2..LAYERS {
            reach[i] = (-2.0 * ln(bell(reach[i - 1]) + area / reach[i - 1])).sqrt();
        }
        Layers { reach, height: reach.map(bell) }
    })
}

/// xoshiro256++ of Blackman and Vigna, its state drawn from a seed by SplitMix64 as they advise; normal noise by a ziggurat.
pub struct Rng {
    state: [u64; 4],
    layers: &'static Layers,
}

impl Rng {
    pub fn new(seed: u64) -> Rng {
        let mut z = seed;
        let state = std::array::from_fn(|_| {
            z = z.wrapping_add(0x9e37_79b9_7f4a_7c15);
            let a = (z ^ (z >> 30)).wrapping_mul(0xbf58_476d_1ce4_e5b9);
            let b = (a ^ (a >> 27)).wrapping_mul(0x94d0_49bb_1331_11eb);
            b ^ (b >> 31)
        });
        Rng { state, layers: layers() }
    }

    pub fn next(&mut self) -> u64 {
        let s = &mut self.state;
        let out = s[0].wrapping_add(s[3]).rotate_left(23).wrapping_add(s[0]);
        let t = s[1] << 17;
        s[2] ^= s[0];
        s[3] ^= s[1];
        s[1] ^= s[2];
        s[0] ^= s[3];
        s[2] ^= t;
        s[3] = s[3].rotate_left(45);
        out
    }

    /// Even in 0 to 1, 0 left out, in steps of 2^-53.
    fn part(&mut self) -> f64 {
        ((self.next() >> 11) + 1) as f64 / (1u64 << 53) as f64
    }

    pub fn happens(&mut self, share: f64) -> bool {
        share > 0.0 && self.part() <= share
    }

    /// Normal with deviation 1, exact but for rounding: a layer by eight bits of a draw, a place in it by 53 others.
    pub fn normal(&mut self) -> f64 {
        let Layers { reach, height } = self.layers;
        loop {
            let bits = self.next();
            let i = bits as usize % LAYERS;
            let x = reach[i] * ((bits >> 11) as f64 / (1u64 << 52) as f64 - 1.0);
            if x.abs() < reach[i + 1] {
                return x;
            }
            if i == 0 {
                return self.beyond().copysign(x);
            }
            let (low, high) = (height[i], height[i + 1]);
            if low + (high - low) * self.part() < bell(x) {
                return x;
            }
        }
    }

    /// What lies beyond EDGE, by Marsaglia's way for tails.
    fn beyond(&mut self) -> f64 {
        loop {
            let a = -ln(self.part()) / EDGE;
            let b = -ln(self.part());
            if 2.0 * b > a * a {
                return EDGE + a;
            }
        }
    }
}

#[cfg(test)]
mod tests {
    use super::*;

    fn near(a: f64, b: f64) -> bool {
        (a - b).abs() <= 4e-15 * b.abs().max(1e-300)
    }

    #[test]
    fn functions_are_the_machines() {
        for i in 1..20_000 {
            let x = i as f64 / 1000.0;
            assert!((ln(x) - x.ln()).abs() < 2e-15, "ln {x}");
            assert!(near(exp(x), x.exp()) && near(exp(-x), (-x).exp()), "exp {x}");
        }
        assert!(near(ratio(10.0), 10.0) && (decibels(1000.0) - 30.0).abs() < 1e-13);
    }

    /// Values of the tables, to the digits that they have.
    #[test]
    fn tail_is_the_tables() {
        for (x, q) in [(0.0, 0.5), (1.0, 0.158655254), (2.0, 0.0227501319), (3.0, 1.34989803e-3), (4.0, 3.16712418e-5)]
        {
            assert!((tail(x) / q - 1.0).abs() < 1e-8, "Q({x})");
        }
        assert!((tail(5.0) / 2.86651572e-7 - 1.0).abs() < 1e-8 && (tail(6.0) / 9.86587645e-10 - 1.0).abs() < 1e-8);
        assert!((tail(3.0 - 1e-9) / tail(3.0 + 1e-9) - 1.0).abs() < 1e-7);
    }

    /// The layers end at the bell's top, as they do for the right edge alone.
    #[test]
    fn layers_fill_the_bell() {
        let Layers { reach, height } = layers();
        let (area, top) = (reach[0] * height[1], LAYERS - 1);
        assert!((height[top] + area / reach[top] - 1.0).abs() < 1e-12);
        assert!((0..LAYERS).all(|i| reach[i] > reach[i + 1]));
    }

    /// Shares beyond 0.25 to 5 deviations, each side by itself, within five deviations of their own.
    #[test]
    fn noise_is_normal() {
        let (mut rng, n) = (Rng::new(7), 40_000_000);
        let mut beyond = [[0u64; 21]; 2];
        let (mut sum, mut squares, mut pairs, mut last) = (0.0, 0.0, 0.0, 0.0);
        for _ in 0..n {
            let z = rng.normal();
            sum += z;
            squares += z * z;
            pairs += z * last;
            last = z;
            let quarters = ((4.0 * z.abs()) as usize).min(20);
            beyond[(z < 0.0) as usize][quarters] += 1;
        }
        let root = (n as f64).sqrt();
        assert!((sum / root).abs() < 5.0 && (pairs / root).abs() < 5.0);
        assert!(((squares - n as f64) / root).abs() < 5.0 * SQRT_2);
        for side in beyond {
            for k in 1..21 {
                let (count, mean) = (side[k..].iter().sum::<u64>(), tail(k as f64 / 4.0) * n as f64);
                assert!((count as f64 - mean).abs() < 5.0 * mean.sqrt(), "beyond {k}/4: {count}, expected {mean}");
            }
        }
    }
}
