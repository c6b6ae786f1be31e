//! The library's search in plain Rust: at widths below 5 every point is tried, from there on the nearest place is looked up, and where it
//! shows no point of the width, four columns are looked at.
//!
//! The A points stand 512 line units apart. See `crates/columns`, whose steps these are, and `crates/places` for the table.

use crate::fast::{turned_back, Near, Search, A_POINTS, CAP};

pub struct Columns;

/// A coordinate is counted so that the middle point, (1, 1), stands at place 24.
const ZERO: i32 = 95 * 128;
const MIDDLE: u32 = 24 * 512;
/// No place of the table is further from zero.
const NEAR: u32 = 37 * 128;

/// The numbers by place, 255 for none; for each width from 5 on and each view the last four columns with their last rows. A view is 4
/// for left, 2 for down, 1 for along y.
struct Table {
    number: [u8; 361],
    rim: [[[(u8, u8); 4]; 8]; 4],
}

/// Where column m and row e of a view stand in the table.
const fn index(view: usize, m: usize, e: usize) -> usize {
    let (x, y) = if view % 2 == 1 { (e, m) } else { (m, e) };
    let across = if view / 4 == 1 { 9 - x } else { 9 + x };
    let up = if view / 2 % 2 == 1 { 9 - y } else { 9 + y };
    across * 19 + up
}

static TABLE: Table = {
    let mut t = Table { number: [255; 361], rim: [[[(0, 0); 4]; 8]; 4] };
    let mut w = 0;
    while w < 256 {
        let (x, y) = A_POINTS[w];
        t.number[((x + 35) / 4 * 19 + (y + 35) / 4) as usize] = w as u8;
        w += 1;
    }
    let mut k = 0;
    while k < 32 {
        let (v, view) = (k / 8, k % 8);
        // how many rows each column has, from the points themselves
        let mut heights = [0; 10];
        let mut w = 0;
        while w < 32 << v {
            let (x, y) = A_POINTS[w];
            let x = (x - 1) / 4 * if view / 4 == 1 { -1 } else { 1 };
            let y = (y - 1) / 4 * if view / 2 % 2 == 1 { -1 } else { 1 };
            let (m, e) = if view % 2 == 1 { (y, x) } else { (x, y) };
            if m >= 0 && e >= 0 && heights[m as usize] < e as u8 + 1 {
                heights[m as usize] = e as u8 + 1;
            }
            w += 1;
        }
        let mut columns = 0;
        while columns < 10 && heights[columns] > 0 {
            columns += 1;
        }
        let mut i = 0;
        while i < 4 {
            let m = if columns < 4 { i } else { columns - 4 + i };
            let m = if m < columns { m } else { columns - 1 };
            t.rim[v][view][i] = (m as u8, heights[m] - 1);
            i += 1;
        }
        k += 1;
    }
    t
};

#[inline(always)]
fn square(a: u32) -> u32 {
    a * a
}

/// The nearest place of a count, halves towards the middle.
#[inline(always)]
fn placed(v: u32) -> u32 {
    (if v < MIDDLE { v + 256 } else { v + 255 }) / 512
}

/// The least key of the rim, as seen from the middle along the longer side.
#[inline(never)]
fn outer(u: u32, x: u32, y: u32) -> u32 {
    let (left, down) = ((x < MIDDLE) as usize, (y < MIDDLE) as usize);
    let (x, y) = (x.abs_diff(MIDDLE), y.abs_diff(MIDDLE));
    let along_y = x < y;
    let (far, short) = if along_y { (y, x) } else { (x, y) };
    let view = 4 * left + 2 * down + along_y as usize;
    let mut best = u32::MAX;
    for (m, top) in TABLE.rim[u as usize - 5][view] {
        let e = ((short + 255) / 512).min(top as u32);
        let number = TABLE.number[index(view, m as usize, e as usize)];
        best = best.min(square(far.abs_diff(512 * m as u32)) + square(short.abs_diff(512 * e)) + number as u32);
    }
    best
}

#[inline(always)]
fn near_key(u: u32, x: u32, y: u32) -> u32 {
    let (m, e) = (placed(x), placed(y));
    let w = TABLE.number[(m * 19 + e - 300) as usize] as u32;
    if w + 1 < 1 << u {
        return square(x.abs_diff(512 * m)) + square(y.abs_diff(512 * e)) + w;
    }
    outer(u, x, y)
}

impl Search for Columns {
    #[inline(always)]
    fn nearest(points: usize, x: i32, y: i32) -> Near {
        if points < 32 {
            return every(points, x, y);
        }
        let u = points.trailing_zeros();
        // all distances leave the remainder of the first one modulo 256, and numbers are below that
        let rest = ((x - 128) * (x - 128) + (y - 128) * (y - 128)) as u32 % 256;
        let near = x.unsigned_abs() <= NEAR && y.unsigned_abs() <= NEAR;
        turned_back(x, y).map(|(x, y)| {
            let (x, y) = ((x + ZERO) as u32, (y + ZERO) as u32);
            let key = if near { near_key(u, x, y) } else { outer(u, x, y) };
            let w = (key - rest) % 256;
            ((key - w).min(CAP), w)
        })
    }
}

/// Every point, by keys of 32 bits.
#[inline(always)]
fn every(points: usize, x: i32, y: i32) -> Near {
    let heard = turned_back(x, y);
    let rest = ((x - 128) * (x - 128) + (y - 128) * (y - 128)) as u32 % 256;
    let mut least = [u32::MAX; 4];
    for (w, &(px, py)) in A_POINTS[..points].iter().enumerate() {
        for l in 0..4 {
            let (dx, dy) = (128 * px - heard[l].0, 128 * py - heard[l].1);
            least[l] = least[l].min((dx * dx + dy * dy) as u32 + w as u32);
        }
    }
    least.map(|key| {
        let w = (key - rest) % 256;
        ((key - w).min(CAP), w)
    })
}
