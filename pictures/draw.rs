//! The pictures as SVG, from the tables that `measure` wrote. Each stands on a paper of its own and follows a page that says
//! whether it is light or dark; nothing is fetched, and the text is text.

use crate::gains::{crossing, curve};
use crate::gather::rows;
use crate::measure::{drawn, first, SHOWN, WIDTHS, WINDOWS};
use crate::uncoded::{reached, Uncoded};
use std::fmt::{Arguments, Write};

/// Ink on paper, and four colours that are told apart without red and green (Okabe and Ito); light, then dark.
const STYLE: &str = "<style>
text{font:13px system-ui,-apple-system,'Segoe UI','DejaVu Sans',sans-serif;fill:#24292f}
.small{font-size:11px}.tiny{font-size:8.5px}.title{font-size:15px;font-weight:600}.paper{fill:#fff}.on{fill:#fff}
.frame{fill:none;stroke:#6e7781}.grid{stroke:#dde3e9}.mark{fill:none;stroke:#24292f;stroke-width:1.4}
.c0{stroke:#0072b2}.c1{stroke:#d55e00}.c2{stroke:#009e73}.c3{stroke:#a8508a}.c4{stroke:#57606a}
.f0{fill:#0072b2}.f1{fill:#d55e00}.f2{fill:#009e73}.f3{fill:#a8508a}.f4{fill:#57606a}
.curve{fill:none;stroke-width:2;stroke-linejoin:round}.dashed{stroke-dasharray:6 4;stroke-width:1.5}.dots{stroke-dasharray:2 3}
@media(prefers-color-scheme:dark){
text{fill:#e6edf3}.paper,.on{fill:#0d1117}.frame{stroke:#8b949e}.grid{stroke:#2a3038}.mark{stroke:#e6edf3}
.c0{stroke:#56b4e9}.c1{stroke:#f0883e}.c2{stroke:#3fb68b}.c3{stroke:#dd9cc9}.c4{stroke:#a0a8b1}
.f0{fill:#56b4e9}.f1{fill:#f0883e}.f2{fill:#3fb68b}.f3{fill:#dd9cc9}.f4{fill:#a0a8b1}}
</style>";

struct Svg {
    body: String,
    wide: f64,
    high: f64,
}

impl Svg {
    fn new(wide: f64, high: f64, title: &str) -> Svg {
        let mut svg = Svg { body: String::new(), wide, high };
        svg.put(format_args!(
            "<title>{title}</title>\n{STYLE}\n<rect class=\"paper\" width=\"100%\" height=\"100%\"/>"
        ));
        svg.text(24.0, 28.0, "title", "start", title);
        svg
    }

    fn put(&mut self, text: Arguments) {
        self.body.write_fmt(text).unwrap();
        self.body.push('\n');
    }

    fn text(&mut self, x: f64, y: f64, class: &str, anchor: &str, words: &str) {
        let class = if class.is_empty() { String::new() } else { format!(" class=\"{class}\"") };
        self.put(format_args!("<text x=\"{x:.1}\" y=\"{y:.1}\"{class} text-anchor=\"{anchor}\">{words}</text>"));
    }

    fn upright(&mut self, x: f64, y: f64, words: &str) {
        self.put(format_args!(
            "<text transform=\"translate({x:.1} {y:.1}) rotate(-90)\" class=\"small\" text-anchor=\"middle\">{words}</text>"
        ));
    }

    fn stroke(&mut self, class: &str, (x1, y1): (f64, f64), (x2, y2): (f64, f64)) {
        self.put(format_args!("<line class=\"{class}\" x1=\"{x1:.1}\" y1=\"{y1:.1}\" x2=\"{x2:.1}\" y2=\"{y2:.1}\"/>"));
    }

    fn disc(&mut self, class: &str, x: f64, y: f64, radius: f64) {
        self.put(format_args!("<circle class=\"{class}\" cx=\"{x:.1}\" cy=\"{y:.1}\" r=\"{radius:.1}\"/>"));
    }

    fn key(&mut self, x: f64, y: f64, class: &str, words: &str) {
        self.stroke(&format!("curve {class}"), (x, y - 4.0), (x + 26.0, y - 4.0));
        self.text(x + 33.0, y, "small", "start", words);
    }

    fn done(self) -> String {
        let Svg { body, wide, high } = self;
        format!(
            "<svg xmlns=\"http://www.w3.org/2000/svg\" viewBox=\"0 0 {wide} {high}\" width=\"{wide}\" height=\"{high}\" \
             role=\"img\">\n{body}</svg>\n"
        )
    }
}

// ---- a panel with powers of ten

/// A power of ten, as text.
fn power(exponent: i32) -> String {
    let digits = exponent.abs().to_string();
    let raised = digits.chars().map(|c| "⁰¹²³⁴⁵⁶⁷⁸⁹".chars().nth(c as usize - '0' as usize).expect("a digit"));
    format!("10{}{}", if exponent < 0 { "⁻" } else { "" }, raised.collect::<String>())
}

/// Shares from 10^floor to 1, with 1 at the top; or what is left of them, with 1 at the bottom, so that the axis is the other part:
/// 0, 90, 99 per cent and so on.
struct Panel {
    left: f64,
    top: f64,
    wide: f64,
    high: f64,
    from: f64,
    to: f64,
    floor: i32,
    nines: bool,
}

impl Panel {
    fn x(&self, v: f64) -> f64 {
        self.left + self.wide * (v - self.from) / (self.to - self.from)
    }

    fn y(&self, share: f64) -> f64 {
        let down = share.log10() / self.floor as f64;
        self.top + self.high * if self.nines { 1.0 - down } else { down }
    }

    fn share(&self, p: i32) -> String {
        match (self.nines, p) {
            (false, 0) => "1".into(),
            (false, p) => power(p),
            (true, p) if p > -2 => format!("{} %", -90 * p),
            (true, p) if p == -2 => "99 %".into(),
            (true, p) => format!("99.{} %", "9".repeat((-p - 2) as usize)),
        }
    }

    fn axes(&self, svg: &mut Svg, step: f64, title: &str, below: &str, beside: &str) {
        let (right, bottom) = (self.left + self.wide, self.top + self.high);
        for p in self.floor..=0 {
            let y = self.y(10f64.powi(p));
            svg.stroke("grid", (self.left, y), (right, y));
            svg.text(self.left - 6.0, y + 4.0, "small", "end", &self.share(p));
        }
        let mut v = (self.from / step).ceil() * step;
        while v <= self.to + 1e-9 {
            svg.stroke("grid", (self.x(v), self.top), (self.x(v), bottom));
            svg.text(self.x(v), bottom + 16.0, "small", "middle", &v.to_string());
            v += step;
        }
        svg.put(format_args!(
            "<rect class=\"frame\" x=\"{:.1}\" y=\"{:.1}\" width=\"{:.1}\" height=\"{:.1}\"/>",
            self.left, self.top, self.wide, self.high
        ));
        svg.text(self.left + self.wide / 2.0, self.top - 9.0, "", "middle", title);
        svg.text(self.left + self.wide / 2.0, bottom + 33.0, "small", "middle", below);
        if !beside.is_empty() {
            svg.upright(self.left - 58.0, self.top + self.high / 2.0, beside);
        }
    }

    /// A curve down to the floor, and no further; it ends where nothing was counted.
    fn curve(&self, svg: &mut Svg, class: &str, points: &[(f64, f64)]) {
        let floor = 10f64.powi(self.floor);
        let mut path: Vec<(f64, f64)> = points.iter().copied().take_while(|p| p.1 >= floor).collect();
        if let (Some(&(a, p)), Some(&(b, q))) = (path.last(), points.get(path.len()).filter(|p| p.1 > 0.0)) {
            path.push((a + (b - a) * (p / floor).ln() / (p / q).ln(), floor));
        }
        let path: Vec<String> = path.iter().map(|&(x, y)| format!("{:.1},{:.1}", self.x(x), self.y(y))).collect();
        if path.len() > 1 {
            svg.put(format_args!("<polyline class=\"curve {class}\" points=\"{}\"/>", path.join(" ")));
        }
    }

    fn dots(&self, svg: &mut Svg, class: &str, points: &[(f64, f64)]) {
        for &(x, y) in points.iter().filter(|p| p.1 >= 10f64.powi(self.floor)) {
            svg.disc(class, self.x(x), self.y(y), 2.5);
        }
    }
}

/// Four panels, two by two, one for each width.
fn four(svg: &mut Svg, high: f64, mut each: impl FnMut(&mut Svg, usize, u32, f64, f64)) {
    for (n, width) in WIDTHS.into_iter().enumerate() {
        let (left, top) = (92.0 + (n % 2) as f64 * 446.0, 66.0 + (n / 2) as f64 * (high + 84.0));
        each(svg, n, width, left, top);
    }
}

// ---- constellations

/// How a map at a width is shown: its name, the radius of a point, whether points have their numbers, the ticks.
fn shown(map: u32, width: u32) -> (String, f64, bool, &'static [i32]) {
    match (map, width) {
        (0, 2) => ("round, u = 2".into(), 11.0, true, &[-3, -1, 1, 3]),
        (0, 5) => ("round, u = 5".into(), 8.5, true, &[-10, -5, 0, 5, 10]),
        (0, _) => (format!("round, u = {width}"), 2.2, false, &[-30, -15, 0, 15, 30]),
        (_, 2) => ("square, b = 4 (u = 2)".into(), 11.0, true, &[-3, -1, 1, 3]),
        _ => (format!("square, b = {} (u = {width})", width + 2), 4.5, false, &[-15, -5, 5, 15]),
    }
}

/// The side of a panel with points.
const SIDE: f64 = 270.0;

/// A map at a width: a point's colour is its label; its number where there is room; 01's first sixteen ringed. A row is map, width,
/// label, number, x, y.
fn points(svg: &mut Svg, dots: &[&Vec<f64>], left: f64, top: f64) {
    let (map, width) = (dots[0][0] as u32, dots[0][1] as u32);
    let (name, radius, numbered, ticks) = shown(map, width);
    let most = dots.iter().map(|r| r[4].abs().max(r[5].abs())).fold(0.0, f64::max);
    let reach = most + 1.0 + most / 40.0;
    let x = |v: f64| left + SIDE / 2.0 * (1.0 + v / reach);
    let y = |v: f64| top + SIDE / 2.0 * (1.0 - v / reach);
    svg.text(x(0.0), top - 10.0, "", "middle", &format!("{name}: {} points", dots.len()));
    svg.text(x(0.0), top + SIDE + 29.0, "small", "middle", "x");
    svg.text(left - 28.0, y(0.0) + 4.0, "small", "middle", "y");
    svg.stroke("grid", (left, y(0.0)), (left + SIDE, y(0.0)));
    svg.stroke("grid", (x(0.0), top), (x(0.0), top + SIDE));
    svg.put(format_args!("<rect class=\"frame\" x=\"{left}\" y=\"{top}\" width=\"{SIDE}\" height=\"{SIDE}\"/>"));
    for &t in ticks {
        svg.text(x(t as f64), top + SIDE + 15.0, "small", "middle", &t.to_string());
        svg.text(left - 6.0, y(t as f64) + 4.0, "small", "end", &t.to_string());
    }
    for r in dots {
        let (label, number, x, y) = (r[2], r[3], x(r[4]), y(r[5]));
        svg.disc(&format!("f{label}"), x, y, radius);
        if map == 0 && label == 0.0 && number < 16.0 {
            svg.disc("mark", x, y, radius + if numbered { 1.2 } else { 0.9 });
        }
        if numbered {
            let (class, down) = if width == 2 { ("small on", 4.0) } else { ("tiny on", 3.0) };
            svg.text(x, y + down, class, "middle", &number.to_string());
        }
    }
}

/// Each map at some widths.
pub fn constellations(table: &str) -> String {
    let data = rows(table);
    let mut svg = Svg::new(960.0, 730.0, "The points of both maps, as the sender sends them");
    let place = |n: usize| (52.0 + (n % 3) as f64 * (SIDE + 38.0), 74.0 + (n / 3) as f64 * (SIDE + 70.0));
    for (n, (map, width)) in SHOWN.into_iter().enumerate() {
        let dots: Vec<&Vec<f64>> = data.iter().filter(|r| r[0] == map as f64 && r[1] == width as f64).collect();
        points(&mut svg, &dots, place(n).0, place(n).1);
    }
    let (left, top) = place(SHOWN.len());
    for (label, name) in ["A, label 0", "C, label 1", "B, label 2", "D, label 3"].into_iter().enumerate() {
        let y = top + 26.0 + 26.0 * label as f64;
        svg.disc(&format!("f{label}"), left + 14.0, y - 4.0, 8.5);
        svg.text(left + 34.0, y, "", "start", name);
    }
    svg.disc("f0", left + 14.0, top + 126.0, 8.5);
    svg.disc("mark", left + 14.0, top + 126.0, 9.7);
    svg.text(left + 34.0, top + 130.0, "", "start", "the first sixteen A points");
    svg.text(left, top + 170.0, "small", "start", "Written on a point: its number w.");
    svg.text(left, top + 188.0, "small", "start", "x and y: coordinates, 128 line units each.");
    svg.done()
}

// ---- how late, and what haste costs

/// The share of words that are final after k more symbols, at four noises.
pub fn delay(table: &str) -> String {
    let data = rows(table);
    let mut svg = Svg::new(910.0, 770.0, "How late a word is final");
    four(&mut svg, 270.0, |svg, n, width, left, top| {
        let panel = Panel { left, top, wide: 350.0, high: 270.0, from: 0.0, to: 64.0, floor: -6, nines: true };
        let beside = if n % 2 == 0 { "words that are final" } else { "" };
        panel.axes(svg, 8.0, &format!("width {width}"), "symbols heard after the word's own", beside);
        for (i, ratio) in drawn(width).into_iter().enumerate() {
            let row = data.iter().find(|r| r[0] == width as f64 && r[1] == ratio).expect("measured");
            let points: Vec<(f64, f64)> =
                row[12..].iter().enumerate().map(|(k, not)| (k as f64, not / row[2])).collect();
            panel.curve(svg, &format!("c{i}"), &points);
            let window = if row[11] < 65.0 { row[11].to_string() } else { "&gt; 64".into() };
            let y = top + 208.0 + 17.0 * i as f64;
            svg.key(left + 186.0, y, &format!("c{i}"), &format!("{ratio} dB, window {window}"));
        }
    });
    svg.text(92.0, 752.0, "small", "start", "window: the least that holds all words but one in a million");
    svg.done()
}

/// A customer's deploys in one year that were green and false, for the eye.
const CUSTOMER: f64 = 23.0 / 6140.0;

/// What haste costs, and where windows begin to be full.
pub fn haste(table: &str) -> String {
    let data = rows(table);
    let mut svg = Svg::new(910.0, 750.0, "Saying a word early, or saying 6");
    four(&mut svg, 260.0, |svg, n, width, left, top| {
        let from = first(width);
        let panel = Panel { left, top, wide: 350.0, high: 260.0, from, to: from + 5.0, floor: -7, nines: false };
        let beside = if n % 2 == 0 { "share of words" } else { "" };
        panel.axes(svg, 1.0, &format!("width {width}"), "signal-to-noise ratio, dB", beside);
        let heard = panel.y(CUSTOMER);
        svg.stroke("mark dots", (left, heard), (left + panel.wide, heard));
        svg.text(left + panel.wide - 6.0, heard - 4.0, "small", "end", "23 of 6,140");
        let column = |c: usize| curve(&data, width, |r| r[c] / r[2]);
        panel.curve(svg, "c4 dashed", &column(3));
        for (i, class) in ["c0", "c2", "c3"].into_iter().enumerate() {
            panel.curve(svg, class, &column(6 + i));
            panel.dots(svg, &class.replace('c', "f"), &column(6 + i));
        }
        panel.curve(svg, "c1", &column(4));
        panel.dots(svg, "f1", &column(4));
    });
    let mut x = 40.0;
    let keys = WINDOWS.map(|w| format!("6 with window {w}"));
    for (class, words, wide) in [
        ("c1", "said with lookback 16, denied later", 255.0),
        ("c4 dashed", "wrong in the answer", 165.0),
        ("c0", &keys[0], 140.0),
        ("c2", &keys[1], 140.0),
        ("c3", &keys[2], 140.0),
    ] {
        svg.key(x, 732.0, class, words);
        x += wide;
    }
    svg.done()
}

// ---- the waterfall

/// Word error rate against the signal-to-noise ratio, coded and uncoded.
pub fn waterfall(table: &str) -> String {
    let data = rows(table);
    let mut svg = Svg::new(900.0, 560.0, "Words that are wrong: coded, and uncoded with as many bits");
    let panel = Panel { left: 80.0, top: 60.0, wide: 790.0, high: 400.0, from: 4.0, to: 40.0, floor: -6, nines: false };
    panel.axes(
        &mut svg,
        2.0,
        "",
        "signal-to-noise ratio, dB: average energy of a 2D point over the noise in both dimensions",
        "word error rate",
    );
    for (i, width) in WIDTHS.into_iter().enumerate() {
        let plain = Uncoded::new(width);
        let line: Vec<(f64, f64)> = (40..=400).map(|d| d as f64 / 10.0).map(|d| (d, plain.wrong(d))).collect();
        panel.curve(&mut svg, &format!("c{i} dashed"), &line);
        let coded = curve(&data, width, |r| r[3] / r[2]);
        panel.curve(&mut svg, &format!("c{i}"), &coded);
        panel.dots(&mut svg, &format!("f{i}"), &coded);
        if let Some(at) = crossing(&coded, 1e-5) {
            let beyond = reached(1e-5, |d| plain.wrong(d));
            let y = panel.y(1e-5);
            svg.stroke("mark", (panel.x(at) + 4.0, y), (panel.x(beyond) - 4.0, y));
            svg.text(panel.x((at + beyond) / 2.0), y - 5.0, "small", "middle", &format!("{:.1} dB", beyond - at));
        }
        let words = format!("width {width}: {} bits a 2D point", width as f64 + 1.5);
        svg.key(80.0 + 205.0 * i as f64, 520.0, &format!("c{i}"), &words);
    }
    svg.key(80.0, 544.0, "c4", "coded, measured; a dot for each point");
    svg.key(400.0, 544.0, "c4 dashed", "uncoded, by formula");
    svg.text(600.0, 544.0, "small", "start", "the gain in dB is marked at 10⁻⁵");
    svg.done()
}
