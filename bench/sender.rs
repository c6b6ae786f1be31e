//! The library's sender in plain Rust, by the same algorithm: a table of 512 small coordinates, a point turned a quarter at a time, and
//! for each word its two tests. A list goes word by word into the rest of the output.

static TABLE: [i8; 512] = {
    let mut table = [0; 512];
    let mut w = 0;
    while w < 256 {
        table[2 * w] = crate::fast::A_POINTS[w].0 as i8;
        table[2 * w + 1] = crate::fast::A_POINTS[w].1 as i8;
        w += 1;
    }
    table
};

fn point(label: u32, w: usize) -> (i32, i32) {
    let mut p = (TABLE[2 * w] as i32, TABLE[2 * w + 1] as i32);
    for _ in 0..label {
        p = (p.1, -p.0);
    }
    p
}

pub struct Sender {
    u: u32,
    turn: u32,
    state: u32,
}

impl Sender {
    pub fn open(u: u32) -> Sender {
        assert!(u <= 8);
        Sender { u, turn: 0, state: 0 }
    }

    fn send(&mut self, word: u32, out: &mut [i32]) -> u32 {
        if word >> (3 + 2 * self.u) != 0 {
            return 4;
        }
        if out.len() < 4 {
            return 8;
        }
        let (i1, i2, i3) = (word & 1, word >> 1 & 1, word >> 2 & 1);
        let low = (1 << self.u) - 1;
        let (w1, w2) = (word >> 3 & low, word >> (3 + self.u) & low);
        let y0 = self.state & 1;
        self.turn = (self.turn + 2 * i3 + i2) & 3;
        let (x, y) = point(self.turn, w1 as usize);
        let (z, t) = point((self.turn + y0 + 2 * i1) & 3, w2 as usize);
        out[..4].copy_from_slice(&[x, y, z, t]);
        let (a, b, c) = (self.state >> 3 & 1, self.state >> 2 & 1, self.state >> 1 & 1);
        self.state = c << 3 | y0 << 2 | (b ^ self.turn & 1) << 1 | (a ^ c ^ i1);
        0
    }

    pub fn send_list(&mut self, words: &[u32], out: &mut [i32]) -> (usize, u32) {
        for (sent, &word) in words.iter().enumerate() {
            let number = self.send(word, &mut out[4 * sent..]);
            if number != 0 {
                return (sent, number);
            }
        }
        (words.len(), 0)
    }
}
