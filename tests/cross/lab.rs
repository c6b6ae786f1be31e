//! The text protocol of `lab` over the reference: what each line answers. It lets the public cases in that form be run
//! against the reference, and gives what `lab` should say to a failing case.

use crate::reference::*;

pub struct Lab {
    map: Map,
    sender: Sender,
    receiver: Receiver,
}

fn whole(token: &str, most: u64) -> Option<u64> {
    if token.is_empty() || !token.bytes().all(|b| b.is_ascii_digit()) {
        return None;
    }
    let digits = token.trim_start_matches('0');
    let n = if digits.is_empty() { 0 } else { digits.parse::<u64>().ok()? };
    (n <= most).then_some(n)
}

fn u32_of(token: &str) -> Option<u32> {
    whole(token, u32::MAX as u64).map(|n| n as u32)
}

/// A width and what stands at the end of an opening: nothing, or the square map's name (02, Wish 11).
fn line_of(u: &str, map: &[&str]) -> Option<Line> {
    let map = match map {
        [] => ROUND,
        ["square"] => SQUARE,
        _ => return None,
    };
    Some(Line { map, u: u32_of(u)? })
}

fn cap_of(token: &str) -> Option<usize> {
    whole(token, 4096).map(|n| n as usize)
}

fn coordinate_of(token: &str) -> Option<i32> {
    let (digits, sign, most) = match token.strip_prefix('-') {
        Some(rest) => (rest, -1, 1 << 31),
        None => (token, 1, (1 << 31) - 1),
    };
    whole(digits, most).map(|n| (sign * n as i64) as i32)
}

fn marks_of(token: &str) -> Option<Vec<u8>> {
    if token == "-" {
        return Some(vec![]);
    }
    let good = (1..=1024).contains(&token.len()) && token.bytes().all(|b| (b'0'..=b'3').contains(&b));
    good.then(|| token.bytes().map(|b| b - b'0').collect())
}

/// The lists of a card of n symbols, all tokens of a line (02, Wish 14).
fn verdict(map: &Map, line: Line, n: usize, tokens: &[&str]) -> Option<bool> {
    if n > 64 || tokens.len() != 27 * n + 17 {
        return None;
    }
    let (coordinates, rest) = tokens.split_at(4 * n);
    let (states, rest) = rest.split_at(n + 1);
    let (symbols, numbers) = rest.split_at(6 * n);
    let coordinates = coordinates.iter().map(|c| coordinate_of(c)).collect::<Option<Vec<i32>>>()?;
    let states = states.iter().map(|s| u32_of(s)).collect::<Option<Vec<u32>>>()?;
    let symbols = symbols.iter().map(|s| u32_of(s)).collect::<Option<Vec<u32>>>()?;
    let numbers = numbers.iter().map(|k| whole(k, u64::MAX)).collect::<Option<Vec<u64>>>()?;
    let card = Card { coordinates: &coordinates, states: &states, symbols: &symbols, numbers: &numbers };
    Some(card.accepted(map, line))
}

fn bits_of(token: &str) -> Option<u32> {
    let good = token.len() == 8 && token.bytes().all(|b| b.is_ascii_hexdigit());
    if good {
        u32::from_str_radix(token, 16).ok()
    } else {
        None
    }
}

/// An answer of a piece or a finish, with its words.
pub fn answer_line(a: &Answer, words: &[u32]) -> String {
    let mut line = format!("{} {} {}", a.taken, a.written, a.number);
    if a.number == 5 {
        line += &format!(" place {}", a.place);
    }
    if !words.is_empty() {
        line += " :";
        words.iter().for_each(|w| line += &format!(" {w}"));
    }
    line
}

impl Lab {
    pub fn new() -> Lab {
        Lab { map: Map::new(), sender: Sender::closed(), receiver: Receiver::closed() }
    }

    fn opened(&mut self, (number, receiver): (u32, Receiver)) -> String {
        self.receiver = receiver;
        number.to_string()
    }

    /// The answer to a line that can be read; none to one that cannot.
    fn read(&mut self, line: &str) -> Option<String> {
        let tokens: Vec<&str> = line.split(' ').collect();
        match tokens[..] {
            ["sender", u, ref map @ ..] => {
                let (number, sender) = Sender::open(line_of(u, map)?);
                self.sender = sender;
                Some(number.to_string())
            }
            ["send", word, cap] => {
                let (word, mut out) = (u32_of(word)?, vec![0; cap_of(cap)?]);
                let number = self.sender.send(&self.map, word, &mut out);
                let points = if number == 0 { &out[..4] } else { &[] };
                Some(points.iter().fold(number.to_string(), |line, c| line + &format!(" {c}")))
            }
            ["list", cap, ref words @ ..] if words.len() <= 1024 => {
                let mut out = vec![0; cap_of(cap)?];
                let words = words.iter().map(|w| u32_of(w)).collect::<Option<Vec<u32>>>()?;
                let (sent, number) = self.sender.send_list(&self.map, &words, &mut out);
                let mut line = format!("{sent} {number}");
                if sent > 0 {
                    line += " :";
                    out[..4 * sent].iter().for_each(|c| line += &format!(" {c}"));
                }
                Some(line)
            }
            ["receiver", u, window, "free", ref map @ ..] => {
                let (line, window) = (line_of(u, map)?, u32_of(window)?);
                Some(self.opened(Receiver::open(line, window, FREE)))
            }
            ["receiver", u, window, "at", start, ref map @ ..] => {
                let (line, window, start) = (line_of(u, map)?, u32_of(window)?, u32_of(start)?);
                // a start that is named must be one of the sixteen: 16 is no name of the free start here
                let start = if start > 15 { 17 } else { start };
                Some(self.opened(Receiver::open(line, window, start)))
            }
            ["receiver", u, ref map @ ..] => Some(self.opened(Receiver::open_plain(line_of(u, map)?))),
            ["piece", cap, ref coordinates @ ..] if coordinates.len() <= 4096 => {
                let mut out = vec![0; cap_of(cap)?];
                let piece = coordinates.iter().map(|c| coordinate_of(c)).collect::<Option<Vec<i32>>>()?;
                let answer = self.receiver.hear(&self.map, &piece, &mut out);
                Some(answer_line(&answer, &out[..answer.written as usize]))
            }
            ["marked", cap, marks, ref coordinates @ ..] if coordinates.len() <= 4096 => {
                let mut out = vec![0; cap_of(cap)?];
                let marks = marks_of(marks)?;
                let piece = coordinates.iter().map(|c| coordinate_of(c)).collect::<Option<Vec<i32>>>()?;
                let answer = self.receiver.hear_marked(&self.map, &piece, &marks, &mut out);
                Some(answer_line(&answer, &out[..answer.written as usize]))
            }
            ["finish", cap] => {
                let mut out = vec![0; cap_of(cap)?];
                let answer = self.receiver.finish(&mut out);
                Some(answer_line(&answer, &out[..answer.written as usize]))
            }
            ["sample", "missing"] => Some("missing".into()),
            ["sample", x, y] => {
                let (x, y) = (bits_of(x)?, bits_of(y)?);
                Some(match sample(x, y) {
                    Ok((x, y)) => format!("{x} {y}"),
                    Err(place) => format!("5 place {place}"),
                })
            }
            ["card", map, u, n, ref lists @ ..] => {
                let map = match map {
                    "round" => ROUND,
                    "square" => SQUARE,
                    _ => return None,
                };
                let line = Line { map, u: u32_of(u)? };
                let accepted = verdict(&self.map, line, u32_of(n)? as usize, lists)?;
                Some(if accepted { "accepted" } else { "refused" }.into())
            }
            ["pending"] => Some(self.receiver.pending().to_string()),
            _ => None,
        }
    }

    /// The answer to one line without its newline; none where nothing is said.
    pub fn line(&mut self, line: &[u8]) -> Option<String> {
        if line.len() > 65_536 {
            return Some("?".into());
        }
        if line.is_empty() || line[0] == b'#' {
            return None;
        }
        let answer = std::str::from_utf8(line).ok().and_then(|line| self.read(line));
        Some(answer.unwrap_or("?".into()))
    }

    pub fn all(&mut self, input: &[u8]) -> String {
        let mut lines: Vec<&[u8]> = input.split(|&b| b == b'\n').collect();
        if lines.last().is_some_and(|l| l.is_empty()) {
            lines.pop();
        }
        lines.iter().filter_map(|l| self.line(l)).fold(String::new(), |all, answer| all + &answer + "\n")
    }
}
