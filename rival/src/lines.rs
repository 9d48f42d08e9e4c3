//! The line program of document 01, with `09` of request W1, the culprits of W2, the corrections and `08` of W5, and `0a` of W8, by an ordinary
//! method.
use crate::calls::{self, Answer, Tables};
use crate::pieces::{Reader, PIECE};

const NODES: usize = 512;
const ROWS: usize = 1024;

/// The kind whose answer "alone ends with that field, two digits".
const RED: u64 = 0x0a;

/// The rows held, and the base's node count once a base is accepted.
pub struct Desk {
    pub g: Tables,
    pub base: Option<usize>,
}

impl Default for Desk {
    fn default() -> Desk {
        Desk { g: Tables { nodes: vec![0; 4 * NODES], rows: vec![0; 3 * ROWS], scratch: vec![0; 4 * (NODES + ROWS)], n: 0, t: 0 }, base: None }
    }
}

/// All that the program writes for this input.
pub fn program(input: &[u8]) -> Vec<u8> {
    let mut out = vec![];
    let mut reader = Reader::begin(&mut out);
    for piece in input.chunks(PIECE) {
        reader.take(piece, &mut out);
    }
    reader.end(&mut out);
    out
}

fn digit(b: u8) -> Option<u64> {
    match b {
        b'0'..=b'9' => Some((b - b'0') as u64),
        b'a'..=b'f' => Some((b - b'a') as u64 + 10),
        _ => None,
    }
}

fn number(digits: &[u64]) -> u64 {
    digits.iter().fold(0, |v, d| 16 * v + d)
}

/// A number of 4 digits, two's complement.
fn signed(number: u64) -> i32 {
    number as u16 as i16 as i32
}

/// The digits cut into numbers of 4 digits.
fn fields(digits: &[u64]) -> Option<Vec<u64>> {
    (digits.len() % 4 == 0).then(|| digits.chunks(4).map(number).collect())
}

/// x and y of 8 digits, dx and dy of 4.
fn node(digits: &[u64]) -> Option<[i32; 4]> {
    (digits.len() == 24).then(|| {
        let [x, y] = [&digits[..8], &digits[8..16]].map(|d| number(d) as u32 as i32);
        let [dx, dy] = [&digits[16..20], &digits[20..]].map(|d| signed(number(d)));
        [x, y, dx, dy]
    })
}

impl Desk {
    /// One line without its end byte.
    pub fn line(&mut self, line: &[u8], out: &mut Vec<u8>) {
        if self.frame(line, out).is_none() {
            out.extend(b"ff\n");
        }
    }

    fn frame(&mut self, line: &[u8], out: &mut Vec<u8>) -> Option<()> {
        if line.len() < 2 || line.len() > 254 {
            return None;
        }
        let digits: Vec<u64> = line.iter().map(|&b| digit(b)).collect::<Option<_>>()?;
        let kind = 16 * digits[0] + digits[1];
        let rest = &digits[2..];
        match (kind, self.base) {
            (1, None) => {
                let a = node(rest).filter(|_| self.g.n < NODES)?;
                self.g.nodes[4 * self.g.n..4 * self.g.n + 4].copy_from_slice(&a);
                self.g.n += 1;
            }
            (2, None) => {
                let f = fields(rest).filter(|f| f.len() == 3 && self.g.t < ROWS)?;
                for s in 0..3 {
                    self.g.rows[3 * self.g.t + s] = f[s] as u32;
                }
                self.g.t += 1;
            }
            (3, None) if rest.is_empty() => {
                let a = calls::check(&mut self.g);
                if a.number == 0 {
                    self.base = Some(self.g.n);
                    answer(out, 3, a);
                } else {
                    *self = Desk::default();
                    answer(out, 3, Answer { n: 0, t: 0, ..a });
                }
            }
            (4 | 9 | RED, Some(n0)) => {
                let marks = marks(rest, self.g.t)?;
                let refine = match kind {
                    4 => calls::refine,
                    9 => calls::quarter,
                    _ => calls::refine_red,
                };
                answer(out, kind, refine(&mut self.g, n0, &marks));
            }
            (5, Some(n0)) => {
                let marks = marks(rest, self.g.n)?;
                answer(out, 5, calls::coarsen(&mut self.g, n0, &marks));
            }
            (6, Some(n0)) if rest.is_empty() => answer(out, 6, calls::restore(&mut self.g, n0)),
            (7, _) if rest.is_empty() => {
                for k in 0..self.g.n {
                    out.extend(node_frame(&self.g.nodes[4 * k..4 * k + 4]).bytes());
                }
                for i in 0..self.g.t {
                    let r = &self.g.rows[3 * i..3 * i + 3];
                    out.extend(format!("02{:04x}{:04x}{:04x}\n", r[0], r[1], r[2]).bytes());
                }
            }
            (8, Some(n0)) => {
                let f = fields(rest).filter(|f| f.len() == 3)?;
                answer(out, 8, calls::set_correction(&mut self.g, n0, f[0] as usize, signed(f[1]), signed(f[2])));
            }
            _ => return None,
        }
        Some(())
    }
}

/// A node as an `01` frame. A correction that 4 digits cannot hold is cut to its last 4.
pub fn node_frame(a: &[i32]) -> String {
    format!("01{:08x}{:08x}{:04x}{:04x}\n", a[0], a[1], a[2] as u16, a[3] as u16)
}

/// One byte for each of `count`, 1 where its number is listed.
fn marks(digits: &[u64], count: usize) -> Option<Vec<u8>> {
    let listed = fields(digits)?;
    let mut marks = vec![0; count];
    for k in listed {
        *marks.get_mut(k as usize)? = 1;
    }
    Some(marks)
}

fn answer(out: &mut Vec<u8>, kind: u64, a: Answer) {
    let red = if kind == RED { format!("{:02x}", a.red) } else { String::new() };
    out.extend(format!("{:02x}{:02x}{:04x}{:04x}{:04x}{:04x}{red}\n", kind, a.number, a.n, a.t, a.passes, a.culprit).bytes());
}
