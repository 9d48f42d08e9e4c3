//! Random texts for the line program, good and bad, from a seed.
use crate::bases::drawn;
use crate::calls::Tables;
use crate::lines::node_frame;
use crate::random::{correction, grid, lend, strike, Dice};

/// A base that may be refused: some of a grid's nodes or rows spoilt, or rows left out, or one that is drawn for the check.
fn spoilt_base(d: &mut Dice) -> Tables {
    if d.once_in(3) {
        let (nodes, rows) = drawn(d).1;
        return lend(d, &nodes, &rows);
    }
    let mut g = good_base(d);
    if d.once_in(5) {
        g.t = d.below(g.t);
    } else {
        strike(d, &mut g);
    }
    g
}

fn good_base(d: &mut Dice) -> Tables {
    let (w, h) = (1 + d.below(3), 1 + d.below(3));
    let (nodes, rows) = grid(w, h, 1 << d.below(7));
    lend(d, &nodes, &rows)
}

/// The frames of the base, and the one that ends it. Says how many nodes it has.
fn base(g: &Tables, text: &mut Vec<u8>) -> usize {
    for a in g.nodes[..4 * g.n].chunks(4) {
        text.extend(node_frame(a).bytes());
    }
    for r in g.rows[..3 * g.t].chunks(3) {
        text.extend(format!("02{:04x}{:04x}{:04x}\n", r[0], r[1], r[2]).bytes());
    }
    text.extend(b"03\n");
    g.n
}

fn listed(d: &mut Dice, kind: &str, most: usize, text: &mut Vec<u8>) {
    text.extend(kind.bytes());
    let most_listed = if d.once_in(2) { 3 } else { 1 + d.below(66) };
    for _ in 0..d.below(most_listed) {
        text.extend(format!("{:04x}", d.below(most)).bytes());
    }
    text.push(b'\n');
}

/// A setting of a node that is among the base's `n0`, or one of the next few, or any.
fn setting(d: &mut Dice, n0: usize, text: &mut Vec<u8>) {
    let node = match d.below(8) {
        0 => d.below(n0),
        1 => d.below(65_536),
        _ => n0 + d.below(3),
    };
    let [dx, dy] = correction(d).map(|part| part as u16);
    text.extend(format!("08{node:04x}{dx:04x}{dy:04x}\n").bytes());
}

fn garbage(d: &mut Dice, text: &mut Vec<u8>) {
    for _ in 0..d.below(300) {
        text.push(match d.below(6) {
            0 => d.below(256) as u8,
            1 => b"ABCDEF \r"[d.below(8)],
            _ => b"0123456789abcdef"[d.below(16)],
        });
    }
    text.push(b'\n');
}

/// A text: bases of which the last is good, then lines of every kind; once in five its end is torn off.
pub fn random_text(d: &mut Dice) -> Vec<u8> {
    let mut text = vec![];
    let mut most = 8;
    while d.once_in(2) {
        base(&spoilt_base(d), &mut text);
    }
    let n0 = base(&good_base(d), &mut text);
    for _ in 0..d.below(40) {
        match d.below(14) {
            0 => drop(base(&good_base(d), &mut text)),
            1 => garbage(d, &mut text),
            2 => text.extend(b"06\n"),
            3 => text.extend(b"07\n"),
            4 | 5 => listed(d, "05", most, &mut text),
            6 => {
                let kind = ["08", "00", "ff", "0", "04a", "06ff", "09a", "0aa", "0b"][d.below(9)];
                listed(d, kind, most, &mut text);
            }
            7 | 8 => setting(d, n0, &mut text),
            _ => {
                let kind = ["04", "09", "0a"][d.below(3)];
                listed(d, kind, most, &mut text);
                most += d.below(12);
            }
        }
    }
    text.extend(b"07\n");
    if d.once_in(5) {
        text.truncate(text.len() - 1 - d.below(text.len().min(40)));
    }
    text
}
