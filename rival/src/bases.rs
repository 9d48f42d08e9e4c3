//! Random bases for the check, from a seed, each of a kind that says beforehand which numbers it may draw.
use crate::proper::{crowded, share, Place};
use crate::random::{absurd, grid, spread, twice_area, used, Dice, FAR};
use std::collections::HashSet;

/// The nodes' places, and the rows.
pub type Base = (Vec<(i32, i32)>, Vec<[u32; 3]>);

/// A kind of bases: what they are, the numbers that the check may give for them, and one of them.
pub struct Kind {
    pub name: &'static str,
    pub numbers: &'static [u32],
    draw: fn(&mut Dice) -> Base,
}

pub const KINDS: [Kind; 12] = [
    Kind { name: "check, of a cracked sheet,", numbers: &[11], draw: cracked },
    Kind { name: "check, of a sheet with a doubled node,", numbers: &[11], draw: doubled },
    Kind { name: "check, of a node against an edge,", numbers: &[11], draw: against },
    Kind { name: "check, of a cracked sheet over another,", numbers: &[11], draw: cracked_over },
    Kind { name: "check, of a sheet over another,", numbers: &[12], draw: over },
    Kind { name: "check, of triangles across each other,", numbers: &[12], draw: across },
    Kind { name: "check, of a triangle in another,", numbers: &[12], draw: nested },
    Kind { name: "check, of sheets side by side,", numbers: &[0, 10], draw: beside },
    Kind { name: "check, of fans that share a node,", numbers: &[0, 10], draw: pinched },
    Kind { name: "check, of a patchwork,", numbers: &[0, 10], draw: patchwork },
    Kind { name: "check, of a patchwork with a node nudged,", numbers: &[0, 6, 10, 11, 12], draw: nudged },
    Kind { name: "check, of any rows over few nodes,", numbers: &[0, 7, 10, 11, 12], draw: absurd },
];

/// A base of any kind: now and then its triangles are drawn out to slivers, or far apart. None of this changes what they share.
pub fn drawn(d: &mut Dice) -> (&'static Kind, Base) {
    let kind = &KINDS[d.below(KINDS.len())];
    let (mut nodes, mut rows) = (kind.draw)(d);
    let [left, below] = [nodes.iter().map(|p| p.0).min(), nodes.iter().map(|p| p.1).min()].map(|least| least.unwrap_or(0));
    nodes.iter_mut().for_each(|p| *p = (p.0 - left, p.1 - below));
    let slivers = d.once_in(3);
    if slivers {
        shear(d, &mut nodes);
    }
    if slivers || d.once_in(3) {
        spread(d, &mut nodes);
    }
    if d.once_in(2) {
        rows.iter_mut().for_each(|row| row.rotate_left(d.below(3)));
    }
    (kind, (nodes, rows))
}

/// A base that the check admits, with room for some halvings: a grid, sheets side by side, or two fans with one hub.
pub fn admitted(d: &mut Dice) -> Base {
    let (nodes, rows) = match d.below(4) {
        0 => beside(d),
        1 => pinched(d),
        _ => grid(1 + d.below(4), 1 + d.below(4), 4),
    };
    let times = 4 << d.below(6);
    (nodes.iter().map(|p| (times * p.0, times * p.1)).collect(), rows)
}

/// Places that are not negative, moved along one axis by so many times the other coordinate, then turned by a quarter, and so on: areas stay.
fn shear(d: &mut Dice, nodes: &mut [(i32, i32)]) {
    for _ in 0..=d.below(3) {
        let (x, y) = nodes.iter().fold((0, 1), |most, p| (most.0.max(p.0), most.1.max(p.1)));
        let most = ((2 * FAR - x) / y) as usize >> d.below(16);
        let times = d.below(most + 1) as i32;
        nodes.iter_mut().for_each(|p| *p = (y - p.1, p.0 + times * p.1));
    }
}

/// A grid of up to nine squares, whose sides are so long.
fn sheet(d: &mut Dice, step: i32) -> Base {
    let (w, h) = (1 + d.below(3), 1 + d.below(3));
    grid(w, h, step)
}

/// The side of a square: a power of two from 4 up.
fn step(d: &mut Dice) -> i32 {
    4 << d.below(5)
}

/// Both, the nodes of the second numbered behind those of the first.
fn joined((mut nodes, mut rows): Base, (more, others): Base) -> Base {
    let first = nodes.len() as u32;
    nodes.extend(more);
    rows.extend(others.iter().map(|row| row.map(|k| first + k)));
    (nodes, rows)
}

fn moved((nodes, rows): Base, right: i32, up: i32) -> Base {
    (nodes.iter().map(|p| (p.0 + right, p.1 + up)).collect(), rows)
}

/// One triangle.
fn triangle(corners: [(i32, i32); 3]) -> Base {
    (corners.into(), vec![[0, 1, 2]])
}

/// A half of a square is cut at the middle of the diagonal, and the other half is not.
fn crack(d: &mut Dice, (mut nodes, mut rows): Base) -> Base {
    let (i, middle) = (d.below(rows.len()), nodes.len() as u32);
    let [p, q, r] = rows[i];
    let (a, b) = (nodes[q as usize], nodes[r as usize]);
    nodes.push(((a.0 + b.0) / 2, (a.1 + b.1) / 2));
    rows[i] = [middle, p, q];
    rows.push([middle, r, p]);
    (nodes, rows)
}

fn cracked(d: &mut Dice) -> Base {
    let step = step(d);
    let whole = sheet(d, step);
    crack(d, whole)
}

/// A half of a square gets an end of the diagonal for itself.
fn doubled(d: &mut Dice) -> Base {
    let step = step(d);
    let (mut nodes, mut rows) = sheet(d, step);
    let i = d.below(rows.len());
    let corner = &mut rows[i][1 + d.below(2)];
    nodes.push(nodes[*corner as usize]);
    *corner = nodes.len() as u32 - 1;
    (nodes, rows)
}

/// A triangle, and another below it that has a corner on its side.
fn against(d: &mut Dice) -> Base {
    let side = step(d);
    let at = 1 + d.below(side as usize - 1) as i32;
    let [a, b, c, e] = [0; 4].map(|_| 1 + d.below(2 * side as usize) as i32);
    joined(triangle([(0, 0), (side, 0), (0, side)]), triangle([(at, 0), (at - a, -b), (at + c, -e)]))
}

/// The second sheet is moved so that none of its nodes is on a line of the first, but one is in it.
fn over(d: &mut Dice) -> Base {
    let step = step(d);
    let (w, h) = (1 + d.below(3), 1 + d.below(3));
    let right = 1 + d.below(step as usize - 1) as i32;
    let up = (right + d.below(step as usize - 2) as i32) % (step - 1) + 1;
    let second = sheet(d, step);
    joined(grid(w, h, step), moved(second, right + step * d.below(w) as i32, up + step * d.below(h) as i32))
}

fn cracked_over(d: &mut Dice) -> Base {
    let both = over(d);
    crack(d, both)
}

/// Two triangles, no corner of one in the other: a star, or a long thin one through the other.
fn across(d: &mut Dice) -> Base {
    let s = 2 * step(d);
    if d.once_in(2) {
        let mut near = |x: i32, y: i32| (x + d.below(3) as i32, y + d.below(3) as i32);
        let one = [near(0, 2 * s), near(6 * s, 2 * s), near(3 * s, 8 * s)];
        return joined(triangle(one), triangle([near(3 * s, 0), near(6 * s, 6 * s), near(0, 6 * s)]));
    }
    let y = 1 + d.below(3 * s as usize - 2) as i32;
    joined(triangle([(0, y), (6 * s, y), (6 * s, y + 1)]), triangle([(2 * s, 0), (4 * s, 0), (3 * s, 3 * s)]))
}

fn nested(d: &mut Dice) -> Base {
    let side = 2 * step(d);
    let [x, y] = [0; 2].map(|_| 1 + d.below(side as usize / 2 - 1) as i32);
    joined(triangle([(0, 0), (side, 0), (0, side)]), triangle([(x, y), (x + 1, y), (x, y + 1)]))
}

/// Two sheets a step apart, or the two halves of a square.
fn beside(d: &mut Dice) -> Base {
    let step = step(d);
    if d.once_in(3) {
        return joined(triangle([(0, step), (0, 0), (step, step)]), triangle([(step + 1, 0), (step + 1, step), (1, 0)]));
    }
    let w = 1 + d.below(3);
    let second = sheet(d, step);
    joined(grid(w, 1, step), moved(second, step * w as i32 + 1, d.below(2 * step as usize) as i32 - step))
}

/// Two fans that have their hub in common and nothing else.
fn pinched(d: &mut Dice) -> Base {
    const RIM: [(i32, i32); 6] = [(8, 1), (6, 4), (2, 7), (-3, 6), (-7, 5), (-8, 2)];
    let times = 1 << d.below(5);
    let mut fans: Base = (vec![(0, 0)], vec![]);
    for way in [times, -times] {
        let (from, first) = (d.below(5), fans.0.len() as u32);
        let until = from + 2 + d.below(5 - from);
        fans.0.extend(RIM[from..until].iter().map(|p| (way * p.0, way * p.1)));
        fans.1.extend((first + 1..fans.0.len() as u32).map(|k| [0, k - 1, k]));
    }
    fans
}

/// Rows over some nodes of a small sheet, each kept if none shares a point with it but corners and sides.
fn patchwork(d: &mut Dice) -> Base {
    let (many, wide) = (4 + d.below(9), 4 + d.below(6));
    let nodes: HashSet<(i32, i32)> = (0..many).map(|_| (d.below(wide) as i32, d.below(wide) as i32)).collect();
    let mut nodes: Vec<_> = nodes.into_iter().collect();
    nodes.sort();
    let places: Vec<Place> = nodes.iter().map(|p| [p.0 as i64, p.1 as i64]).collect();
    let mut kept: Vec<[u32; 3]> = vec![];
    for _ in 0..120 {
        let row = [0; 3].map(|_| d.below(nodes.len()) as u32);
        let corners = |row: &[u32; 3]| row.map(|k| places[k as usize]);
        let fits = |other: &[u32; 3]| !share(corners(&row), corners(other));
        if twice_area(&nodes, row) > 0 && !crowded(&places, &[corners(&row)]) && kept.iter().all(fits) {
            kept.push(row);
        }
    }
    used(&nodes, kept)
}

/// A node of it moved by up to two steps either way.
fn nudged(d: &mut Dice) -> Base {
    let (mut nodes, rows) = patchwork(d);
    if !nodes.is_empty() {
        let k = d.below(nodes.len());
        nodes[k] = (nodes[k].0 + d.below(5) as i32 - 2, nodes[k].1 + d.below(5) as i32 - 2);
    }
    (nodes, rows)
}
