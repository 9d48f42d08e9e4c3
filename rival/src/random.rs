//! Random meshes, damage and calls from a seed.
use crate::bases::drawn;
use crate::calls::{self, Answer, Tables};

/// A small generator of numbers (xorshift), so that a seed tells the whole run.
pub struct Dice(u64);

impl Dice {
    pub fn new(seed: u64) -> Dice {
        let mut d = Dice(seed.wrapping_mul(0x9e37_79b9_7f4a_7c15) | 1);
        for _ in 0..8 {
            d.next();
        }
        d
    }

    pub fn next(&mut self) -> u64 {
        self.0 ^= self.0 << 13;
        self.0 ^= self.0 >> 7;
        self.0 ^= self.0 << 17;
        self.0.wrapping_mul(0x2545_f491_4f6c_dd1d) >> 16
    }

    /// Below k.
    pub fn below(&mut self, k: usize) -> usize {
        if k == 0 { 0 } else { (self.next() % k as u64) as usize }
    }

    /// Once in k times.
    pub fn once_in(&mut self, k: usize) -> bool {
        self.below(k) == 0
    }
}

/// A correction: small, or any, or at the ends of its range.
pub fn correction(d: &mut Dice) -> [i32; 2] {
    [0, 1].map(|_| match d.below(4) {
        0 => [-32_768, 32_767][d.below(2)],
        1 => d.below(65_536) as i32 - 32_768,
        _ => d.below(9) as i32 - 4,
    })
}

/// A correction or, once in eight times, one out of its range, mostly by one.
pub fn any_correction(d: &mut Dice) -> [i32; 2] {
    let mut value = correction(d);
    if d.once_in(8) {
        value[d.below(2)] = beyond(d);
    }
    value
}

fn beyond(d: &mut Dice) -> i32 {
    [32_768, -32_769, 32_768, -32_769, i32::MIN, i32::MAX][d.below(6)]
}

/// Tables that hold the mesh, its nodes carrying corrections, with room to spare, garbage past the counts and scratch that is not clear.
pub fn lend(d: &mut Dice, nodes: &[(i32, i32)], rows: &[[u32; 3]]) -> Tables {
    let nc = (nodes.len() + d.below(3) * d.below(40)).min(1024).max(nodes.len());
    let tc = (rows.len() + d.below(3) * d.below(80)).min(2048).max(rows.len());
    let mut g = Tables { nodes: vec![], rows: vec![], scratch: vec![], n: nodes.len(), t: rows.len() };
    for p in nodes {
        let [dx, dy] = correction(d);
        g.nodes.extend([p.0, p.1, dx, dy]);
    }
    for r in rows {
        g.rows.extend(r);
    }
    g.nodes.resize_with(4 * nc, || d.below(1000) as i32 - 500);
    g.rows.resize_with(3 * tc, || d.below(50) as u32);
    g.scratch.resize_with(4 * (nc + tc) + d.below(5), || d.below(9) as u32);
    g
}

/// A grid of squares, each cut in two along a diagonal that both halves have as refinement edge; places stretched by `step`.
pub fn grid(w: usize, h: usize, step: i32) -> (Vec<(i32, i32)>, Vec<[u32; 3]>) {
    let at = |x: usize, y: usize| (y * (w + 1) + x) as u32;
    let mut nodes = vec![];
    let mut rows = vec![];
    for y in 0..=h {
        for x in 0..=w {
            nodes.push((step * x as i32, step * y as i32));
        }
    }
    for y in 0..h {
        for x in 0..w {
            rows.push([at(x + 1, y), at(x + 1, y + 1), at(x, y)]);
            rows.push([at(x, y + 1), at(x, y), at(x + 1, y + 1)]);
        }
    }
    (nodes, rows)
}

/// Few nodes, any triangles over them that lie the right way round: pinched, overlapping, cracked, coinciding.
pub fn absurd(d: &mut Dice) -> (Vec<(i32, i32)>, Vec<[u32; 3]>) {
    let n = 3 + d.below(7);
    let step = 1 << d.below(4);
    let nodes: Vec<(i32, i32)> = (0..n).map(|_| (step * d.below(5) as i32, step * d.below(5) as i32)).collect();
    let mut rows: Vec<[u32; 3]> = vec![];
    let mut arrows = std::collections::HashSet::new();
    for _ in 0..d.below(40) {
        let r = [d.below(n), d.below(n), d.below(n)].map(|k| k as u32);
        let own = [(r[0], r[1]), (r[1], r[2]), (r[2], r[0])];
        if twice_area(&nodes, r) > 0 && own.iter().all(|e| !arrows.contains(e)) {
            arrows.extend(own);
            rows.push(r);
        }
    }
    // keep the nodes that are used, most of the time
    if d.once_in(20) { (nodes, rows) } else { used(&nodes, rows) }
}

pub(crate) fn twice_area(nodes: &[(i32, i32)], row: [u32; 3]) -> i64 {
    let [p, q, r] = row.map(|k| (nodes[k as usize].0 as i64, nodes[k as usize].1 as i64));
    (q.0 - p.0) * (r.1 - p.1) - (r.0 - p.0) * (q.1 - p.1)
}

/// The same rows over the nodes that they use.
pub(crate) fn used(nodes: &[(i32, i32)], mut rows: Vec<[u32; 3]>) -> (Vec<(i32, i32)>, Vec<[u32; 3]>) {
    let mut number = vec![u32::MAX; nodes.len()];
    let mut kept = vec![];
    for k in rows.iter_mut().flatten() {
        let old = *k as usize;
        if number[old] == u32::MAX {
            number[old] = kept.len() as u32;
            kept.push(nodes[old]);
        }
        *k = number[old];
    }
    (kept, rows)
}

/// How far out a place may be, either way.
pub(crate) const FAR: i32 = 1_048_576;

/// Places that are not negative, moved anywhere in the range; half the time they are stretched before, as far as the range allows.
pub(crate) fn spread(d: &mut Dice, nodes: &mut [(i32, i32)]) {
    let widest = nodes.iter().map(|p| p.0.max(p.1)).fold(1, i32::max);
    let by = if d.once_in(2) { 2 * FAR / widest } else { 1 };
    let room = (2 * FAR - by * widest) as usize;
    let [right, up] = [0, 1].map(|_| d.below(room + 1) as i32 - FAR);
    nodes.iter_mut().for_each(|p| *p = (by * p.0 + right, by * p.1 + up));
}

/// A call that refines.
pub type Refine = fn(&mut Tables, usize, &[u8]) -> Answer;

/// One of the three ways to refine, W8's less often than the others, since most of what it cuts stays.
pub fn any_way(d: &mut Dice) -> Refine {
    [calls::refine, calls::refine, calls::quarter, calls::quarter, calls::refine_red][d.below(5)]
}

/// A mesh: a grid or an absurd one, once in three times spread over the range, or a base drawn for the check; grown by some refinements of the
/// rival's own, of any way, corrections set on it.
pub fn mesh(d: &mut Dice) -> (Tables, usize) {
    let (nodes, rows) = if d.once_in(4) { drawn(d).1 } else { spread_or_not(d) };
    let mut g = lend(d, &nodes, &rows);
    let n0 = g.n;
    for _ in 0..d.below(5) {
        let marks: Vec<u8> = (0..g.t).map(|_| d.once_in(3) as u8).collect();
        any_way(d)(&mut g, n0, &marks);
        if d.once_in(3) {
            let marks: Vec<u8> = (0..g.n).map(|_| d.once_in(2) as u8).collect();
            calls::coarsen(&mut g, n0, &marks);
        }
        let [dx, dy] = correction(d);
        let node = d.below(g.n);
        calls::set_correction(&mut g, n0, node, dx, dy);
    }
    for k in 4 * g.n..g.nodes.len() {
        g.nodes[k] = d.below(1000) as i32 - 500;
    }
    for k in 3 * g.t..g.rows.len() {
        g.rows[k] = d.below(50) as u32;
    }
    for s in &mut g.scratch {
        *s = d.below(9) as u32;
    }
    (g, n0)
}

fn spread_or_not(d: &mut Dice) -> (Vec<(i32, i32)>, Vec<[u32; 3]>) {
    let (mut nodes, rows) = if d.once_in(3) {
        let (w, h) = (1 + d.below(3), 1 + d.below(3));
        grid(w, h, 1 << d.below(6))
    } else {
        absurd(d)
    };
    if d.once_in(3) {
        spread(d, &mut nodes);
    }
    (nodes, rows)
}

/// A point to be asked about: at a node, on a side or in a triangle, or a step or two from such a one; or far out.
pub fn point(d: &mut Dice, g: &Tables) -> [i32; 2] {
    let places: Vec<[i64; 2]> = g.nodes.chunks_exact(4).take(g.n).map(|a| [a[0] as i64, a[1] as i64]).collect();
    let place = |k: &u32| places.get(*k as usize).copied();
    let rows: Vec<[[i64; 2]; 3]> = g.rows.chunks_exact(3).take(g.t).filter_map(|r| Some([place(&r[0])?, place(&r[1])?, place(&r[2])?])).collect();
    if rows.is_empty() || d.once_in(8) {
        return far_out(d);
    }
    let mut corners = rows[d.below(rows.len())];
    corners.rotate_left(d.below(3));
    let [p, q, r] = corners;
    let mut at = match d.below(4) {
        0 => p,
        1 => on_side(d, p, q),
        _ => {
            let (a, b) = (d.below(64) as i64, d.below(64) as i64);
            let (a, b) = if a + b > 64 { (64 - a, 64 - b) } else { (a, b) };
            [0, 1].map(|s| p[s] + ((q[s] - p[s]) * a + (r[s] - p[s]) * b).div_euclid(64))
        }
    };
    if d.once_in(4) {
        at = at.map(|v| v + d.below(5) as i64 - 2);
    }
    at.map(|v| v.clamp(i32::MIN as i64, i32::MAX as i64) as i32)
}

/// A point of the side from `p` to `q` whose numbers are whole; half the time its middle, if that is one.
fn on_side(d: &mut Dice, p: [i64; 2], q: [i64; 2]) -> [i64; 2] {
    let [x, y] = [q[0] - p[0], q[1] - p[1]];
    let (mut steps, mut rest) = (x.abs(), y.abs());
    while rest != 0 {
        (steps, rest) = (rest, steps % rest);
    }
    let step = if d.once_in(2) { steps / 2 } else { d.below(steps as usize + 1) as i64 };
    let steps = steps.max(1);
    [p[0] + x / steps * step, p[1] + y / steps * step]
}

/// Anything in the range or a step past it, any two numbers, or the ends of 32 bits.
fn far_out(d: &mut Dice) -> [i32; 2] {
    let kind = d.below(4);
    [0, 1].map(|_| match kind {
        0 => d.below(2 * FAR as usize + 3) as i32 - FAR - 1,
        1 => [-FAR - 1, FAR + 1, 0][d.below(3)],
        2 => d.next() as i32,
        _ => [i32::MIN, i32::MAX][d.below(2)],
    })
}

/// Damage of one kind or another, now and then none.
pub fn damage(d: &mut Dice, g: &mut Tables) {
    match d.below(16) {
        0 => g.n = d.below(g.nodes.len() / 4 + 2),
        1 => g.t = d.below(g.rows.len() / 3 + 2),
        2 => {
            let k = d.below(g.scratch.len() + 1);
            g.scratch.truncate(k);
        }
        3 => g.nodes.extend(&[0; 3][d.below(3)..]),
        4 => g.rows.push(0),
        5 if d.once_in(8) => g.n = usize::MAX,
        6 if d.once_in(8) => g.t = usize::MAX / 2,
        7..=12 => strike(d, g),
        _ => {}
    }
}

/// Damage of one kind to up to three nodes or rows.
pub fn strike(d: &mut Dice, g: &mut Tables) {
    let kind = d.below(7);
    for _ in 0..=d.below(3) {
        strike_one(d, g, kind);
    }
}

fn strike_one(d: &mut Dice, g: &mut Tables, kind: usize) {
    let (node, row) = (d.below(g.n), d.below(g.t));
    match kind {
        0 if g.t > 0 => g.rows[3 * row + d.below(3)] = d.below(g.n + 2) as u32,
        1 if g.t > 0 => g.rows.copy_within(3 * row..3 * row + 3, 3 * d.below(g.t)),
        2 if g.t > 0 => g.rows.swap(3 * row + 1, 3 * row + 2),
        3 if g.n > 0 => g.nodes[4 * node + d.below(2)] = [1_048_576, -1_048_576, 1_048_577, -1_048_577, i32::MIN, i32::MAX][d.below(6)],
        4 if g.n > 0 => g.nodes[4 * node + d.below(2)] += d.below(5) as i32 - 2,
        5 if g.n > 0 => g.nodes.copy_within(4 * node..4 * node + 4, 4 * d.below(g.n)),
        6 if g.n > 0 => g.nodes[4 * node + 2 + d.below(2)] = beyond(d),
        _ => {}
    }
}
