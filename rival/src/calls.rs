//! Check, the three ways to refine, coarsen, restore, the setting of a correction and the question about a point, on lent tables.
use crate::proper::{crowded, overlapping, Place};
use std::collections::{HashMap, HashSet};
use std::ops::RangeInclusive;

/// What a call says: its number, the counts after it, the passes it made, the node or row at fault, and 1 if it made a red cut, else 0.
#[derive(Clone, Copy, Debug, PartialEq, Eq)]
pub struct Answer {
    pub number: u32,
    pub n: usize,
    pub t: usize,
    pub passes: usize,
    pub culprit: usize,
    pub red: u32,
}

/// What a question about a point is told: its number, the correction there, and the node or row at fault.
#[derive(Clone, Copy, Debug, PartialEq, Eq)]
pub struct Told {
    pub number: u32,
    pub dx: i32,
    pub dy: i32,
    pub culprit: usize,
}

/// A row that holds a point: twice the areas that the point makes with the sides opposite p, q and r, and the corners' dx and dy, each weighted
/// by them and summed. Over the sum of the areas these are the exact correction.
pub struct Holder {
    pub row: usize,
    pub areas: [i128; 3],
    pub sums: [i128; 2],
}

/// The tables that a caller lends, with the counts.
#[derive(Clone, Debug, PartialEq, Eq)]
pub struct Tables {
    pub nodes: Vec<i32>,
    pub rows: Vec<u32>,
    pub scratch: Vec<u32>,
    pub n: usize,
    pub t: usize,
}

/// The ways to refine.
#[derive(Clone, Copy, PartialEq)]
enum Way {
    /// Document 01: the refinement edge of a marked triangle starts the split set.
    Refine,
    /// Request W1: all three edges do.
    Quarter,
    /// Request W8: all three, and a triangle with all three split becomes four "shaped like the father".
    Red,
}

type Row = [usize; 3];

/// A place, and the correction that is carried there.
#[derive(Clone, Copy)]
struct Node {
    x: i64,
    y: i64,
    dx: i64,
    dy: i64,
}

#[derive(Clone)]
struct Mesh {
    nodes: Vec<Node>,
    rows: Vec<Row>,
}

const FAR: i64 = 1_048_576;

/// "dx and dy from −32,768 to 32,767"
const CORRECTIONS: RangeInclusive<i64> = -32_768..=32_767;

impl Tables {
    fn sizes_fit(&self, n0: usize) -> bool {
        let (nc, tc) = (self.nodes.len() / 4, self.rows.len() / 3);
        self.nodes.len() % 4 == 0
            && self.rows.len() % 3 == 0
            && nc <= 1024
            && tc <= 2048
            && self.n <= nc
            && self.t <= tc
            && n0 <= self.n
            && self.scratch.len() >= 4 * (nc + tc)
    }

    fn mesh(&self) -> Mesh {
        let node = |k: usize| {
            let [x, y, dx, dy] = [0, 1, 2, 3].map(|s| self.nodes[4 * k + s] as i64);
            Node { x, y, dx, dy }
        };
        let row = |i: usize| [0, 1, 2].map(|s| self.rows[3 * i + s] as usize);
        Mesh { nodes: (0..self.n).map(node).collect(), rows: (0..self.t).map(row).collect() }
    }

    fn store(&mut self, m: &Mesh) {
        self.nodes.fill(0);
        self.rows.fill(0);
        for (k, a) in m.nodes.iter().enumerate() {
            for (s, v) in [a.x, a.y, a.dx, a.dy].into_iter().enumerate() {
                self.nodes[4 * k + s] = v as i32;
            }
        }
        for (i, r) in m.rows.iter().enumerate() {
            for s in 0..3 {
                self.rows[3 * i + s] = r[s] as u32;
            }
        }
        self.n = m.nodes.len();
        self.t = m.rows.len();
    }

    fn done(&mut self, passes: usize) -> Answer {
        self.scratch.fill(0);
        Answer { number: 0, n: self.n, t: self.t, passes, culprit: 0, red: 0 }
    }

    fn refused(&mut self, number: u32, culprit: usize) -> Answer {
        self.scratch.fill(0);
        Answer { number, n: self.n, t: self.t, passes: 0, culprit, red: 0 }
    }
}

fn arrows(r: Row) -> [(usize, usize); 3] {
    [(r[0], r[1]), (r[1], r[2]), (r[2], r[0])]
}

/// The edges in the order of the scan: q-r, p-q, r-p.
fn edges(r: Row) -> [(usize, usize); 3] {
    [pair(r[1], r[2]), pair(r[0], r[1]), pair(r[2], r[0])]
}

/// Those of a marked row that start the split set.
fn starting(way: Way, r: Row) -> Vec<(usize, usize)> {
    match way {
        Way::Refine => vec![pair(r[1], r[2])],
        Way::Quarter | Way::Red => edges(r).to_vec(),
    }
}

/// What stands on the father's row, given the new nodes on its edges q-r, p-q and r-p; the others are appended.
fn cut(way: Way, row: Row, split: [Option<usize>; 3], added: &mut Vec<Row>) -> Row {
    let [p, q, r] = row;
    match split {
        [None, ..] => row,
        [Some(m), Some(u), Some(v)] if way == Way::Red => {
            added.extend([[u, q, m], [v, m, r], [m, v, u]]);
            [p, u, v]
        }
        [Some(m), u, v] => {
            added.push(v.map_or([m, r, p], |v| [v, m, r]));
            added.extend(u.map(|u| [u, q, m]));
            added.extend(v.map(|v| [v, p, m]));
            u.map_or([m, p, q], |u| [u, m, p])
        }
    }
}

fn pair(a: usize, b: usize) -> (usize, usize) {
    (a.min(b), a.max(b))
}

/// A new node: "the exact midpoint", and "the mean of the two ends, rounded down"; nothing if a sum of x or of y is odd.
fn between(a: Node, b: Node) -> Option<Node> {
    let (x, y) = (a.x + b.x, a.y + b.y);
    let even = x % 2 == 0 && y % 2 == 0;
    even.then(|| Node { x: x / 2, y: y / 2, dx: (a.dx + b.dx).div_euclid(2), dy: (a.dy + b.dy).div_euclid(2) })
}

fn in_range(a: &Node) -> bool {
    a.x.abs() <= FAR && a.y.abs() <= FAR && CORRECTIONS.contains(&a.dx) && CORRECTIONS.contains(&a.dy)
}

/// Twice the area between three places, whichever way round they stand.
fn spanned([a, b, c]: [[i128; 2]; 3]) -> i128 {
    ((b[0] - a[0]) * (c[1] - a[1]) - (c[0] - a[0]) * (b[1] - a[1])).abs()
}

fn misnames(r: Row, n: usize) -> bool {
    r.iter().any(|&k| k >= n) || r[0] == r[1] || r[1] == r[2] || r[2] == r[0]
}

impl Mesh {
    fn twice_area(&self, r: Row) -> i64 {
        let [p, q, s] = r.map(|k| self.nodes[k]);
        (q.x - p.x) * (s.y - p.y) - (s.x - p.x) * (q.y - p.y)
    }

    /// The nodes (3 and 7) or rows (4, 5 and 6) that offend against this number, from the lowest up; no lower number applies.
    fn offenders(&self, number: u32) -> Vec<usize> {
        let (n, t) = (self.nodes.len(), self.rows.len());
        match number {
            3 => (0..n).filter(|&k| !in_range(&self.nodes[k])).collect(),
            4 => (0..t).filter(|&i| misnames(self.rows[i], n)).collect(),
            5 => {
                // a row's own three differ, as it names no node twice
                let mut lower_have = HashSet::new();
                (0..t).filter(|&i| arrows(self.rows[i]).map(|e| !lower_have.insert(e)).contains(&true)).collect()
            }
            6 => (0..t).filter(|&i| self.twice_area(self.rows[i]) <= 0).collect(),
            7 => {
                let used: HashSet<usize> = self.rows.iter().flatten().copied().collect();
                (0..n).filter(|k| !used.contains(k)).collect()
            }
            _ => vec![],
        }
    }

    /// The lowest of 3 to 7 that applies, with its offenders.
    fn refusal(&self) -> Option<(u32, Vec<usize>)> {
        (3..=7).map(|k| (k, self.offenders(k))).find(|(_, at_fault)| !at_fault.is_empty())
    }

    fn compatible(&self) -> bool {
        let mut holders: HashMap<(usize, usize), Vec<usize>> = HashMap::new();
        for (i, &r) in self.rows.iter().enumerate() {
            for e in edges(r) {
                holders.entry(e).or_default().push(i);
            }
        }
        self.rows.iter().all(|&r| holders[&pair(r[1], r[2])].iter().all(|&j| pair(self.rows[j][1], self.rows[j][2]) == pair(r[1], r[2])))
    }

    /// What the base check has against the mesh if nothing else is wrong, "in the order 7, 11, 12, 10".
    fn base_faults(&self) -> impl Iterator<Item = u32> + '_ {
        let places: Vec<Place> = self.nodes.iter().map(|a| [a.x, a.y]).collect();
        let triangles: Vec<[Place; 3]> = self.rows.iter().map(|r| r.map(|k| places[k])).collect();
        [11, 12, 10].into_iter().filter(move |number| match number {
            11 => crowded(&places, &triangles),
            12 => overlapping(&triangles),
            _ => !self.compatible(),
        })
    }

    /// The least closed set of edges over the starting edges of the marked rows.
    fn split_set(&self, way: Way, marks: &[u8]) -> HashSet<(usize, usize)> {
        let mut holders: HashMap<(usize, usize), Vec<usize>> = HashMap::new();
        for (i, &r) in self.rows.iter().enumerate() {
            for e in edges(r) {
                holders.entry(e).or_default().push(i);
            }
        }
        let mut set = HashSet::new();
        let mut todo: Vec<_> = (0..self.rows.len()).filter(|&i| marks[i] == 1).flat_map(|i| starting(way, self.rows[i])).collect();
        while let Some(e) = todo.pop() {
            if set.insert(e) {
                todo.extend(holders[&e].iter().map(|&i| edges(self.rows[i])[0]));
            }
        }
        set
    }

    /// The refined mesh and whether a red cut made it, or 8.
    fn refined(&self, way: Way, marks: &[u8]) -> Result<(Mesh, bool), u32> {
        let set = self.split_set(way, marks);
        let mut number = HashMap::new();
        let mut nodes = self.nodes.clone();
        for &r in &self.rows {
            for e in edges(r) {
                if set.contains(&e) && !number.contains_key(&e) {
                    let new = between(self.nodes[e.0], self.nodes[e.1]).ok_or(8u32)?;
                    number.insert(e, nodes.len());
                    nodes.push(new);
                }
            }
        }
        let mut rows = vec![];
        let mut added = vec![];
        let mut red = false;
        for &r in &self.rows {
            let split = edges(r).map(|e| number.get(&e).copied());
            red |= way == Way::Red && split.iter().all(|new| new.is_some());
            rows.push(cut(way, r, split, &mut added));
        }
        rows.extend(added);
        Ok((Mesh { nodes, rows }, red))
    }

    /// Each node from n0 up that meets G1 to G4, with the rows of its pairs (left, right) and the pair b, c.
    fn meets(&self, z: usize, holders: &[Vec<usize>], arrow: &HashMap<(usize, usize), usize>) -> Option<(Vec<(usize, usize)>, (usize, usize))> {
        let mine = &holders[z];
        if mine.iter().any(|&i| self.rows[i][0] != z) || (mine.len() != 2 && mine.len() != 4) {
            return None;
        }
        let first = mine[0];
        let [_, a, b] = self.rows[first];
        let second = *arrow.get(&(a, z))?;
        let c = self.rows[second][1];
        let mut found = vec![(first, second)];
        if mine.len() == 4 {
            let third = *mine.iter().find(|&&i| i != first && i != second)?;
            let [_, d, end] = self.rows[third];
            let fourth = *arrow.get(&(d, z))?;
            if end != c || self.rows[fourth][1] != b {
                return None;
            }
            found.push((third, fourth));
        }
        let (pz, pb, pc) = (self.nodes[z], self.nodes[b], self.nodes[c]);
        if 2 * pz.x != pb.x + pc.x || 2 * pz.y != pb.y + pc.y {
            return None;
        }
        if arrow.contains_key(&(b, c)) || arrow.contains_key(&(c, b)) {
            return None;
        }
        Some((found, pair(b, c)))
    }

    /// The good nodes, each with its pairs of rows.
    fn good(&self, n0: usize) -> Vec<(usize, Vec<(usize, usize)>)> {
        let mut holders = vec![vec![]; self.nodes.len()];
        let mut arrow = HashMap::new();
        for (i, &r) in self.rows.iter().enumerate() {
            for k in r {
                holders[k].push(i);
            }
            for e in arrows(r) {
                arrow.insert(e, i);
            }
        }
        let meeting: Vec<_> = (n0..self.nodes.len()).filter_map(|z| self.meets(z, &holders, &arrow).map(|(p, e)| (z, p, e))).collect();
        let mut rivals: HashMap<(usize, usize), usize> = HashMap::new();
        for (_, _, e) in &meeting {
            *rivals.entry(*e).or_default() += 1;
        }
        meeting.into_iter().filter(|(_, _, e)| rivals[e] == 1).map(|(z, p, _)| (z, p)).collect()
    }

    /// The mesh without the good nodes that are wanted, or nothing if none is.
    fn coarsened(&self, n0: usize, wanted: impl Fn(usize) -> bool) -> Option<Mesh> {
        let taken: Vec<_> = self.good(n0).into_iter().filter(|(z, _)| wanted(*z)).collect();
        if taken.is_empty() {
            return None;
        }
        let mut rows: Vec<Option<Row>> = self.rows.iter().copied().map(Some).collect();
        let mut stays = vec![true; self.nodes.len()];
        for (z, pairs) in taken {
            stays[z] = false;
            for (left, right) in pairs {
                rows[left] = Some([self.rows[left][1], self.rows[left][2], self.rows[right][1]]);
                rows[right] = None;
            }
        }
        let mut number = vec![];
        let mut next = 0;
        for &s in &stays {
            number.push(next);
            next += s as usize;
        }
        Some(Mesh {
            nodes: (0..self.nodes.len()).filter(|&k| stays[k]).map(|k| self.nodes[k]).collect(),
            rows: rows.into_iter().flatten().map(|r| r.map(|k| number[k])).collect(),
        })
    }

    /// The rows whose closed triangle holds the point, from the lowest up: those whose area the three areas that it makes with the sides add up to;
    /// from outside they make more.
    fn holders(&self, point: [i32; 2]) -> impl Iterator<Item = Holder> + '_ {
        let point = point.map(i128::from);
        self.rows.iter().enumerate().filter_map(move |(row, r)| {
            let corners = r.map(|k| self.nodes[k]);
            let [p, q, r] = corners.map(|a| [a.x, a.y].map(i128::from));
            let areas = [[q, r, point], [r, p, point], [p, q, point]].map(spanned);
            let sum = |part: fn(&Node) -> i64| corners.iter().zip(areas).map(|(a, area)| area * i128::from(part(a))).sum();
            let filled = areas.iter().sum::<i128>() == spanned([p, q, r]);
            filled.then(|| Holder { row, areas, sums: [sum(|a| a.dx), sum(|a| a.dy)] })
        })
    }
}

impl Holder {
    /// "the mean of its three corrections, each weighted by the area the point makes with the side opposite, each part rounded down from the exact
    /// fraction"
    pub fn told(&self) -> [i32; 2] {
        let area: i128 = self.areas.iter().sum();
        self.sums.map(|sum| sum.div_euclid(area) as i32)
    }
}

fn marks_fit(marks: &[u8], count: usize) -> bool {
    marks.len() == count && marks.iter().all(|&b| b <= 1)
}

/// The lawful mesh that the tables hold, or the refusal by 1, by 2 unless the marks fit, or by 3 to 7.
fn lawful(g: &mut Tables, n0: usize, marks_fit: bool) -> Result<Mesh, Answer> {
    if !g.sizes_fit(n0) {
        return Err(g.refused(1, 0));
    }
    if !marks_fit {
        return Err(g.refused(2, 0));
    }
    let m = g.mesh();
    match m.refusal() {
        Some((number, offenders)) => Err(g.refused(number, offenders[0])),
        None => Ok(m),
    }
}

/// All nodes or rows of the tables that the call was given which offend against its number; none where a value to be set does.
pub fn offenders(given: &Tables, number: u32) -> Vec<usize> {
    if number < 3 { vec![] } else { given.mesh().offenders(number) }
}

/// All of 11, 12 and 10 that apply to the mesh that the tables hold, which none of 1 to 6 does.
pub fn base_faults(given: &Tables) -> Vec<u32> {
    given.mesh().base_faults().collect()
}

/// All rows of the lawful mesh that the tables hold which hold the point, from the lowest up.
pub fn holders(given: &Tables, point: [i32; 2]) -> Vec<Holder> {
    given.mesh().holders(point).collect()
}

pub fn check(g: &mut Tables) -> Answer {
    match lawful(g, 0, true).map(|m| m.base_faults().next()) {
        Ok(None) => g.done(0),
        Ok(Some(number)) => g.refused(number, 0),
        Err(refused) => refused,
    }
}

/// Document 01's way.
pub fn refine(g: &mut Tables, n0: usize, marks: &[u8]) -> Answer {
    refine_in(Way::Refine, g, n0, marks)
}

/// Request W1's.
pub fn quarter(g: &mut Tables, n0: usize, marks: &[u8]) -> Answer {
    refine_in(Way::Quarter, g, n0, marks)
}

/// Request W8's.
pub fn refine_red(g: &mut Tables, n0: usize, marks: &[u8]) -> Answer {
    refine_in(Way::Red, g, n0, marks)
}

fn refine_in(way: Way, g: &mut Tables, n0: usize, marks: &[u8]) -> Answer {
    let fit = marks_fit(marks, g.t);
    match lawful(g, n0, fit).map(|m| m.refined(way, marks)) {
        Ok(Ok((new, _))) if new.nodes.len() > g.nodes.len() / 4 || new.rows.len() > g.rows.len() / 3 => g.refused(9, 0),
        Ok(Ok((new, red))) => {
            g.store(&new);
            Answer { red: red as u32, ..g.done(0) }
        }
        Ok(Err(number)) => g.refused(number, 0),
        Err(refused) => refused,
    }
}

pub fn coarsen(g: &mut Tables, n0: usize, marks: &[u8]) -> Answer {
    let fit = marks_fit(marks, g.n);
    match lawful(g, n0, fit) {
        Ok(m) => {
            let new = m.coarsened(n0, |z| marks[z] == 1).unwrap_or(m);
            g.store(&new);
            g.done(0)
        }
        Err(refused) => refused,
    }
}

pub fn restore(g: &mut Tables, n0: usize) -> Answer {
    match lawful(g, n0, true) {
        Ok(mut m) => {
            let mut passes = 0;
            while let Some(next) = m.coarsened(n0, |_| true) {
                m = next;
                passes += 1;
            }
            g.store(&m);
            g.done(passes)
        }
        Err(refused) => refused,
    }
}

/// Request W5: the correction of an added node is set; its node number and the value are anything.
pub fn set_correction(g: &mut Tables, n0: usize, node: usize, dx: i32, dy: i32) -> Answer {
    let (dx, dy) = (dx as i64, dy as i64);
    match lawful(g, n0, true) {
        // "a value out of range, stored or to be set, is refused as 3 (W2's number: the lowest node at fault in the table, else the node given)"
        Err(refused) if refused.number <= 3 => refused,
        _ if !CORRECTIONS.contains(&dx) || !CORRECTIONS.contains(&dy) => g.refused(3, node),
        Err(refused) => refused,
        Ok(_) if node < n0 => g.refused(13, 0),
        Ok(_) if node >= g.n => g.refused(15, 0),
        Ok(mut m) => {
            m.nodes[node] = Node { dx, dy, ..m.nodes[node] };
            g.store(&m);
            g.done(0)
        }
    }
}

/// Request W6: "the lowest row whose closed triangle holds it" tells the correction at the point, which may be any. Nodes and rows are only read.
pub fn correction_at(g: &mut Tables, n0: usize, point: [i32; 2]) -> Told {
    let refused = |number, culprit| Told { number, dx: 0, dy: 0, culprit };
    let m = match lawful(g, n0, true) {
        Ok(m) => m,
        Err(a) => return refused(a.number, a.culprit),
    };
    g.scratch.fill(0);
    let lowest = m.holders(point).next();
    match lowest.map(|row| row.told()) {
        Some([dx, dy]) => Told { number: 0, dx, dy, culprit: 0 },
        None => refused(14, 0),
    }
}
