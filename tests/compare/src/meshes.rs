//! Meshes of a wanted size, and meshes made to be hard for a search of neighbours, or of rows that lie over each other. All are lawful, with a
//! compatible labelling unless grown. The check admits all but those that say otherwise.
use crate::{rival, Call};
use rival::calls::Tables;
use rival::random::{grid, Dice};
use std::collections::HashSet;
use std::f64::consts::TAU;

/// The nodes' places, and the rows.
pub type Mesh = (Vec<(i32, i32)>, Vec<[u32; 3]>);

/// A call that takes marks.
pub type Marked = fn(usize, Vec<u8>) -> Call;

/// What node `k` carries, spread over the whole range.
fn carried(k: usize) -> [i32; 2] {
    [7_919, 104_729].map(|step| (step * k % 65_536) as i32 - 32_768)
}

/// Tables that hold the mesh, its nodes carrying corrections, with room for `nc` nodes and `tc` rows; scratch is filled with sevens.
pub fn tables((nodes, rows): &Mesh, nc: usize, tc: usize) -> Tables {
    let numbers = |(k, &(x, y)): (usize, &(i32, i32))| {
        let [dx, dy] = carried(k);
        [x, y, dx, dy]
    };
    let mut g = Tables { nodes: nodes.iter().enumerate().flat_map(numbers).collect(), rows: rows.concat(), scratch: vec![], n: nodes.len(), t: rows.len() };
    widen(&mut g, nc, tc);
    g
}

/// The same mesh with another room, zeros past the counts and sevens in scratch.
pub fn widen(g: &mut Tables, nc: usize, tc: usize) {
    g.nodes.resize(4 * nc, 0);
    g.rows.resize(3 * tc, 0);
    g.scratch = vec![7; 4 * (nc + tc)];
}

/// How far copies of a mesh are moved apart: twice the side of the largest of those copied, and sixteen stay in range.
const APART: i32 = 1 << 17;

/// `count` copies of the mesh in lines of four, with `count` times its room. The first `n0` nodes of all copies are numbered first, then the
/// others copy by copy; rows are listed copy by copy. Corrections are new ones.
pub fn copies(one: &Tables, n0: usize, count: usize) -> Tables {
    let number = |copy: usize, k: usize| if k < n0 { copy * n0 + k } else { count * n0 + copy * (one.n - n0) + k - n0 };
    let (mut nodes, mut rows) = (vec![(0, 0); count * one.n], vec![]);
    for copy in 0..count {
        let (right, up) = (APART * (copy % 4) as i32, APART * (copy / 4) as i32);
        let numbered = one.nodes.chunks(4).take(one.n).enumerate();
        numbered.for_each(|(k, node)| nodes[number(copy, k)] = (node[0] + right, node[1] + up));
        rows.extend(one.rows.chunks(3).take(one.t).map(|row| [0, 1, 2].map(|corner| number(copy, row[corner] as usize) as u32)));
    }
    tables(&(nodes, rows), count * one.nodes.len() / 4, count * one.rows.len() / 3)
}

/// A grid of `side` by `side` squares whose nodes are each moved by up to 3 sixteenths of a square's side either way: too little to turn a triangle over.
pub fn jittered(d: &mut Dice, side: usize) -> Mesh {
    let (nodes, rows) = grid(side, side, 16);
    (nodes.iter().map(|p| (p.0 + d.below(7) as i32 - 3, p.1 + d.below(7) as i32 - 3)).collect(), rows)
}

/// `rungs` rectangles on each other, wide and low, each cut in two: all rows are as long as the mesh is wide.
pub fn ladder(rungs: usize) -> Mesh {
    let (nodes, rows) = grid(1, rungs, 16);
    (nodes.iter().map(|p| (62_500 * p.0, p.1)).collect(), rows)
}

/// 1,024 nodes and 2,048 rows: a grid of 31 by 31 squares, and 126 rows more over it whose edges span two squares. The check refuses it as 11; no mesh
/// of so many rows on so few nodes can be admitted.
pub fn full() -> Mesh {
    let (nodes, mut rows) = grid(31, 31, 8);
    for k in 0..126u32 {
        let a = k / 30 * 32 + k % 30;
        rows.push([a, a + 2, a + 64]);
    }
    (nodes, rows)
}

/// `rim` rows all round one node, whose number is `hub`.
pub fn fan(rim: usize, hub: usize) -> Mesh {
    let number = |k: usize| (k % rim + (k % rim >= hub) as usize) as u32;
    let along = |part: f64| 16 * (62_500.0 * part).round() as i32;
    let angle = |k: usize| TAU * k as f64 / rim as f64;
    let mut nodes: Vec<_> = (0..rim).map(|k| (along(angle(k).cos()), along(angle(k).sin()))).collect();
    nodes.insert(hub, (0, 0));
    (nodes, (0..rim).map(|k| [hub as u32, number(k), number(k + 1)]).collect())
}

/// A straight rim of `rim` nodes, all joined to two hubs, one above it of the lowest number and one below it of the highest, and a row over the
/// edge of both hubs.
pub fn double_fan(rim: usize) -> Mesh {
    let (above, below) = (0, rim as u32 + 1);
    let mut nodes = vec![(0, 16_000)];
    nodes.extend((1..=rim).map(|k| (16 * k as i32, 0)));
    nodes.push((0, -16_000));
    let mut rows = vec![[1, above, below]];
    for k in 1..rim as u32 {
        rows.push([above, k, k + 1]);
        rows.push([below, k + 1, k]);
    }
    (nodes, rows)
}

/// At most `most` rows over `m` nodes in convex position: squares of any four nodes, each cut in two as those of a grid are, taken in order
/// while no directed edge repeats. So almost every pair of nodes is joined. The check refuses it as 12, unless it has very few nodes.
pub fn dense(m: u32, most: usize) -> Mesh {
    let nodes = (0..m as i32).map(|k| (16 * k, 16 * k * k)).collect();
    let (mut rows, mut taken) = (vec![], HashSet::new());
    for a in 0..m {
        for b in a + 1..m {
            for c in b + 1..m {
                let free = |e: &(u32, u32)| !taken.contains(e);
                let half = [(a, b), (b, c), (c, a), (a, c)].iter().all(free);
                let fourth = (c + 1..m).find(|&d| half && rows.len() + 2 <= most && free(&(c, d)) && free(&(d, a)));
                if let Some(d) = fourth {
                    taken.extend([(a, b), (b, c), (c, a), (a, c), (c, d), (d, a)]);
                    rows.extend([[b, c, a], [d, a, c]]);
                }
            }
        }
    }
    (nodes, rows)
}

/// The same mesh, its nodes numbered and its rows listed in another order.
pub fn shuffled(d: &mut Dice, (nodes, rows): &Mesh) -> Mesh {
    let (place, order) = (any_order(d, nodes.len()), any_order(d, rows.len()));
    let mut number = vec![0; nodes.len()];
    place.iter().enumerate().for_each(|(new, &old)| number[old] = new as u32);
    let renamed = |&i: &usize| rows[i].map(|k| number[k as usize]);
    (place.iter().map(|&old| nodes[old]).collect(), order.iter().map(renamed).collect())
}

/// The numbers below `count`, in an order that is drawn.
pub fn any_order(d: &mut Dice, count: usize) -> Vec<usize> {
    let mut order: Vec<usize> = (0..count).collect();
    (1..count).rev().for_each(|k| order.swap(k, d.below(k + 1)));
    order
}

/// A square grown to `n` nodes, with room for these and twice as many rows: every third row is marked, then every third from row 1 on,
/// from row 2 on, and so round, each time as many as fit.
pub fn grown(n: usize) -> Tables {
    let mut g = tables(&grid(1, 1, 1 << 16), n, 2 * n);
    for round in 0..99 {
        if g.n < n {
            let rows: Vec<usize> = (round % 3..g.t).step_by(3).collect();
            rival(&Call::Refine(4, fitting(&g, Call::Refine, 4, &rows)), &mut g);
        }
    }
    assert_eq!(g.n, n, "a square grown");
    g.scratch.fill(7);
    g
}

/// Marks of these rows, one after the other, each unless the call would then have no room.
pub fn fitting(g: &Tables, call: Marked, n0: usize, rows: &[usize]) -> Vec<u8> {
    let mut marks = vec![0; g.t];
    mark(g, call, n0, rows, &mut marks);
    marks
}

/// Marks all of these rows or, if they do not fit, the first half of them and then the second, each alike. Says whether the nodes' room is full.
fn mark(g: &Tables, call: Marked, n0: usize, rows: &[usize], marks: &mut Vec<u8>) -> bool {
    let mut more = marks.clone();
    rows.iter().for_each(|&i| more[i] = 1);
    let said = rival(&call(n0, more.clone()), &mut g.clone());
    if said.number == 0 {
        *marks = more;
        return 4 * said.n == g.nodes.len();
    }
    let (first, second) = rows.split_at(rows.len() / 2);
    rows.len() > 1 && (mark(g, call, n0, first, marks) || mark(g, call, n0, second, marks))
}
