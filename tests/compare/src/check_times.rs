//! How long the base check takes, by the proved library and by the rival, on sheets of growing size, and on meshes whose rows are hard to tell apart.
use crate::meshes::{double_fan, fan, jittered, ladder, shuffled, tables, Mesh};
use crate::{proved, rival, Answer, Call};
use rival::calls::Tables;
use rival::random::{grid, Dice};
use std::time::{Duration, Instant};

/// The node counts. There is room for these and twice as many rows.
const SIZES: [usize; 3] = [64, 256, 1024];

/// A mesh of so many nodes.
type Drawn = fn(usize) -> Mesh;

/// Sheets, as they are and with their nodes moved and numbered in another order; then meshes of long rows, many side by side.
const MESHES: [(&str, Drawn); 5] = [
    ("a grid", |n| grid(n.isqrt() - 1, n.isqrt() - 1, 16)),
    ("a jittered grid, shuffled", |n| {
        let d = &mut Dice::new(1);
        let sheet = jittered(d, n.isqrt() - 1);
        shuffled(d, &sheet)
    }),
    ("a fan", |n| fan(n - 1, n - 1)),
    ("a double fan", |n| double_fan(n - 2)),
    ("a ladder", |n| ladder(n / 2 - 1)),
];

/// What one check takes. Tables are copied before, outside the time taken.
fn time(given: &Tables, by: fn(&Call, &mut Tables) -> Answer) -> Duration {
    let mut g = given.clone();
    let start = Instant::now();
    let said = by(&Call::Check, &mut g);
    let taken = start.elapsed();
    assert_eq!((said.number, said.culprit), (0, 0), "the mesh is admitted");
    taken
}

/// The microseconds of both, each the middle of its runs: the proved check's 21 of each of 9 rounds, and the rival's one of each.
fn middles(given: &Tables) -> [f64; 2] {
    let mut taken = [vec![], vec![]];
    for _ in 0..9 {
        taken[0].extend((0..21).map(|_| time(given, proved)));
        taken[1].push(time(given, rival));
    }
    taken.map(|mut times| {
        times.sort();
        times[times.len() / 2].as_secs_f64() * 1e6
    })
}

/// The table, and by how much the time a node grew from the least size to the greatest.
pub fn tell() {
    println!("| mesh | nodes | rows | proved, µs | µs a node | rival, µs | µs a node | ratio |");
    println!("|{}", "---|".repeat(8));
    let mut grew = vec![];
    for (name, drawn) in MESHES {
        let each = SIZES.map(|n| {
            let given = tables(&drawn(n), n, 2 * n);
            let [ours, theirs] = middles(&given);
            let [node, their_node] = [ours, theirs].map(|time| time / n as f64);
            println!("| {name} | {n} | {} | {ours:.1} | {node:.3} | {theirs:.1} | {their_node:.3} | {:.2} |", given.t, ours / theirs);
            [node, their_node]
        });
        let [least, most] = [each[0], each[SIZES.len() - 1]];
        grew.push(format!("{name} {:.2} (the rival {:.2})", most[0] / least[0], most[1] / least[1]));
    }
    println!("\n1,024 nodes against 64, the time a node: {}.", grew.join(", "));
}
