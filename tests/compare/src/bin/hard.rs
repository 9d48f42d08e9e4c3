//! Drives the proved library and the rival with meshes made to be hard for a search of neighbours: fans round any node, double fans, dense
//! meshes and shuffled grids, as they are, grown, spoilt, with a node doubled or a triangle in another, and in tables of odd lengths. Each goes through
//! all eight calls; answers and every table entry are compared. Usage: hard COUNT [SEED]. A run in which a kind of mesh never met one of the outcomes
//! below fails too: it is to be longer.
use compare::meshes::{dense, double_fan, fan, ladder, shuffled, Mesh};
use compare::{agreed, made, rival, Call};
use rival::calls::Tables;
use rival::random::{any_way, correction, grid, lend, point, Dice};
use std::collections::{BTreeMap, HashSet};

const SHAPES: [&str; 4] = ["fans", "double fans", "dense meshes", "grids"];

/// What is done to a mesh before the calls.
const STATES: [State; 8] = [
    State::AsDrawn,
    State::Grown,
    State::EdgeHeld,
    State::RowRepeated,
    State::EdgeRepeated,
    State::OddLengths,
    State::NodeDoubled,
    State::TriangleIn,
];

#[derive(Clone, Copy, PartialEq)]
enum State {
    AsDrawn,
    Grown,
    EdgeHeld,
    RowRepeated,
    EdgeRepeated,
    OddLengths,
    NodeDoubled,
    TriangleIn,
}

/// The calls, and the outcomes that each must have met with every shape: "changed" is 0 with other counts than before, "5 far" names a row whose
/// edge another holds that stands 500 rows lower or more, "held" is a restore that leaves more nodes since a row holds a split edge.
const OUTCOMES: [(&str, &[&str]); 8] = [
    ("check", &["0", "1", "5", "5 far", "10", "11", "12"]),
    ("refine", &["changed", "1", "5", "5 far", "9"]),
    ("quarter", &["changed", "1", "5", "5 far", "9"]),
    ("refine_red", &["changed", "1", "5", "5 far", "9"]),
    ("coarsen", &["changed", "1", "5", "5 far"]),
    ("restore", &["changed", "held", "1", "5", "5 far"]),
    ("set_correction", &["0", "1", "5", "5 far", "13", "15"]),
    ("correction_at", &["0", "1", "5", "5 far", "14"]),
];
const FAR: usize = 500;

/// Rows of a dense mesh lie over each other unless it is of the smallest, so that its check need not say 0 or 10.
fn never_met(shape: &str, call: &str, outcome: &str) -> bool {
    shape == "dense meshes" && call == "check" && ["0", "10"].contains(&outcome)
}

/// From `least` to `most`; once in six the most, otherwise rather a small one.
fn size(d: &mut Dice, least: usize, most: usize) -> usize {
    let halved = d.below(6);
    if d.once_in(6) { most } else { least + d.below((most - least) >> halved) }
}

/// A mesh of this shape. Among the grids are ladders, lying and standing.
fn drawn(d: &mut Dice, shape: &str) -> Mesh {
    let mesh = match shape {
        "fans" => {
            let rim = size(d, 3, 1023);
            fan(rim, [0, rim, d.below(rim + 1)][d.below(3)])
        }
        "double fans" => double_fan(size(d, 2, 1022)),
        "dense meshes" => dense(2 * size(d, 2, 56) as u32, 2048),
        _ if d.once_in(6) => grid(31, 31, 16),
        _ if d.once_in(3) => {
            let (nodes, rows) = ladder(size(d, 1, 511));
            if d.once_in(2) { (nodes.iter().map(|p| (-p.1, p.0)).collect(), rows) } else { (nodes, rows) }
        }
        _ => grid(size(d, 1, 31), size(d, 1, 31), 16),
    };
    if shape == "grids" || d.once_in(2) { shuffled(d, &mesh) } else { mesh }
}

/// A mesh to which three nodes and a row can be added.
fn drawn_smaller(d: &mut Dice, shape: &str) -> Mesh {
    loop {
        let mesh = drawn(d, shape);
        if mesh.0.len() + 3 <= 1024 && mesh.1.len() < 2048 {
            return mesh;
        }
    }
}

/// A corner of some row is a node of its own from now on, at the same place. Its old node must be in another row too.
fn double(d: &mut Dice, (nodes, rows): &mut Mesh) {
    loop {
        let (i, corner) = (d.below(rows.len()), d.below(3));
        let old = rows[i][corner];
        if rows.iter().filter(|row| row.contains(&old)).count() > 1 {
            rows[i][corner] = nodes.len() as u32;
            nodes.push(nodes[old as usize]);
            return;
        }
    }
}

/// Some row gets a small triangle strictly inside, if it has room for it: in its middle, with three nodes of its own.
fn nest(d: &mut Dice, (nodes, rows): &mut Mesh) {
    loop {
        let corners = rows[d.below(rows.len())].map(|k| nodes[k as usize]);
        let (x, y) = ((corners[0].0 + corners[1].0 + corners[2].0).div_euclid(3), (corners[0].1 + corners[1].1 + corners[2].1).div_euclid(3));
        let small = [(x, y), (x + 1, y), (x, y + 1)];
        let left = |a: (i32, i32), b: (i32, i32), p: &(i32, i32)| (b.0 - a.0) as i64 * (p.1 - a.1) as i64 > (p.0 - a.0) as i64 * (b.1 - a.1) as i64;
        if small.iter().all(|p| (0..3).all(|k| left(corners[k], corners[(k + 1) % 3], p))) {
            let first = nodes.len() as u32;
            nodes.extend(small);
            rows.insert(d.below(rows.len() + 1), [first, first + 1, first + 2]);
            return;
        }
    }
}

/// The mesh of this shape, with a node doubled or a triangle in another if the state says so.
fn drawn_for(d: &mut Dice, shape: &str, state: State) -> Mesh {
    let spoil = match state {
        State::NodeDoubled => double,
        State::TriangleIn => nest,
        _ => return drawn(d, shape),
    };
    let mut mesh = drawn_smaller(d, shape);
    spoil(d, &mut mesh);
    mesh
}

/// Tables that hold the mesh: the largest, or any room from the counts up, and garbage past the counts.
fn lent(d: &mut Dice, (nodes, rows): &Mesh) -> Tables {
    let mut g = lend(d, nodes, rows);
    let (nc, tc) = if d.once_in(2) { (1024, 2048) } else { (g.n + d.below(1025 - g.n), g.t + d.below(2049 - g.t)) };
    g.nodes.resize_with(4 * nc, || d.below(1000) as i32 - 500);
    g.rows.resize_with(3 * tc, || d.below(50) as u32);
    g.scratch.resize_with(4 * (nc + tc) + d.below(5), || d.below(9) as u32);
    g
}

fn marks(d: &mut Dice, count: usize) -> Vec<u8> {
    let every = [1, 4, 40][d.below(3)];
    (0..count).map(|_| d.once_in(every) as u8).collect()
}

/// Some refinements of the rival's, of any way.
fn grow(d: &mut Dice, g: &mut Tables) {
    let n0 = g.n;
    for _ in 0..3 {
        let marks = marks(d, g.t);
        any_way(d)(g, n0, &marks);
    }
    g.scratch.iter_mut().for_each(|s| *s = d.below(9) as u32);
}

fn turned(d: &mut Dice, mut row: [u32; 3]) -> [u32; 3] {
    row.rotate_left(d.below(3));
    row
}

fn twice_area(g: &Tables, row: [u32; 3]) -> i64 {
    let [(px, py), (qx, qy), (rx, ry)] = row.map(|k| (g.nodes[4 * k as usize] as i64, g.nodes[4 * k as usize + 1] as i64));
    (qx - px) * (ry - py) - (rx - px) * (qy - py)
}

/// A row is put behind all others that holds, one way or the other, the edge on whose middle an added node stands, so that G4 keeps the node.
/// Says whether restore then leaves more nodes.
fn hold(d: &mut Dice, g: &mut Tables, n0: usize) -> bool {
    let rows: Vec<[u32; 3]> = g.rows[..3 * g.t].chunks(3).map(|r| [r[0], r[1], r[2]]).collect();
    let taken: HashSet<(u32, u32)> = rows.iter().flat_map(|&[p, q, r]| [(p, q), (q, r), (r, p)]).collect();
    let left_by = |g: &Tables| made(&Call::Restore(n0), g, rival).0.n;
    let before = left_by(g);
    for _ in 0..200 {
        let [z, a, b] = rows[d.below(g.t)];
        let Some(&[_, c, _]) = rows.iter().find(|r| r[0] == z && r[2] == a) else { continue };
        let (x, y) = if d.once_in(2) { (b, c) } else { (c, b) };
        let w = d.below(g.n) as u32;
        let free = [(x, y), (y, w), (w, x)].iter().all(|edge| !taken.contains(edge));
        if free && z as usize >= n0 && twice_area(g, [z, b, c]) == 0 && twice_area(g, [x, y, w]) > 0 && 3 * g.t < g.rows.len() {
            let new = turned(d, [x, y, w]);
            g.rows[3 * g.t..3 * g.t + 3].copy_from_slice(&new);
            g.t += 1;
            break;
        }
    }
    left_by(g) > before
}

/// A row of the upper half is replaced by one that holds an edge, or all three, of a row of the lower half. Answers both, the upper first.
fn repeat(d: &mut Dice, g: &mut Tables, state: State) -> (usize, usize) {
    let (low, high) = (d.below(g.t / 2), g.t - 1 - d.below(g.t / 2));
    let [x, y, z] = turned(d, [0, 1, 2].map(|s| g.rows[3 * low + s]));
    let others = (0..40).map(|_| [x, y, d.below(g.n) as u32]).find(|&r| r[2] != z && twice_area(g, r) > 0);
    let new = if state == State::EdgeRepeated { others.unwrap_or([x, y, z]) } else { [x, y, z] };
    g.rows[3 * high..3 * high + 3].copy_from_slice(&turned(d, new));
    (high, low)
}

/// The tables made ready; if rows were repeated, the lowest that repeats another, and that other.
fn spoil(d: &mut Dice, g: &mut Tables, state: State) -> Option<(usize, usize)> {
    let grown = match state {
        State::AsDrawn | State::NodeDoubled | State::TriangleIn => false,
        State::Grown | State::EdgeHeld => true,
        _ => d.once_in(2),
    };
    if grown {
        grow(d, g);
    }
    match state {
        State::AsDrawn | State::Grown | State::EdgeHeld | State::NodeDoubled | State::TriangleIn => None,
        State::RowRepeated | State::EdgeRepeated => {
            (0..=d.below(2)).map(|_| repeat(d, g, state)).reduce(|first, then| if then.0 <= first.0 { then } else { first })
        }
        State::OddLengths => {
            let (nodes, rows) = [(1, 0), (2, 0), (3, 0), (0, 1), (0, 2), (1, 1)][d.below(6)];
            g.nodes.resize(g.nodes.len() + nodes, 0);
            g.rows.resize(g.rows.len() + rows, 0);
            None
        }
    }
}

/// The eight calls, with the base's node count or, once in four, any.
fn calls(d: &mut Dice, g: &Tables, base: usize) -> [Call; 8] {
    let n0 = if d.once_in(4) { d.below(g.n + 1) } else { base };
    let ([rows, more_rows, red_rows], nodes) = ([0; 3].map(|_| marks(d, g.t)), marks(d, g.n));
    let node = [d.below(g.n), n0 + d.below(g.n - n0), g.n][d.below(3)];
    let (set, ask) = (Call::Set(n0, node, correction(d)), Call::Ask(n0, point(d, g)));
    let (refine, quarter, red) = (Call::Refine(n0, rows), Call::Quarter(n0, more_rows), Call::Red(n0, red_rows));
    [Call::Check, refine, quarter, red, Call::Coarsen(n0, nodes), Call::Restore(n0), set, ask]
}

/// What the check may say of a lawful mesh of this shape in this state. A row that holds a split edge has the node strictly inside; a triangle in a row
/// of a dense mesh may have a corner on a side of another.
fn checked_as(shape: &str, state: State) -> &'static [u32] {
    match state {
        State::NodeDoubled => &[11],
        State::TriangleIn if shape == "dense meshes" => &[11, 12],
        State::TriangleIn => &[12],
        State::AsDrawn if shape == "dense meshes" => &[0, 12],
        State::AsDrawn => &[0],
        State::Grown if shape != "dense meshes" => &[0, 10],
        _ => &[0, 10, 11, 12],
    }
}

/// One mesh through all eight calls; what they say is held against what was done to the mesh, and counted.
fn compare_one(seed: u64, seen: &mut BTreeMap<(&str, &str, String), u64>) {
    let mut d = Dice::new(seed);
    let shape = SHAPES[seed as usize % SHAPES.len()];
    let state = STATES[seed as usize / SHAPES.len() % STATES.len()];
    let mesh = drawn_for(&mut d, shape, state);
    let mut g = lent(&mut d, &mesh);
    let n0 = g.n;
    let repeats = spoil(&mut d, &mut g, state);
    if state == State::EdgeHeld && hold(&mut d, &mut g, n0) {
        *seen.entry((shape, "restore", "held".to_string())).or_default() += 1;
    }
    for call in calls(&mut d, &g, n0) {
        let (said, left) = agreed(seed, &call, &g);
        let as_known = match (state, repeats) {
            (State::OddLengths, _) => said.number == 1,
            (_, Some((high, _))) => (said.number, said.culprit) == (5, high),
            (state, _) if matches!(call, Call::Check) => checked_as(shape, state).contains(&said.number),
            _ => said.number == 0 || said.number > 7 && ![10, 11, 12].contains(&said.number),
        };
        assert!(as_known, "seed {seed}: {} of {shape} said {said:?}", call.name());
        let mut count = |outcome: String| *seen.entry((shape, call.name(), outcome)).or_default() += 1;
        let far = repeats.is_some_and(|(high, low)| high - low >= FAR);
        count(if said.number == 0 && left.t != g.t { "changed".to_string() } else { said.number.to_string() });
        far.then(|| count("5 far".to_string()));
    }
}

/// What the calls said, and what of it was never seen.
fn tell(seen: &BTreeMap<(&str, &str, String), u64>) -> Vec<String> {
    let mut missed = vec![];
    for shape in SHAPES {
        let told = OUTCOMES.iter().map(|&(call, outcomes)| {
            let times = |outcome: &str| seen.get(&(shape, call, outcome.to_string())).copied().unwrap_or(0);
            let never = outcomes.iter().filter(|outcome| times(outcome) == 0 && !never_met(shape, call, outcome));
            missed.extend(never.map(|outcome| format!("{shape}, {call} {outcome}")));
            format!("{call} {}", outcomes.iter().map(|outcome| format!("{outcome}: {}", times(outcome))).collect::<Vec<_>>().join(", "))
        });
        println!("{shape}: {}", told.collect::<Vec<_>>().join("; "));
    }
    missed
}

fn main() {
    let mut words = std::env::args().skip(1);
    let count: u64 = words.next().map_or(400, |w| w.parse().expect("a count"));
    let first: u64 = words.next().map_or(1, |w| w.parse().expect("a seed"));
    let mut seen = BTreeMap::new();
    (first..first + count).for_each(|seed| compare_one(seed, &mut seen));
    let missed = tell(&seen);
    if !missed.is_empty() {
        println!("hard: {count} meshes from seed {first} agree, but never met: {}", missed.join("; "));
        std::process::exit(1);
    }
    let fives: u64 = seen.iter().filter(|((_, _, outcome), _)| outcome == "5").map(|(_, times)| times).sum();
    println!("hard: {count} meshes from seed {first}, {} calls agree, {fives} of them said 5 and named the row; every outcome was met", 8 * count);
}
