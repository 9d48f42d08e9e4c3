//! The words of the Rust wrapper: for every number and some culprits; and of a call that draws each refusal. tests/words/words.out has what
//! is written.
use spoutbeetle::reader::{State, OUT, PIECE};
use spoutbeetle::{check, coarsen, correction_at, quarter, refine, refine_red, restore, set_correction, Answer, Node, Refusal, Tables};

/// The tables of a mesh, to be spoilt.
struct Sheet {
    nodes: Vec<Node>,
    rows: Vec<u32>,
    scratch: Vec<u32>,
    n: usize,
    t: usize,
}

/// A square in two halves.
fn square() -> Sheet {
    let corners = [Node::at(0, 0).carrying(1, -1), Node::at(8, 0).carrying(2, -2), Node::at(8, 8).carrying(3, -3), Node::at(0, 8).carrying(4, -4)];
    let mut sheet = Sheet { nodes: corners.into(), rows: vec![1, 2, 0, 3, 0, 2], scratch: vec![0; 4 * (16 + 32)], n: 4, t: 2 };
    sheet.nodes.resize(16, Node::default());
    sheet.rows.resize(3 * 32, 0);
    sheet
}

/// Adds nodes, and keeps `from` rows and puts these behind.
fn add(g: &mut Sheet, places: &[(i32, i32)], from: usize, rows: &[u32]) {
    places.iter().enumerate().for_each(|(k, &(x, y))| g.nodes[g.n + k] = Node::at(x, y));
    g.rows[3 * from..3 * from + rows.len()].copy_from_slice(rows);
    (g.n, g.t) = (g.n + places.len(), from + rows.len() / 3);
}

type Spoil = fn(&mut Sheet);
type Made = fn(Tables) -> Result<Answer, Refusal>;

/// A call for each number, on the square spoilt in one way.
const CALLS: [(&str, Spoil, Made); 20] = [
    ("check, the square", |_| (), check),
    ("check, scratch a number short", |g| g.scratch.truncate(4 * (16 + 32) - 1), check),
    ("refine, a mark for one row of two", |_| (), |g| refine(g, 4, &[1])),
    ("check, nodes 2 and 3 too far out", |g| (g.nodes[2].x, g.nodes[3].y) = (1048577, 1048577), check),
    ("restore, node 1 with too large a correction, 2 too far out", |g| (g.nodes[1].dy, g.nodes[2].x) = (-32769, 1048577), |g| restore(g, 4)),
    ("set_correction, node 3 to 32,768", |_| (), |g| set_correction(g, 4, 3, 0, 32768)),
    ("set_correction, node 9 to -32,769", |_| (), |g| set_correction(g, 4, 9, -32769, 0)),
    ("refine, row 1 names node 4 of four", |g| g.rows[5] = 4, |g| refine(g, 4, &[1, 0])),
    ("quarter, row 0 once more as row 2", |g| (g.t, g.rows[6], g.rows[7], g.rows[8]) = (3, 1, 2, 0), |g| quarter(g, 4, &[1, 0, 0])),
    ("coarsen, row 1 without area", |g| (g.nodes[3].x, g.nodes[3].y) = (4, 4), |g| coarsen(g, 4, &[1, 0, 0, 0])),
    ("restore, nodes 4 and 5 more", |g| g.n = 6, |g| restore(g, 4)),
    ("refine, an edge of odd height", |g| g.nodes[2].y = 7, |g| refine(g, 4, &[1, 0])),
    ("quarter, room for four nodes", |g| g.nodes.truncate(4), |g| quarter(g, 4, &[1, 0])),
    ("refine_red, room for five rows", |g| g.rows.truncate(15), |g| refine_red(g, 4, &[1, 0])),
    ("check, row 1 turned", |g| (g.rows[3], g.rows[4], g.rows[5]) = (0, 2, 3), check),
    ("check, row 1 alone cut at the middle of 0-2", |g| add(g, &[(4, 4)], 1, &[4, 3, 0, 4, 2, 3]), check),
    ("check, a triangle over both rows", |g| add(g, &[(3, 1), (5, 3), (2, 4)], 2, &[4, 5, 6]), check),
    ("set_correction, a base node", |_| (), |g| set_correction(g, 4, 3, 5, -6)),
    ("set_correction, node 4 of four", |_| (), |g| set_correction(g, 4, 4, 5, -6)),
    ("set_correction, an added node", once_refined, |g| set_correction(g, 4, 4, 32767, -32768)),
];

fn lent(g: &mut Sheet) -> Tables<'_> {
    Tables { nodes: Node::table(&mut g.nodes), rows: &mut g.rows, scratch: &mut g.scratch, n: g.n, t: g.t }
}

fn once_refined(g: &mut Sheet) {
    let a = refine(lent(g), 4, &[1, 0]).expect("refined");
    (g.n, g.t) = (a.n, a.t);
}

fn words(spoil: Spoil, made: Made) -> String {
    let mut g = square();
    spoil(&mut g);
    match made(lent(&mut g)) {
        Ok(answer) => answer.to_string(),
        Err(refusal) => refusal.to_string(),
    }
}

/// The words of what is said, whatever an accepted call says.
fn words_of<A>(said: Result<A, Refusal>) -> String {
    said.map_or_else(|refusal| refusal.to_string(), |_| words(|_| (), check))
}

/// The words of a number with each culprit; those of 0 are an answer's.
fn say_number(number: u32) {
    for culprit in [0, 17, 4294967295] {
        let text = Refusal::of(number, culprit).map_or(words(|_| (), check), |refusal| refusal.to_string());
        println!("{number}, {culprit}: {text}");
    }
}

/// Questions about points.
fn say_questions() {
    for (name, x, y) in [("correction_at, a corner of the square", 8, 8), ("correction_at, a step past it", 9, 8)] {
        println!("{name}: {}", words_of(correction_at(lent(&mut square()).into(), 4, x, y)));
    }
}

/// The reader's refusals.
fn say_reader() {
    let (mut state, mut out) = (State::default(), vec![0; OUT]);
    let said = [
        ("begin, out a byte short", state.begin(&mut out[..OUT - 1])),
        ("begin", state.begin(&mut out)),
        ("take, a piece of 513 bytes", state.take(&[0; PIECE + 1], &mut out)),
        ("end", state.end(&mut out)),
        ("take, an empty piece after the end", state.take(&[], &mut out)),
    ];
    for (name, said) in said {
        println!("{name}: {}", words_of(said));
    }
}

fn main() {
    (0..=18).for_each(say_number);
    for (name, spoil, made) in CALLS {
        println!("{name}: {}", words(spoil, made));
    }
    say_questions();
    say_reader();
}
