//! How a call's time grows up to W9's limits, beside the rival's, in one run. Tables are copied and scratch is filled with sevens before each call,
//! outside the time taken, and what both programs say and leave is compared once. "Warm" is the middle of runs of a call one after the other, "cold" that
//! of runs made once in a round of all calls, in an order drawn for the round.
use crate::meshes::{any_order, fitting, grown, shuffled, tables, widen, Mesh};
use crate::{made, proved, rival, Answer, Call};
use rival::calls::Tables;
use rival::random::{grid, Dice};
use std::time::{Duration, Instant};

/// The rooms for nodes, with twice as many rows. A mesh fills them as far as its form lets it.
const SIZES: [usize; 4] = [1_024, 4_096, 16_384, 32_768];

const ROUNDS: usize = 21;

type Made = fn(usize) -> (Call, Tables);

/// A sheet in order, and with its numbers shuffled; a sheet of squares refined everywhere once and twice, which ends after two passes; and a square
/// grown by marking every third row, again and again.
const CALLS: [(&str, Made); 14] = [
    ("check, a sheet", |n| (Call::Check, sheet(n))),
    (JUDGED, |n| (Call::Ask(0, [1, 1]), sheet(n))),
    ("correction_at, no row of a sheet", |n| (Call::Ask(0, [-1, -1]), sheet(n))),
    ("set_correction, a sheet", |n| last_node_set(refined(n, 2))),
    ("refine, a sheet", |n| all_marked(Call::Refine, refined(n, 1))),
    ("one full pass, a sheet", |n| pass(refined(n, 2))),
    ("restore, a sheet", |n| (Call::Restore(squares(n)), refined(n, 2))),
    ("check, a sheet shuffled", |n| (Call::Check, mixed(n))),
    ("correction_at, no row of a sheet shuffled", |n| (Call::Ask(0, [-1, -1]), mixed(n))),
    ("set_correction, a square grown", |n| last_node_set(grown(n))),
    ("refine, a square grown", |n| filled(Call::Refine, n)),
    ("quarter, a square grown", |n| filled(Call::Quarter, n)),
    ("one full pass, a square grown", |n| pass(grown(n))),
    ("restore, a square grown", |n| (Call::Restore(4), grown(n))),
];

/// A question that row 0 answers: numbers 1 to 7 are judged, and next to nothing more.
const JUDGED: &str = "correction_at, row 0 of a sheet";

/// The side of a sheet of squares that has at most `n` nodes.
fn side(n: usize) -> usize {
    n.isqrt() - 1
}

fn roomy(mesh: &Mesh, n: usize) -> Tables {
    tables(mesh, n, 2 * n)
}

fn sheet(n: usize) -> Tables {
    roomy(&grid(side(n), side(n), 8), n)
}

fn mixed(n: usize) -> Tables {
    roomy(&shuffled(&mut Dice::new(1), &grid(side(n), side(n), 8)), n)
}

/// The nodes of a sheet that has at most `n` after it was refined everywhere twice, which halves the squares' sides.
fn squares(n: usize) -> usize {
    (side(n) / 2 + 1).pow(2)
}

/// That sheet, refined everywhere so many times.
fn refined(n: usize, times: usize) -> Tables {
    let mut g = roomy(&grid(side(n) / 2, side(n) / 2, 16), n);
    for _ in 0..times {
        let (call, _) = all_marked(Call::Refine, g.clone());
        assert_eq!(rival(&call, &mut g).number, 0, "there is room");
    }
    g.scratch.fill(7);
    g
}

fn all_marked(call: fn(usize, Vec<u8>) -> Call, g: Tables) -> (Call, Tables) {
    (call(g.n, vec![1; g.t]), g)
}

fn last_node_set(g: Tables) -> (Call, Tables) {
    (Call::Set(0, g.n - 1, [-3, 5]), g)
}

fn pass(g: Tables) -> (Call, Tables) {
    (Call::Coarsen(4, vec![1; g.n]), g)
}

/// A square grown to half of the nodes, and as many rows marked as fit.
fn filled(call: fn(usize, Vec<u8>) -> Call, n: usize) -> (Call, Tables) {
    let mut g = grown(n / 2);
    widen(&mut g, n, 2 * n);
    let rows: Vec<usize> = (0..3).flat_map(|from| (from..g.t).step_by(3)).collect();
    (call(4, fitting(&g, call, 4, &rows)), g)
}

struct Case {
    name: &'static str,
    call: Call,
    given: Tables,
    said: Answer,
}

fn case(name: &'static str, made_for: Made, n: usize) -> Case {
    let (call, given) = made_for(n);
    let ours = made(&call, &given, proved);
    assert!(ours == made(&call, &given, rival) && [0, 14].contains(&ours.0.number), "{name}: the two differ, or it is refused");
    Case { name, call, given, said: ours.0 }
}

/// What it takes by each program, in nanoseconds a node: the larger of the counts before and after.
#[derive(Clone)]
struct Cost {
    warm: f64,
    cold: f64,
    rival: f64,
}

fn time(case: &Case, by: fn(&Call, &mut Tables) -> Answer) -> Duration {
    let mut g = case.given.clone();
    let start = Instant::now();
    by(&case.call, &mut g);
    start.elapsed()
}

fn middle(mut times: Vec<Duration>) -> f64 {
    times.sort();
    times[times.len() / 2].as_nanos() as f64
}

fn costs(cases: &[Case]) -> Vec<Cost> {
    let d = &mut Dice::new(1);
    let mut taken = vec![[vec![], vec![], vec![]]; cases.len()];
    for _ in 0..ROUNDS {
        for k in any_order(d, cases.len()) {
            let [warm, cold, theirs] = &mut taken[k];
            cold.push(time(&cases[k], proved));
            warm.extend((0..5).map(|_| time(&cases[k], proved)));
            theirs.push(time(&cases[k], rival));
        }
    }
    let shared = |(case, taken): (&Case, [Vec<Duration>; 3])| {
        let nodes = case.given.n.max(case.said.n) as f64;
        let [warm, cold, rival] = taken.map(|times| middle(times) / nodes);
        Cost { warm, cold, rival }
    };
    cases.iter().zip(taken).map(shared).collect()
}

fn row(case: &Case, cost: &Cost) {
    let nodes = case.given.n.max(case.said.n);
    let whole = |each: f64| format!("{:.1?}", Duration::from_nanos((each * nodes as f64) as u64));
    let [ours, theirs] = [cost.warm, cost.rival].map(whole);
    let Cost { warm, cold, rival } = cost;
    println!("| {} | {} | {} | {nodes} | {} | {ours} | {warm:.0} | {cold:.0} | {theirs} | {:.2} |", case.name, case.given.n, case.given.t, case.said.passes, warm / rival);
}

/// By how much the time a node grew from the least room to the largest.
fn growth(name: &str, costs: &[Cost]) {
    let [least, most] = [&costs[0], &costs[SIZES.len() - 1]];
    println!("| {name} | {:.2} | {:.2} | {:.2} |", most.warm / least.warm, most.cold / least.cold, most.rival / least.rival);
}

/// The table; then the growth of each call, and of check's numbers 1 to 7 and 10 to 12 apart.
pub fn tell() {
    let cases: Vec<Case> = CALLS.iter().flat_map(|&(name, made_for)| SIZES.map(|n| case(name, made_for, n))).collect();
    let costs = costs(&cases);
    println!("| call | nodes | rows | nodes at most | passes | proved | ns a node | cold | rival | ratio |\n|{}", "---|".repeat(10));
    cases.iter().zip(&costs).for_each(|(case, cost)| row(case, cost));
    println!("\n| from {} nodes to {}, the time a node | warm | cold | rival |\n|{}", SIZES[0], SIZES[SIZES.len() - 1], "---|".repeat(4));
    let families: Vec<&[Cost]> = costs.chunks(SIZES.len()).collect();
    CALLS.iter().zip(&families).for_each(|((name, _), costs)| growth(name, costs));
    let judged = CALLS.iter().position(|(name, _)| *name == JUDGED).expect("it is among them");
    let later = families[0].iter().zip(families[judged]);
    let later: Vec<Cost> = later.map(|(all, first)| Cost { warm: all.warm - first.warm, cold: all.cold - first.cold, rival: all.rival - first.rival }).collect();
    growth("check less the question of row 0: 10, 11 and 12", &later);
    println!("\n10, 11 and 12, ns a node: {}.", later.iter().map(|cost| format!("{:.0}", cost.warm)).collect::<Vec<_>>().join(", "));
}
