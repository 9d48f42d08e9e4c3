//! Times of the proved library beside the rival's, on the same tables in one run. Both are optimised; tables are copied and scratch is
//! filled with sevens before each call, outside the time taken. Calls are timed in two ways: "warm" is the middle of runs of a call one after
//! the other, "cold" that of runs made once in a round of all calls, whose tables were all copied before it. Usage: times, or
//!   times check     how the base check's time grows with the nodes, beside the rival's
//!   times large     how the time of every call grows up to the largest rooms, beside the rival's
//!   times lines     how fast the reader takes text, beside the rival's
//!   times counted   the instructions that the proved library takes for each call, counted by callgrind
//!   times once      each call made once by the proved library, for the former
use compare::meshes::{any_order, copies, dense, double_fan, fan, fitting, full, grown, shuffled, tables, widen, Marked, Mesh};
use compare::{made, proved, rival as other, Answer, Call};
use rival::calls::{holders, Tables};
use rival::random::{grid, Dice};
use std::collections::HashMap;
use std::process::Command;
use std::time::{Duration, Instant};

/// The node counts at which every call is measured: before it, or after it where it adds nodes. There is room for these and twice as many rows.
const SIZES: [usize; 4] = [64, 256, 529, 1024];

/// How many copies of the mesh of the least size every call is measured on, side by side: so a mesh grows, and its form and passes do not.
/// Since copies are alike, times flatter many of them; instructions do not.
const COPIES: [usize; 2] = [4, 16];

/// A call at every size, and then on every number of copies.
const FAMILY: usize = SIZES.len() + COPIES.len();

/// One of the two programs.
type By = fn(&Call, &mut Tables) -> Answer;
const BOTH: [By; 2] = [proved, other];

/// A way to measure what every case takes.
type Measure = fn(&[Case]) -> Vec<Cost>;

struct Case {
    name: String,
    call: Call,
    given: Tables,
    /// What both programs must say.
    number: u32,
}

/// What the proved call took, in nanoseconds or instructions, and the rival's, if it was measured.
struct Cost {
    ours: f64,
    theirs: Option<f64>,
}

/// A call that is done, or a question that no row answers.
fn case(name: &str, call: Call, given: Tables) -> Case {
    let outside = matches!(call, Call::Ask(_, point) if answering(&given, point).is_none());
    Case { name: name.to_string(), call, given, number: if outside { 14 } else { 0 } }
}

/// A grid of squares.
fn checked(n: usize) -> Case {
    let side = n.isqrt() - 1;
    case("check", Call::Check, tables(&grid(side, side, 8), n, 2 * n))
}

/// A square grown to half of the nodes, and as many rows marked as fit: every third or ninth one, then those after them, and so on.
fn added(name: &str, call: Marked, every: usize, n: usize) -> Case {
    let mut g = grown(n / 2);
    widen(&mut g, n, 2 * n);
    let rows: Vec<usize> = (0..every).flat_map(|from| (from..g.t).step_by(every)).collect();
    let filling = call(4, fitting(&g, call, 4, &rows));
    assert_eq!(made(&filling, &g, other).0.n, n, "{name}");
    case(name, filling, g)
}

/// A question about a point that this row answers, or that no row holds: past all nodes by a step.
fn question(g: &Tables, row: Option<usize>) -> Call {
    let place = |k: usize| [g.nodes[4 * k], g.nodes[4 * k + 1]];
    let point = match row {
        Some(i) => {
            let corners = [0, 1, 2].map(|s| place(g.rows[3 * i + s] as usize));
            [0, 1].map(|s| corners.iter().map(|corner| corner[s]).sum::<i32>().div_euclid(3))
        }
        None => [0, 1].map(|s| (0..g.n).map(|k| place(k)[s]).fold(0, i32::max) + 1),
    };
    assert_eq!(answering(g, point), row, "the row that answers");
    Call::Ask(g.n, point)
}

/// The row that answers a question about the point.
fn answering(g: &Tables, point: [i32; 2]) -> Option<usize> {
    holders(g, point).first().map(|lowest| lowest.row)
}

/// A question on the grid that is checked: the first row answers, the last, or none.
fn asked(name: &str, row: fn(&Tables) -> Option<usize>, n: usize) -> Case {
    let g = checked(n).given;
    case(name, question(&g, row(&g)), g)
}

/// The call made on so many copies of its mesh at once. Each must come out as the one does.
fn copied(one: &Case, count: usize) -> Case {
    let n0 = match one.call {
        Call::Check => 0,
        Call::Refine(n0, _) | Call::Quarter(n0, _) | Call::Red(n0, _) | Call::Coarsen(n0, _) | Call::Restore(n0) | Call::Set(n0, ..) | Call::Ask(n0, _) => n0,
    };
    let given = copies(&one.given, n0, count);
    let call = match &one.call {
        Call::Check => Call::Check,
        Call::Refine(_, marks) => Call::Refine(n0 * count, marks.repeat(count)),
        Call::Quarter(_, marks) => Call::Quarter(n0 * count, marks.repeat(count)),
        Call::Red(_, marks) => Call::Red(n0 * count, marks.repeat(count)),
        Call::Coarsen(_, marks) => Call::Coarsen(n0 * count, marks.repeat(count)),
        Call::Restore(_) => Call::Restore(n0 * count),
        // the first copy's node
        Call::Set(_, node, value) => Call::Set(n0 * count, n0 * count + node - n0, *value),
        // the first copy's first row, the last one's last, or none
        Call::Ask(_, point) => question(&given, answering(&one.given, *point).map(|row| if row == 0 { 0 } else { given.t - 1 })),
    };
    let all = case(&format!("{}, {count} copies of the first", one.name), call, given);
    let [a, said] = [one, &all].map(|case| made(&case.call, &case.given, other).0);
    assert_eq!((said.number, said.n, said.t, said.passes), (a.number, count * a.n, count * a.t, a.passes), "{}", all.name);
    all
}

/// Every call in its family: a grid is checked, and asked about points; a square that was grown is refined in the three ways, coarsened and restored,
/// and a node of it is set.
fn families() -> Vec<Case> {
    let families: [fn(usize) -> Case; 10] = [
        checked,
        |n| added("refine", Call::Refine, 3, n),
        |n| added("quarter", Call::Quarter, 9, n),
        |n| added("refine_red", Call::Red, 9, n),
        |n| case("one full pass", Call::Coarsen(4, vec![1; n]), grown(n)),
        |n| case("restore", Call::Restore(4), grown(n)),
        |n| case("set_correction", Call::Set(4, n - 1, [-3, 5]), grown(n)),
        |n| asked("correction_at by the first row", |_| Some(0), n),
        |n| asked("correction_at by the last row", |g| Some(g.t - 1), n),
        |n| asked("correction_at by none", |_| None, n),
    ];
    let members = |family: &fn(usize) -> Case| {
        let sized = SIZES.map(family);
        let copies = COPIES.map(|count| copied(&sized[0], count));
        sized.into_iter().chain(copies)
    };
    families.iter().flat_map(members).collect()
}

fn largest(mesh: &Mesh) -> Tables {
    tables(mesh, 1024, 2048)
}

/// All rows of the mesh refined or cut in four, and what that leaves restored.
fn there_and_back(what: &str, call: Marked, mesh: &Mesh) -> [Case; 2] {
    let g = largest(mesh);
    let there = call(g.n, vec![1; g.t]);
    let mut back = made(&there, &g, other).1;
    back.scratch.fill(7);
    [case(&format!("{}, {what}", there.name()), there, g.clone()), case("restore of that", Call::Restore(g.n), back)]
}

/// Meshes made to be bad for a search of neighbours, and the largest that there are.
fn bad() -> Vec<Case> {
    let d = &mut Dice::new(1);
    let checked = [
        ("a full table", full(), 11),
        ("a fan, its hub numbered highest", fan(1023, 1023), 0),
        ("a fan, its hub numbered lowest", fan(1023, 0), 0),
        ("a double fan", double_fan(1022), 0),
        ("a dense mesh", dense(111, 2048), 12),
        ("a grid shuffled", shuffled(d, &grid(31, 31, 8)), 0),
    ];
    let check = |(what, mesh, number): &(&str, Mesh, u32)| {
        let refused = if *number > 0 { format!(", refused as {number}") } else { String::new() };
        Case { number: *number, ..case(&format!("check, {what}{refused}"), Call::Check, largest(mesh)) }
    };
    let mut cases: Vec<_> = checked.iter().map(check).collect();
    let asked = |(what, mesh, _): &(&str, Mesh, u32)| {
        let g = largest(mesh);
        case(&format!("correction_at by none, {what}"), question(&g, None), g)
    };
    cases.extend(checked.iter().map(asked));
    cases.push(case("set_correction, a full table", Call::Set(1023, 1023, [-3, 5]), largest(&full())));
    cases.extend(there_and_back("a fan, its hub numbered highest", Call::Refine, &fan(511, 511)));
    cases.extend(there_and_back("a fan, its hub numbered highest", Call::Quarter, &fan(341, 341)));
    cases.extend(there_and_back("a double fan", Call::Refine, &double_fan(511)));
    cases.extend(there_and_back("a dense mesh", Call::Refine, &dense(79, 1024)));
    cases.extend(there_and_back("a grid shuffled", Call::Refine, &shuffled(d, &grid(22, 22, 8))));
    cases
}

fn time(call: &Call, g: &mut Tables, by: By) -> Duration {
    let start = Instant::now();
    by(call, g);
    start.elapsed()
}

/// What eleven runs take if the call takes less than a millisecond, and otherwise one. One run goes before, to warm up.
fn runs(case: &Case, by: By) -> Vec<Duration> {
    let run = || time(&case.call, &mut case.given.clone(), by);
    let short = run() < Duration::from_millis(1);
    (0..if short { 11 } else { 1 }).map(|_| run()).collect()
}

/// The middle of all runs of nine rounds through all calls, so that a slow moment of the machine meets few of any call's runs.
fn warm(cases: &[Case]) -> Vec<Cost> {
    let mut taken = vec![[vec![], vec![]]; cases.len()];
    for _ in 0..9 {
        for (case, taken) in cases.iter().zip(&mut taken) {
            taken.iter_mut().zip(BOTH).for_each(|(times, by)| times.extend(runs(case, by)));
        }
    }
    middles(taken)
}

/// The middle of 101 rounds, in each of which both programs make every call once, in an order drawn for the round.
fn cold(cases: &[Case]) -> Vec<Cost> {
    let d = &mut Dice::new(1);
    let mut taken = vec![[vec![], vec![]]; cases.len()];
    for _ in 0..101 {
        let mut given: Vec<_> = cases.iter().map(|case| [case.given.clone(), case.given.clone()]).collect();
        for drawn in any_order(d, 2 * cases.len()) {
            let (k, who) = (drawn / 2, drawn % 2);
            taken[k][who].push(time(&cases[k].call, &mut given[k][who], BOTH[who]));
        }
    }
    middles(taken)
}

fn middles(taken: Vec<[Vec<Duration>; 2]>) -> Vec<Cost> {
    let middle = |mut times: Vec<Duration>| {
        times.sort();
        times[times.len() / 2].as_nanos() as f64
    };
    taken.into_iter().map(|both| both.map(middle)).map(|[ours, theirs]| Cost { ours, theirs: Some(theirs) }).collect()
}

/// The instructions of each exported call of this name that `times once` makes, in order: callgrind writes them to a file after each.
fn counts(name: &str) -> Vec<u64> {
    let folder = std::env::temp_dir().join(format!("spoutbeetle-{name}-{}", std::process::id()));
    std::fs::create_dir(&folder).expect("a folder of its own");
    let ran = Command::new("valgrind")
        .args(["--tool=callgrind", "--quiet", &format!("--callgrind-out-file={}", folder.join("out").display())])
        .args([format!("--toggle-collect=spoutbeetle_{name}"), format!("--dump-after=spoutbeetle_{name}")])
        .args([std::env::current_exe().expect("this program"), "once".into()])
        .status();
    assert!(ran.expect("valgrind is there").success());
    let written = |k: usize| std::fs::read_to_string(folder.join(format!("out.{k}"))).ok();
    let total = |text: String| text.lines().find_map(|line| line.strip_prefix("totals: ")?.parse().ok()).expect("a total");
    let counts = (1..).map_while(written).map(total).collect();
    std::fs::remove_dir_all(&folder).expect("the folder goes");
    counts
}

fn counted(cases: &[Case]) -> Vec<Cost> {
    let mut left = HashMap::new();
    let mut next = |name| left.entry(name).or_insert_with(|| counts(name).into_iter()).next().expect("a count for each call");
    cases.iter().map(|case| Cost { ours: next(case.call.name()) as f64, theirs: None }).collect()
}

/// The larger of the counts before the call and after it, nodes and rows: what its cost is shared out to.
fn shares(case: &Case) -> [f64; 2] {
    let a = made(&case.call, &case.given, other).0;
    [case.given.n.max(a.n) as f64, case.given.t.max(a.t) as f64]
}

/// The row of the table. Both programs must have said what is expected, and left the same tables.
fn row(case: &Case, cost: &Cost) -> String {
    let (a, left) = made(&case.call, &case.given, proved);
    assert!(a.number == case.number && (a, left) == made(&case.call, &case.given, other), "{}", case.name);
    let (g, time) = (&case.given, |ns: f64| format!("{:.1?}", Duration::from_nanos(ns as u64)));
    let each = shares(case).map(|share| format!("{:.0}", cost.ours / share)).join(" | ");
    let measured = match cost.theirs {
        Some(theirs) => format!("{} | {each} | {} | {:.2}", time(cost.ours), time(theirs), cost.ours / theirs),
        None => format!("{} | {each}", cost.ours),
    };
    format!("| {} | {} | {} | {} | {} | {} | {measured} |", case.name, g.n, g.t, a.n, a.t, a.passes)
}

/// By how much the cost per node (and per row, if by another number) grew from the first of each family to the one at this place.
fn growth(families: &[Case], costs: &[f64], place: usize) -> String {
    let grew = families.chunks(FAMILY).zip(costs.chunks(FAMILY)).map(|(case, cost)| {
        let each = |k: usize| shares(&case[k]).map(|share| cost[k] / share);
        let ([node, row], [first_node, first_row]) = (each(place), each(0));
        let [node, row] = [node / first_node, row / first_row].map(|times| format!("{times:.2}"));
        let by_row = if row == node { String::new() } else { format!(" ({row})") };
        format!("{} {node}{by_row}", case[0].name)
    });
    grew.collect::<Vec<_>>().join(", ")
}

/// The table, of the first way to measure; then by how much a call's cost grew with the size and with the copies, each way.
fn tell(measures: &str, ways: &[(&str, Measure)]) {
    let families = families();
    let in_families = families.len();
    let cases: Vec<Case> = families.into_iter().chain(bad()).collect();
    let costs: Vec<_> = ways.iter().map(|(_, measure)| measure(&cases)).collect();
    println!("| call | nodes | rows | nodes after | rows after | passes | {measures} |");
    println!("|{}", "---|".repeat(6 + measures.split('|').count()));
    cases.iter().zip(&costs[0]).for_each(|(case, cost)| println!("{}", row(case, cost)));
    println!();
    let grown = [(SIZES.len() - 1, "1,024 nodes against 64, per node (per row)"), (FAMILY - 1, "Sixteen copies against one, per node")];
    for (place, what) in grown {
        for ((way, _), costs) in ways.iter().zip(&costs) {
            let grew = |costs: Vec<f64>| growth(&cases[..in_families], &costs, place);
            let theirs: Option<Vec<f64>> = costs.iter().map(|cost| cost.theirs).collect();
            let rival = theirs.map_or(String::new(), |theirs| format!("; the rival: {}", grew(theirs)));
            println!("{what}, {way}: {}{rival}.", grew(costs.iter().map(|cost| cost.ours).collect()));
        }
    }
}

fn main() {
    match std::env::args().nth(1).as_deref() {
        None => tell("proved | ns a node | ns a row | rival | ratio", &[("warm", warm), ("cold", cold)]),
        Some("check") => compare::check_times::tell(),
        Some("large") => compare::large_times::tell(),
        Some("lines") => compare::text_times::tell(),
        Some("counted") => tell("instructions | a node | a row", &[("instructions", counted)]),
        Some("once") => families().iter().chain(&bad()).for_each(|case| drop(made(&case.call, &case.given, proved))),
        Some(word) => panic!("times: no word {word}"),
    }
}
