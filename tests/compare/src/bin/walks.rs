//! Random walks over the proved library: a base whose nodes carry corrections, a thousand accepted and refused calls that mix the ways to refine
//! with coarsen, settings and questions, then restore, which must give back the base row for row, corrections and all, with no more passes than
//! nodes were added. A red refinement is kept only if its field says that it made no red cut. Some points are asked about before the walk, now and
//! then on it, and after it, when the answers must be the first ones again. Now and then the grown mesh is checked, which must say 0 or 10: no node
//! stands where another does or strictly inside an edge, and no triangles share an interior point. Then as many shorter walks that keep red cuts too:
//! they need not end with the base, but all this must hold on the way and at the end, and the area must be the base's.
//! Usage: walks COUNT [SEED]. A run in which no setting was accepted, or none refused as 3, 13 or 15, no point was in a row or none outside, no
//! answer on the way was another, a check never said 0 or never 10, no red refinement was kept, or no walk with red cuts ended away from the base
//! fails: it is to be longer.
use compare::meshes::Marked;
use compare::{agreed, proved, Answer, Call};
use rival::bases::admitted;
use rival::calls::Tables;
use rival::random::{any_correction, lend, point, Dice};
use spoutbeetle::Node;

/// What a walk made of its calls.
#[derive(Default)]
struct Told {
    refined: usize,
    quartered: usize,
    /// Red refinements that were kept, by their field.
    reddened: [usize; 2],
    coarsened: usize,
    set: usize,
    refused: usize,
    /// Settings refused as 3, 13 and 15.
    settings_refused: [usize; 3],
    questions: Questions,
    /// Grown meshes that the check says 0 of, and 10.
    checked: [usize; 2],
    passes: usize,
}

/// Questions on the way: how many told a correction, how many were refused as 14, and how many told another than the base does.
#[derive(Default)]
struct Questions {
    told: usize,
    outside: usize,
    other: usize,
}

/// How many points each walk asks about.
const POINTS: usize = 40;

/// The numbers that refuse a setting on a lawful mesh.
const REFUSE_A_SETTING: [u32; 3] = [3, 13, 15];

/// A call on the mesh, made with the base's node count or, once in four, with anything. A quarter splits more for a mark, so it gets fewer; what is
/// cut red stays, so that a red refinement gets fewer still, and half of them none.
fn random_call(d: &mut Dice, g: &Tables, n0: usize) -> Call {
    let ways: [(Marked, usize); 4] = [(Call::Quarter, 80), (Call::Refine, 20), (Call::Red, 200), (Call::Red, usize::MAX)];
    let (refine, every) = ways[[0, 0, 1, 1, 2, 3][d.below(6)]];
    match d.below(8) {
        0 => Call::Coarsen(n0, (0..g.n).map(|_| d.once_in(2) as u8).collect()),
        1 => refine(d.below(g.n + 5), (0..g.t + d.below(3)).map(|_| d.below(3) as u8).collect()),
        2 | 3 => Call::Set(n0, d.below(g.n + 3), any_correction(d)),
        4 => Call::Set(d.below(g.n + 5), d.below(g.n + 3), any_correction(d)),
        _ => refine(n0, (0..g.t).map(|_| d.once_in(every) as u8).collect()),
    }
}

/// A refused call is counted. A lawful mesh has no culprit: only a value to be set names a node, the one given.
fn refused(seed: u64, call: &Call, a: Answer, told: &mut Told) {
    told.refused += 1;
    let named = match call {
        Call::Set(_, node, _) => {
            let place = REFUSE_A_SETTING.iter().position(|&number| number == a.number);
            place.into_iter().for_each(|k| told.settings_refused[k] += 1);
            if a.number == 3 { *node } else { 0 }
        }
        _ => 0,
    };
    assert_eq!(a.culprit, named, "seed {seed}: {call:?} said {a:?}");
}

/// A question about a point, which leaves nodes and rows as they are: its number, and the correction told.
fn ask(seed: u64, g: &mut Tables, n0: usize, point: [i32; 2]) -> (u32, [i32; 2]) {
    let (a, left) = agreed(seed, &Call::Ask(n0, point), g);
    *g = left;
    (a.number, a.told)
}

/// A question on the way is counted, beside what the base answered.
fn answered(seed: u64, answer: (u32, [i32; 2]), by_base: (u32, [i32; 2]), told: &mut Questions) {
    match answer.0 {
        0 => told.told += 1,
        14 => told.outside += 1,
        number => panic!("seed {seed}: a question was refused as {number}"),
    }
    assert_eq!(answer.0, by_base.0, "seed {seed}: a point moved out of the mesh or into it");
    told.other += (answer != by_base) as usize;
}

/// A check on the way is counted.
fn checked(seed: u64, g: &Tables, told: &mut Told) {
    let (a, _) = agreed(seed, &Call::Check, g);
    assert!([0, 10].contains(&a.number), "seed {seed}: a grown mesh is refused as {}", a.number);
    told.checked[(a.number == 10) as usize] += 1;
}

/// The tables on a walk, and what it goes from: the base, some points, and what the base answers about them.
struct Walk {
    seed: u64,
    d: Dice,
    g: Tables,
    base: Tables,
    points: Vec<[i32; 2]>,
    by_base: Vec<(u32, [i32; 2])>,
    told: Told,
}

impl Walk {
    /// From a base that the check admits, in tables with room to grow.
    fn from(seed: u64) -> Walk {
        let mut d = Dice::new(seed);
        let (nodes, rows) = admitted(&mut d);
        let mut g = lend(&mut d, &nodes, &rows);
        g.nodes.resize(4 * (120 + d.below(900)).min(1024), 0);
        g.rows.resize(3 * (240 + d.below(1800)).min(2048), 0);
        g.scratch.resize(4 * (g.nodes.len() / 4 + g.rows.len() / 3), 0);
        let base = g.clone();
        assert_eq!(proved(&Call::Check, &mut g).number, 0, "seed {seed}: the base is admitted");
        let points: Vec<_> = (0..POINTS).map(|_| point(&mut d, &base)).collect();
        let by_base = points.iter().map(|&p| ask(seed, &mut g, base.n, p)).collect();
        Walk { seed, d, g, base, points, by_base, told: Told::default() }
    }

    /// So many calls, questions and checks among them; with red cuts kept or not.
    fn go(&mut self, calls: usize, keeps_red_cuts: bool) {
        for _ in 0..calls {
            if self.d.once_in(16) {
                let (k, any) = (self.d.below(POINTS), self.d.below(self.g.n + 1));
                answered(self.seed, ask(self.seed, &mut self.g, any, self.points[k]), self.by_base[k], &mut self.told.questions);
            }
            if self.d.once_in(50) {
                checked(self.seed, &self.g, &mut self.told);
            }
            self.step(keeps_red_cuts);
        }
    }

    /// A call. It is kept if it is accepted, had the base's node count, and made no red cut unless these are kept.
    fn step(&mut self, keeps_red_cuts: bool) {
        let (seed, n0) = (self.seed, self.base.n);
        let call = random_call(&mut self.d, &self.g, n0);
        let mut next = self.g.clone();
        let a = proved(&call, &mut next);
        let told = &mut self.told;
        let (called_with, kind) = match &call {
            Call::Refine(k, _) => (*k, &mut told.refined),
            Call::Quarter(k, _) => (*k, &mut told.quartered),
            Call::Red(k, _) => (*k, &mut told.reddened[a.red as usize]),
            Call::Coarsen(k, _) => (*k, &mut told.coarsened),
            Call::Set(k, ..) => (*k, &mut told.set),
            _ => unreachable!("no such call is made here"),
        };
        if a.number != 0 {
            refused(seed, &call, a, told);
            assert!(next.nodes == self.g.nodes && next.rows == self.g.rows, "seed {seed}: a refusal changed a table");
        } else if called_with == n0 && (a.red == 0 || keeps_red_cuts) {
            *kind += 1;
            self.g = next;
        }
    }
}

/// A walk that makes no red cut ends with the base.
fn walk(seed: u64) -> Told {
    let mut w = Walk::from(seed);
    w.go(1000, false);
    let (n0, added) = (w.base.n, w.g.n - w.base.n);
    let a = proved(&Call::Restore(n0), &mut w.g);
    assert_eq!((a.number, a.n, a.t), (0, n0, w.base.t), "seed {seed}");
    assert!(a.passes <= added, "seed {seed}: {} passes for {added} nodes", a.passes);
    assert!(same(&w.g, &w.base), "seed {seed}: restore did not give back the base");
    let again: Vec<_> = w.points.iter().map(|&p| ask(seed, &mut w.g, n0, p)).collect();
    assert_eq!(again, w.by_base, "seed {seed}: the base back again answers otherwise");
    Told { passes: a.passes, ..w.told }
}

/// A walk with red cuts stays lawful and proper, over the same area; restore is done, and what it leaves is so too. Says whether that is the base.
fn stray(seed: u64) -> (Told, bool) {
    let mut w = Walk::from(seed);
    w.go(300, true);
    let (a, left) = agreed(seed, &Call::Restore(w.base.n), &w.g);
    assert_eq!(a.number, 0, "seed {seed}: restore is refused");
    for g in [&w.g, &left] {
        checked(seed, g, &mut w.told);
        assert_eq!(area(g), area(&w.base), "seed {seed}: the area is another");
    }
    let home = same(&left, &w.base);
    (Told { passes: a.passes, ..w.told }, home)
}

/// Twice the area of all triangles.
fn area(g: &Tables) -> i64 {
    let place = |k: u32| [0, 1].map(|s| g.nodes[4 * k as usize + s] as i64);
    let twice = |row: &[u32]| {
        let [p, q, r] = [0, 1, 2].map(|corner| place(row[corner]));
        (q[0] - p[0]) * (r[1] - p[1]) - (r[0] - p[0]) * (q[1] - p[1])
    };
    g.rows.chunks(3).take(g.t).map(twice).sum()
}

fn same(g: &Tables, base: &Tables) -> bool {
    Node::of(&g.nodes)[..base.n] == Node::of(&base.nodes)[..base.n]
        && g.rows[..3 * base.t] == base.rows[..3 * base.t]
        && g.nodes[4 * base.n..].iter().all(|&x| x == 0)
        && g.rows[3 * base.t..].iter().all(|&x| x == 0)
        && g.scratch.iter().all(|&x| x == 0)
}

/// How many of the grown meshes that were checked were compatible, and how many were not.
fn checks(told: &[Told]) -> [usize; 2] {
    [0, 1].map(|k| told.iter().map(|w| w.checked[k]).sum())
}

/// The walks that end with the base; what of them never came is said.
fn walks(count: u64, first: u64) -> bool {
    let told: Vec<_> = (first..first + count).map(walk).collect();
    let sum = |f: fn(&Told) -> usize| told.iter().map(f).sum::<usize>();
    let reds = sum(|w| w.reddened[0]);
    let accepted = format!(
        "{} refine, {} quarter, {reds} refine_red without a red cut, {} coarsen and {} settings",
        sum(|w| w.refined), sum(|w| w.quartered), sum(|w| w.coarsened), sum(|w| w.set)
    );
    let settings = [0, 1, 2].map(|k| told.iter().map(|w| w.settings_refused[k]).sum::<usize>());
    println!("walks: settings refused as {REFUSE_A_SETTING:?}: {settings:?}");
    let [answered, other, outside] = [sum(|w| w.questions.told), sum(|w| w.questions.other), sum(|w| w.questions.outside)];
    println!("walks: questions on the way: {answered} told a correction, {other} of these another than the base does; {outside} refused as 14");
    let checks = checks(&told);
    println!("walks: grown meshes checked: {} compatible, {} not", checks[0], checks[1]);
    println!("walks: {count} from seed {first}; {accepted} accepted, {} refused, {} passes back to the base", sum(|w| w.refused), sum(|w| w.passes));
    !settings.contains(&0) && ![answered, other, outside].contains(&0) && !checks.contains(&0) && reds > 0 && sum(|w| w.set) > 0
}

/// Those with red cuts.
fn strays(count: u64, first: u64) -> bool {
    let (told, home): (Vec<_>, Vec<_>) = (first..first + count).map(stray).unzip();
    let (cuts, away) = (told.iter().map(|w| w.reddened[1]).sum::<usize>(), home.iter().filter(|&&home| !home).count());
    let checks = checks(&told);
    println!("walks: with red cuts: grown meshes checked: {} compatible, {} not", checks[0], checks[1]);
    println!("walks: with red cuts: {count} from seed {first}, {cuts} refinements that made some; {away} end away from the base");
    !checks.contains(&0) && cuts > 0 && away > 0
}

fn main() {
    let mut words = std::env::args().skip(1);
    let count: u64 = words.next().map_or(20, |w| w.parse().expect("a count"));
    let first: u64 = words.next().map_or(1, |w| w.parse().expect("a seed"));
    let came = [walks(count, first), strays(count, first)];
    if came.contains(&false) {
        println!("walks: all end as they must, but one of these never came");
        std::process::exit(1);
    }
}
