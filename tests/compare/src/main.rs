//! Drives the proved library, by its exported calls and by the wrapper, and the rival with the same random calls and compares answers and
//! every table entry; then as many checks of bases whose kind says beforehand what they may draw; and of every two triangles over a small lattice.
//! Usage: compare COUNT [SEED]. The first difference is made smaller by taking rows away, shown with its seed, and the run fails. A run in which a
//! call never gave one of the numbers that it may answer, or one of 3 to 7 never with a culprit above 0 or never with several at fault, fails too: it
//! is to be longer. A setting must have drawn 3 by what is stored and by the value to be set, a red refinement that was done must have made a red cut
//! exactly if a row was marked, and both must have come, questions must have been of every kind of compare::questions, every kind of base must have
//! drawn all of its numbers, and any two of 7, 11, 12 and 10 must have met in one base.
use compare::bases::{self, compare_base};
use compare::questions::{kinds, KINDS};
use compare::{agreed, Answer, Call};
use rival::calls::{offenders, Tables};
use rival::random::{any_correction, damage, mesh, point, Dice};
use std::collections::BTreeMap;

/// Settings whose value is out of range, while all that is stored is in range.
const BY_VALUE: &str = "set_correction, by the value to be set,";

/// Red refinements that are done, by what their field says.
const NO_CUT: &str = "refine_red, without a red cut,";
const A_CUT: &str = "refine_red, with a red cut,";

/// The calls, and the numbers that documents 01 and 02 list for each; those of quarter and refine_red are refine's.
const NUMBERS: [(&str, &[u32]); 11] = [
    ("check", &[0, 1, 3, 4, 5, 6, 7, 10, 11, 12]),
    ("refine", &[0, 1, 2, 3, 4, 5, 6, 7, 8, 9]),
    ("quarter", &[0, 1, 2, 3, 4, 5, 6, 7, 8, 9]),
    ("refine_red", &[0, 1, 2, 3, 4, 5, 6, 7, 8, 9]),
    (NO_CUT, &[0]),
    (A_CUT, &[0]),
    ("coarsen", &[0, 1, 2, 3, 4, 5, 6, 7]),
    ("restore", &[0, 1, 3, 4, 5, 6, 7]),
    ("set_correction", &[0, 1, 3, 4, 5, 6, 7, 13, 15]),
    (BY_VALUE, &[3]),
    ("correction_at", &[0, 1, 3, 4, 5, 6, 7, 14]),
];

/// A base node, an added one, or one that is not there.
fn random_node(d: &mut Dice, n: usize, n0: usize) -> usize {
    match d.below(5) {
        0 => d.below(n0),
        1 => [n, n.saturating_add(d.below(3)), usize::MAX][d.below(3)],
        _ => n0 + d.below(n.saturating_sub(n0).min(2000)),
    }
}

fn random_call(d: &mut Dice, g: &Tables, base: usize) -> Call {
    let n0 = if d.once_in(4) { d.below(g.n.saturating_add(2).min(2000)) } else { base };
    let mut marks = |count: usize, every: usize| {
        let mut m: Vec<u8> = (0..count.min(3000)).map(|_| d.once_in(every) as u8).collect();
        if d.once_in(25) {
            m.push(0);
        }
        if d.once_in(25) && !m.is_empty() {
            let k = d.below(m.len());
            m[k] = 2;
        }
        m
    };
    let (refining, coarsening) = (marks(g.t, 3), marks(g.n, 1));
    match d.below(9) {
        0 => Call::Check,
        1 => Call::Refine(n0, refining),
        2 => Call::Quarter(n0, refining),
        3 => Call::Red(n0, refining),
        4 if d.once_in(2) => Call::Coarsen(n0, coarsening),
        4 => Call::Coarsen(n0, coarsening.iter().map(|&b| if d.once_in(3) { 0 } else { b }).collect()),
        5 => Call::Restore(n0),
        6 => {
            let node = random_node(d, g.n, n0);
            Call::Set(n0, node, any_correction(d))
        }
        _ => Call::Ask(n0, point(d, g)),
    }
}

/// The call as it is counted: a setting that its value alone refuses stands for itself, a question is counted with its kinds too, and a red refinement
/// that is done with what its field says.
fn counted_as(call: &Call, given: &Tables, said: Answer, at_fault: &[usize]) -> Vec<&'static str> {
    match call {
        Call::Set(..) if said.number == 3 && at_fault.is_empty() => vec![BY_VALUE],
        Call::Red(..) if said.number == 0 => vec![call.name(), if said.red == 1 { A_CUT } else { NO_CUT }],
        Call::Ask(_, point) => [vec![call.name()], kinds(given, *point, said.number)].concat(),
        _ => vec![call.name()],
    }
}

/// How often a call gave a number, how often with a culprit above 0, and how often with several at fault.
#[derive(Default)]
struct Times {
    given: u64,
    above: u64,
    several: u64,
}

/// One random call, by all three; the number that they give is counted.
fn compare_one(seed: u64, seen: &mut BTreeMap<(&str, u32), Times>) {
    let mut d = Dice::new(seed);
    let (mut given, base) = mesh(&mut d);
    damage(&mut d, &mut given);
    let call = random_call(&mut d, &given, base);
    let (said, _) = agreed(seed, &call, &given);
    let cuts = matches!(&call, Call::Red(_, marks) if said.number == 0 && marks.contains(&1));
    assert_eq!(said.red, cuts as u32, "seed {seed}: {call:?} said {said:?}");
    let at_fault = offenders(&given, said.number);
    for name in counted_as(&call, &given, said, &at_fault) {
        let times = seen.entry((name, said.number)).or_default();
        times.given += 1;
        times.above += (said.culprit > 0) as u64;
        times.several += (at_fault.len() > 1) as u64;
    }
}

/// What the calls said, and what of it was never seen.
fn tell(seen: &BTreeMap<(&str, u32), Times>) -> Vec<String> {
    let mut missed = vec![];
    for (kind, numbers) in NUMBERS.into_iter().chain(KINDS) {
        let told = numbers.iter().map(|&k| match seen.get(&(kind, k)) {
            Some(times) if (3..=7).contains(&k) => {
                missed.extend((times.above == 0).then(|| format!("{kind} {k} with a culprit above 0")));
                missed.extend((times.several == 0 && kind != BY_VALUE).then(|| format!("{kind} {k} with several at fault")));
                format!("{k} {} times ({} with a culprit above 0, {} with several at fault)", times.given, times.above, times.several)
            }
            Some(times) => format!("{k} {} times", times.given),
            None => {
                missed.push(format!("{kind} {k}"));
                format!("{k} never")
            }
        });
        println!("{kind} said {}", told.collect::<Vec<_>>().join(", "));
    }
    missed
}

fn main() {
    let mut words = std::env::args().skip(1);
    let count: u64 = words.next().map_or(20_000, |w| w.parse().expect("a count"));
    let first: u64 = words.next().map_or(1, |w| w.parse().expect("a seed"));
    let (mut seen, mut seen_of_bases) = (BTreeMap::new(), bases::Seen::default());
    (first..first + count).for_each(|seed| compare_one(seed, &mut seen));
    (first..first + count).for_each(|seed| compare_base(seed, &mut seen_of_bases));
    let pairs = bases::every_two();
    let missed = [tell(&seen), bases::tell(&seen_of_bases)].concat();
    println!("check, of every two triangles over a lattice, said, and how often: {pairs:?}");
    if !missed.is_empty() {
        println!("compare: {count} calls and {count} bases from seed {first} agree, but were never answered: {}", missed.join(", "));
        std::process::exit(1);
    }
    let came = "every number was given, 3 to 7 with culprits above 0 and with several at fault, and every kind of question and of base came";
    println!("compare: {count} calls and {count} bases from seed {first} agree; {came}");
}
