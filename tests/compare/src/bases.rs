//! Checks of random bases whose kind says beforehand which numbers they may draw, and of every two triangles over a small lattice, by the proved calls
//! and by the rival.
use crate::meshes::{shuffled, tables, Mesh};
use crate::{agreed, Call};
use rival::bases::{drawn, KINDS};
use rival::calls::base_faults;
use rival::random::{lend, Dice};
use std::collections::BTreeMap;

/// Two numbers that may apply to one base: "in the order 7, 11, 12, 10" the first is given.
const ORDER: [[u32; 2]; 6] = [[7, 11], [7, 12], [7, 10], [11, 12], [11, 10], [12, 10]];

/// How often a kind of base drew a number, and how often two numbers applied to one base.
#[derive(Default)]
pub struct Seen {
    drew: BTreeMap<(&'static str, u32), u64>,
    met: BTreeMap<[u32; 2], u64>,
}

/// One base. What is said must be what its kind allows; now and then a node is added that no row names, for which it must be 7.
pub fn compare_base(seed: u64, seen: &mut Seen) {
    let mut d = Dice::new(seed);
    let (kind, base) = drawn(&mut d);
    let (mut nodes, rows) = if d.once_in(2) { shuffled(&mut d, &base) } else { base };
    let loner = d.once_in(12);
    if loner {
        nodes.push((d.below(9) as i32, d.below(9) as i32));
    }
    let given = lend(&mut d, &nodes, &rows);
    let (said, _) = agreed(seed, &Call::Check, &given);
    let number = said.number;
    let known = if loner && number != 6 { number == 7 } else { kind.numbers.contains(&number) };
    assert!(known, "seed {seed}: {} said {said:?}: {given:?}", kind.name);
    if !loner {
        *seen.drew.entry((kind.name, number)).or_default() += 1;
    }
    let mut apply = if number == 6 { vec![] } else { base_faults(&given) };
    apply.extend((number == 7).then_some(7));
    for both in ORDER.into_iter().filter(|both| both.iter().all(|k| apply.contains(k))) {
        assert!(number != both[1], "seed {seed}: {} said {number}, and not {}: {given:?}", kind.name, both[0]);
        *seen.met.entry(both).or_default() += 1;
    }
}

/// The triangles over a lattice of 4 by 3 places, each once, by the places of its corners.
fn lattice() -> Vec<[(i32, i32); 3]> {
    let place = |k: i32| (k % 4, k / 4);
    let area = |[p, q, r]: [(i32, i32); 3]| (q.0 - p.0) * (r.1 - p.1) - (r.0 - p.0) * (q.1 - p.1);
    let from = |p: i32| (p + 1..12).flat_map(move |q| (p + 1..12).map(move |r| [p, q, r].map(place)));
    (0..12).flat_map(from).filter(|&corners| area(corners) > 0).collect()
}

/// Two triangles, with nodes of their own; and with one node for corners that stand at one place.
fn pair(one: [(i32, i32); 3], other: [(i32, i32); 3]) -> [Mesh; 2] {
    let corners = [one, other].concat();
    let mut places = corners.clone();
    places.sort();
    places.dedup();
    let row = |t: [(i32, i32); 3]| t.map(|p| places.binary_search(&p).expect("a corner") as u32);
    [(corners, vec![[0, 1, 2], [3, 4, 5]]), (places.clone(), vec![row(one), row(other)])]
}

/// Every two triangles over the lattice, both ways round. How often each number was given.
pub fn every_two() -> BTreeMap<u32, u64> {
    let mut given = BTreeMap::new();
    let triangles = lattice();
    for (one, other) in triangles.iter().flat_map(|one| triangles.iter().map(move |other| (one, other))) {
        for mesh in pair(*one, *other) {
            let (said, _) = agreed(0, &Call::Check, &tables(&mesh, 6, 2));
            *given.entry(said.number).or_default() += 1;
        }
    }
    given
}

/// What the checks said, and what of it was never seen.
pub fn tell(seen: &Seen) -> Vec<String> {
    let mut missed = vec![];
    for kind in KINDS {
        let told = kind.numbers.iter().map(|&k| {
            let times = seen.drew.get(&(kind.name, k)).copied().unwrap_or(0);
            missed.extend((times == 0).then(|| format!("{} {k}", kind.name)));
            format!("{k} {times} times")
        });
        println!("{} said {}", kind.name, told.collect::<Vec<_>>().join(", "));
    }
    for both in ORDER {
        let times = seen.met.get(&both).copied().unwrap_or(0);
        missed.extend((times == 0).then(|| format!("{} where {} applies too", both[0], both[1])));
        println!("check, where both {} and {} apply: {times} times", both[0], both[1]);
    }
    missed
}
