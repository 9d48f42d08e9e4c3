//! The kinds of questions about points, told from the rows that hold the point.
use rival::calls::{holders, Holder, Tables};

/// The exact value is no whole number; it is such a one below 0.
const FRACTION: &str = "correction_at, of a fraction,";
const NEGATIVE: &str = "correction_at, of a negative fraction,";

/// The point is a node of the row that answers; it is strictly inside a side that another row has too; it is inside two rows that would answer
/// each another correction.
const AT_NODE: &str = "correction_at, at a node,";
const SHARED: &str = "correction_at, on a shared side,";
const OVER: &str = "correction_at, where rows lie over each other,";

/// No row holds the point, but one holds a point beside it.
const BESIDE: &str = "correction_at, a step outside,";

/// Each kind, and the number that answers it.
pub const KINDS: [(&str, &[u32]); 6] = [(FRACTION, &[0]), (NEGATIVE, &[0]), (AT_NODE, &[0]), (SHARED, &[0]), (OVER, &[0]), (BESIDE, &[14])];

/// The kinds of a question about this point that was answered with this number.
pub fn kinds(given: &Tables, point: [i32; 2], number: u32) -> Vec<&'static str> {
    match number {
        0 => answered(given, &holders(given, point)),
        14 if a_step_outside(given, point) => vec![BESIDE],
        _ => vec![],
    }
}

/// Those of a point that these rows hold.
fn answered(g: &Tables, held_by: &[Holder]) -> Vec<&'static str> {
    let (lowest, others) = held_by.split_first().expect("a row holds the point");
    let area: i128 = lowest.areas.iter().sum();
    let inside = |row: &Holder| !row.areas.contains(&0);
    let on_side = side(g, lowest);
    let kinds = [
        (FRACTION, lowest.sums.iter().any(|sum| sum % area != 0)),
        (NEGATIVE, lowest.sums.iter().any(|sum| sum % area < 0)),
        (AT_NODE, lowest.areas.contains(&area)),
        (SHARED, on_side.is_some() && others.iter().any(|row| side(g, row) == on_side)),
        (OVER, inside(lowest) && others.iter().any(|row| inside(row) && row.told() != lowest.told())),
    ];
    kinds.into_iter().filter(|kind| kind.1).map(|kind| kind.0).collect()
}

/// The side of the row that has the point strictly inside, if one has: its two nodes, the lower first.
fn side(g: &Tables, holder: &Holder) -> Option<[u32; 2]> {
    let opposite: Vec<usize> = (0..3).filter(|&k| holder.areas[k] == 0).collect();
    let [k] = opposite[..] else { return None };
    let mut ends = [k + 1, k + 2].map(|end| g.rows[3 * holder.row + end % 3]);
    ends.sort();
    Some(ends)
}

fn a_step_outside(g: &Tables, [x, y]: [i32; 2]) -> bool {
    [(1, 0), (-1, 0), (0, 1), (0, -1)].iter().any(|step| !holders(g, [x.saturating_add(step.0), y.saturating_add(step.1)]).is_empty())
}
