//! The proved calls, by their exported form and by the Rust wrapper, and the rival's behind one face, so that all can be driven alike. Those of
//! the reader are in `reader`.
pub mod bases;
pub mod check_times;
pub mod large_times;
pub mod meshes;
pub mod panel;
pub mod questions;
pub mod reader;
pub mod text_times;

use rival::calls::{self, Tables};
use spoutbeetle::{ffi, Refusal};

/// A call with what it is given besides the tables.
#[derive(Clone, Debug)]
pub enum Call {
    Check,
    Refine(usize, Vec<u8>),
    Quarter(usize, Vec<u8>),
    Red(usize, Vec<u8>),
    Coarsen(usize, Vec<u8>),
    Restore(usize),
    /// The base's node count, the node, and its correction.
    Set(usize, usize, [i32; 2]),
    /// The base's node count, and the point that is asked about.
    Ask(usize, [i32; 2]),
}

/// What a call says: its number, the counts after it, the passes it made, the correction it told, the field of a red refinement, and the node or row
/// at fault.
#[derive(Clone, Copy, Debug, PartialEq, Eq)]
pub struct Answer {
    pub number: u32,
    pub n: usize,
    pub t: usize,
    pub passes: usize,
    /// Told by a question; 0, 0 by the other calls.
    pub told: [i32; 2],
    /// 1 if a red cut was made, else 0; 0 by the other calls.
    pub red: u32,
    pub culprit: usize,
}

impl Call {
    pub fn name(&self) -> &'static str {
        match self {
            Call::Check => "check",
            Call::Refine(..) => "refine",
            Call::Quarter(..) => "quarter",
            Call::Red(..) => "refine_red",
            Call::Coarsen(..) => "coarsen",
            Call::Restore(..) => "restore",
            Call::Set(..) => "set_correction",
            Call::Ask(..) => "correction_at",
        }
    }
}

/// By the exported calls. What is only written, passes, the correction told, the red field and culprit, holds sevens before.
pub fn proved(call: &Call, g: &mut Tables) -> Answer {
    let (mut n, mut t, mut passes, mut told, mut red, mut culprit) = (g.n, g.t, 0, [0, 0], 0, 7777);
    let (nodes, nodes_len) = (g.nodes.as_mut_ptr(), g.nodes.len());
    let (rows, rows_len) = (g.rows.as_mut_ptr(), g.rows.len());
    let (scratch, scratch_len) = (g.scratch.as_mut_ptr(), g.scratch.len());
    // SAFETY: the pointers and lengths are those of live, distinct vectors and numbers.
    let number = unsafe {
        let mut marked = |call: ffi::Marked, n0: usize, marks: &[u8]| {
            call(nodes, nodes_len, rows, rows_len, scratch, scratch_len, marks.as_ptr(), marks.len(), n0, &mut n, &mut t, &mut culprit)
        };
        match call {
            Call::Refine(n0, marks) => marked(ffi::spoutbeetle_refine, *n0, marks),
            Call::Quarter(n0, marks) => marked(ffi::spoutbeetle_quarter, *n0, marks),
            Call::Coarsen(n0, marks) => marked(ffi::spoutbeetle_coarsen, *n0, marks),
            Call::Red(n0, marks) => {
                red = 7777;
                let (marks, marks_len) = (marks.as_ptr(), marks.len());
                ffi::spoutbeetle_refine_red(nodes, nodes_len, rows, rows_len, scratch, scratch_len, marks, marks_len, *n0, &mut n, &mut t, &mut red, &mut culprit)
            }
            Call::Check => ffi::spoutbeetle_check(nodes, nodes_len, rows, rows_len, scratch, scratch_len, n, t, &mut culprit),
            Call::Restore(n0) => {
                passes = 7777;
                ffi::spoutbeetle_restore(nodes, nodes_len, rows, rows_len, scratch, scratch_len, *n0, &mut n, &mut t, &mut passes, &mut culprit)
            }
            Call::Set(n0, node, [dx, dy]) => {
                ffi::spoutbeetle_set_correction(nodes, nodes_len, rows, rows_len, scratch, scratch_len, *n0, n, t, *node, *dx, *dy, &mut culprit)
            }
            Call::Ask(n0, [x, y]) => {
                told = [7777, 7777];
                let [dx, dy] = &mut told;
                ffi::spoutbeetle_correction_at(nodes, nodes_len, rows, rows_len, scratch, scratch_len, *n0, n, t, *x, *y, dx, dy, &mut culprit)
            }
        }
    };
    (g.n, g.t) = (n, t);
    Answer { number, n, t, passes, told, red, culprit }
}

/// By the Rust wrapper, whose refusal leaves the counts to the caller.
pub fn wrapped(call: &Call, g: &mut Tables) -> Answer {
    let (n, t) = (g.n, g.t);
    let lent = spoutbeetle::Tables { nodes: &mut g.nodes, rows: &mut g.rows, scratch: &mut g.scratch, n, t };
    let counted = |a: spoutbeetle::Answer| Answer { number: 0, n: a.n, t: a.t, passes: a.passes, told: [0, 0], red: a.red as u32, culprit: 0 };
    let said = match call {
        Call::Check => spoutbeetle::check(lent).map(counted),
        Call::Refine(n0, marks) => spoutbeetle::refine(lent, *n0, marks).map(counted),
        Call::Quarter(n0, marks) => spoutbeetle::quarter(lent, *n0, marks).map(counted),
        Call::Red(n0, marks) => spoutbeetle::refine_red(lent, *n0, marks).map(counted),
        Call::Coarsen(n0, marks) => spoutbeetle::coarsen(lent, *n0, marks).map(counted),
        Call::Restore(n0) => spoutbeetle::restore(lent, *n0).map(counted),
        Call::Set(n0, node, [dx, dy]) => spoutbeetle::set_correction(lent, *n0, *node, *dx, *dy).map(counted),
        Call::Ask(n0, [x, y]) => {
            let told = |c: spoutbeetle::Correction| Answer { number: 0, n, t, passes: 0, told: [c.dx, c.dy], red: 0, culprit: 0 };
            spoutbeetle::correction_at(lent.into(), *n0, *x, *y).map(told)
        }
    };
    let refused = |r: Refusal| Answer { number: r.number(), n, t, passes: 0, told: [0, 0], red: 0, culprit: r.node().or(r.triangle()).unwrap_or(0) };
    let a = said.unwrap_or_else(refused);
    (g.n, g.t) = (a.n, a.t);
    a
}

pub fn rival(call: &Call, g: &mut Tables) -> Answer {
    let counted = match call {
        Call::Check => calls::check(g),
        Call::Refine(n0, marks) => calls::refine(g, *n0, marks),
        Call::Quarter(n0, marks) => calls::quarter(g, *n0, marks),
        Call::Red(n0, marks) => calls::refine_red(g, *n0, marks),
        Call::Coarsen(n0, marks) => calls::coarsen(g, *n0, marks),
        Call::Restore(n0) => calls::restore(g, *n0),
        Call::Set(n0, node, [dx, dy]) => calls::set_correction(g, *n0, *node, *dx, *dy),
        Call::Ask(n0, point) => {
            let a = calls::correction_at(g, *n0, *point);
            return Answer { number: a.number, n: g.n, t: g.t, passes: 0, told: [a.dx, a.dy], red: 0, culprit: a.culprit };
        }
    };
    Answer { number: counted.number, n: counted.n, t: counted.t, passes: counted.passes, told: [0, 0], red: counted.red, culprit: counted.culprit }
}

/// What the call says, and the tables that it leaves.
pub fn made(call: &Call, given: &Tables, by: fn(&Call, &mut Tables) -> Answer) -> (Answer, Tables) {
    let mut left = given.clone();
    (by(call, &mut left), left)
}

fn differ(call: &Call, given: &Tables) -> bool {
    let theirs = made(call, given, rival);
    made(call, given, proved) != theirs || made(call, given, wrapped) != theirs
}

/// Rows taken away one by one as long as the two still differ.
fn smaller(call: &Call, given: &Tables) -> Tables {
    let mut least = given.clone();
    let mut i = 0;
    while i < least.t.min(least.rows.len() / 3) {
        let mut fewer = least.clone();
        fewer.rows.drain(3 * i..3 * i + 3);
        fewer.t -= 1;
        if !matches!(call, Call::Refine(..) | Call::Quarter(..) | Call::Red(..)) && differ(call, &fewer) {
            least = fewer;
        } else {
            i += 1;
        }
    }
    least
}

/// What all three say and leave, every table entry compared. Where they differ, the tables are made smaller and shown, and the run fails. It
/// fails too where a question changes a node or a row, or leaves scratch that is not zero.
pub fn agreed(seed: u64, call: &Call, given: &Tables) -> (Answer, Tables) {
    if differ(call, given) {
        let least = smaller(call, given);
        let [ours, wrapper, theirs] = [proved, wrapped, rival].map(|by| made(call, &least, by).0);
        println!("seed {seed}: they differ on {call:?}\nexported {ours:?}\nwrapper {wrapper:?}\nrival {theirs:?}\nsmallest tables found {least:?}");
        std::process::exit(1);
    }
    let (said, left) = made(call, given, rival);
    if matches!(call, Call::Ask(..)) {
        let only_read = left.nodes == given.nodes && left.rows == given.rows;
        assert!(only_read && left.scratch.iter().all(|&s| s == 0), "seed {seed}: {call:?} left {left:?} of {given:?}");
    }
    (said, left)
}
