//! The calls of the proved library on tables that the caller lends. Every call takes anything, ends, and is done or refuses: a [`Refusal`]
//! says what is wrong and where. A refusal changes no node, triangle, mark or count; scratch is all zero after every call. [`reader`] takes the
//! line program's text in pieces and makes these calls for it.
pub mod ffi;
mod node;
pub mod reader;
mod refusal;

pub use node::Node;
pub use refusal::Refusal;
use std::fmt;

/// What an accepted call says: the counts after it, the passes that it made, and whether it made a red cut.
#[derive(Clone, Copy, Debug, PartialEq, Eq)]
#[non_exhaustive]
pub struct Answer {
    pub n: usize,
    pub t: usize,
    /// How many passes restore made; 0 with the other calls.
    pub passes: usize,
    /// Whether refine_red made a red cut; false with the other calls.
    pub red: bool,
}

/// The words that C has for 0.
impl fmt::Display for Answer {
    fn fmt(&self, f: &mut fmt::Formatter) -> fmt::Result {
        f.write_str("done (0)")
    }
}

/// The correction at a point.
#[derive(Clone, Copy, Debug, Default, PartialEq, Eq, Hash)]
pub struct Correction {
    pub dx: i32,
    pub dy: i32,
}

/// The tables that a call works on, four numbers a node ([`Node::table`] makes one of nodes), three a row, and scratch of at least 4 (NC + TC)
/// numbers; and the counts.
pub struct Tables<'a> {
    pub nodes: &'a mut [i32],
    pub rows: &'a mut [u32],
    pub scratch: &'a mut [u32],
    pub n: usize,
    pub t: usize,
}

/// The tables as a question takes them: nodes ([`Node::numbers`]) and rows are only read.
pub struct View<'a> {
    pub nodes: &'a [i32],
    pub rows: &'a [u32],
    pub scratch: &'a mut [u32],
    pub n: usize,
    pub t: usize,
}

impl<'a> From<Tables<'a>> for View<'a> {
    fn from(g: Tables<'a>) -> View<'a> {
        View { nodes: g.nodes, rows: g.rows, scratch: g.scratch, n: g.n, t: g.t }
    }
}

// SAFETY, in every call below: the pointers and lengths are those of live, distinct slices and numbers, which is all that a call asks.

/// The base check: done for a lawful mesh with a compatible labelling in which no two nodes stand at one place, no node lies strictly inside an
/// edge and no two triangles share an interior point. It writes no table but scratch.
pub fn check(g: Tables) -> Result<Answer, Refusal> {
    let mut culprit = 0;
    let number = unsafe {
        ffi::spoutbeetle_check(g.nodes.as_mut_ptr(), g.nodes.len(), g.rows.as_mut_ptr(), g.rows.len(), g.scratch.as_mut_ptr(), g.scratch.len(), g.n, g.t, &mut culprit)
    };
    said(number, culprit, Answer { n: g.n, t: g.t, passes: 0, red: false })
}

/// Splits the marked rows, and what must be split with them. A new node carries the mean of the two ends' corrections, each part rounded down.
/// `marks` has one byte a row, 0 or 1; `n0` is the base's node count.
pub fn refine(g: Tables, n0: usize, marks: &[u8]) -> Result<Answer, Refusal> {
    marked(ffi::spoutbeetle_refine, g, n0, marks)
}

/// As `refine`, but all three edges of every marked row are split, so that it becomes four rows.
pub fn quarter(g: Tables, n0: usize, marks: &[u8]) -> Result<Answer, Refusal> {
    marked(ffi::spoutbeetle_quarter, g, n0, marks)
}

/// As `quarter`, but a row p q r with all three edges split is cut red: into four shaped like itself. With m, u and v on q-r, p-q and r-p it becomes
/// p u v, and u q m, v m r and m v u are appended. One or two split edges are cut as by the other two.
///
/// The answer's `red` is true exactly if at least one row is marked. If it is false, nodes, rows and counts are as before, and what is said of
/// [`restore`] goes on to hold; after a red cut, a restore may be done and end away from the base.
pub fn refine_red(g: Tables, n0: usize, marks: &[u8]) -> Result<Answer, Refusal> {
    let (mut n, mut t, mut red, mut culprit) = (g.n, g.t, 0, 0);
    let number = unsafe {
        ffi::spoutbeetle_refine_red(g.nodes.as_mut_ptr(), g.nodes.len(), g.rows.as_mut_ptr(), g.rows.len(), g.scratch.as_mut_ptr(), g.scratch.len(), marks.as_ptr(), marks.len(), n0, &mut n, &mut t, &mut red, &mut culprit)
    };
    said(number, culprit, Answer { n, t, passes: 0, red: red == 1 })
}

/// Takes the marked good nodes; the others keep what they carry. `marks` has one byte a node, 0 or 1; `n0` is the base's node count.
pub fn coarsen(g: Tables, n0: usize, marks: &[u8]) -> Result<Answer, Refusal> {
    marked(ffi::spoutbeetle_coarsen, g, n0, marks)
}

fn marked(call: ffi::Marked, g: Tables, n0: usize, marks: &[u8]) -> Result<Answer, Refusal> {
    let (mut n, mut t, mut culprit) = (g.n, g.t, 0);
    let number = unsafe {
        call(g.nodes.as_mut_ptr(), g.nodes.len(), g.rows.as_mut_ptr(), g.rows.len(), g.scratch.as_mut_ptr(), g.scratch.len(), marks.as_ptr(), marks.len(), n0, &mut n, &mut t, &mut culprit)
    };
    said(number, culprit, Answer { n, t, passes: 0, red: false })
}

/// Sets the correction of an added node. `n0` is the base's node count.
pub fn set_correction(g: Tables, n0: usize, node: usize, dx: i32, dy: i32) -> Result<Answer, Refusal> {
    let mut culprit = 0;
    let number = unsafe {
        ffi::spoutbeetle_set_correction(g.nodes.as_mut_ptr(), g.nodes.len(), g.rows.as_mut_ptr(), g.rows.len(), g.scratch.as_mut_ptr(), g.scratch.len(), n0, g.n, g.t, node, dx, dy, &mut culprit)
    };
    said(number, culprit, Answer { n: g.n, t: g.t, passes: 0, red: false })
}

/// A question about a point, which may be any: what is the correction there? The lowest row whose triangle holds it, sides and corners included,
/// answers the mean of what its three nodes carry, each weighted by the area that the point makes with the side opposite, and each part rounded
/// down from the exact fraction. Where no triangle holds the point it is refused with [`Refusal::Outside`]. `n0` is the base's node count.
///
/// After a restore that gives back a base, answers depend on the base and the point alone: spoutbeetle.h has it in full.
pub fn correction_at(g: View, n0: usize, x: i32, y: i32) -> Result<Correction, Refusal> {
    let (mut dx, mut dy, mut culprit) = (0, 0, 0);
    let number = unsafe {
        ffi::spoutbeetle_correction_at(g.nodes.as_ptr(), g.nodes.len(), g.rows.as_ptr(), g.rows.len(), g.scratch.as_mut_ptr(), g.scratch.len(), n0, g.n, g.t, x, y, &mut dx, &mut dy, &mut culprit)
    };
    said(number, culprit, Correction { dx, dy })
}

/// Coarsens while a good node exists. `n0` is the base's node count. It gives back a base that the check admitted, row for row with its
/// corrections, if since then all accepted calls had the base's node count and worked on what the accepted call before left, and none made a red cut:
/// spoutbeetle.h has it in full.
pub fn restore(g: Tables, n0: usize) -> Result<Answer, Refusal> {
    let (mut n, mut t, mut passes, mut culprit) = (g.n, g.t, 0, 0);
    let number = unsafe {
        ffi::spoutbeetle_restore(g.nodes.as_mut_ptr(), g.nodes.len(), g.rows.as_mut_ptr(), g.rows.len(), g.scratch.as_mut_ptr(), g.scratch.len(), n0, &mut n, &mut t, &mut passes, &mut culprit)
    };
    said(number, culprit, Answer { n, t, passes, red: false })
}

fn said<A>(number: u32, culprit: usize, answer: A) -> Result<A, Refusal> {
    Refusal::of(number, culprit).map_or(Ok(answer), Err)
}
