//! A square in two halves, with corrections at its corners: where a fine rule is printed, its first row is cut in four, the correction of an added
//! node is set, and the row is refined once more; then the square is restored, corrections and all. The correction at a point is asked before the
//! job, in it and after it. Then, for a round stamp, the row is cut red, which a restore does not undo. Settings of a base node and out of range, a
//! question about a point outside, a square with a row too many, and one with a crack, are refused, in words.
use spoutbeetle::{check, correction_at, quarter, refine, refine_red, restore, set_correction, Answer, Correction, Node, Refusal, Tables, View};

const NC: usize = 16;
const TC: usize = 32;

/// A mesh with its tables.
struct Sheet {
    nodes: [Node; NC],
    rows: [u32; 3 * TC],
    scratch: [u32; 4 * (NC + TC)],
    n: usize,
    t: usize,
}

impl Sheet {
    fn square() -> Sheet {
        let mut sheet = Sheet { nodes: [Node::default(); NC], rows: [0; 3 * TC], scratch: [0; 4 * (NC + TC)], n: 4, t: 2 };
        let corners = [Node::at(0, 0).carrying(-3, 7), Node::at(8, 0).carrying(4, 0), Node::at(8, 8).carrying(0, -2), Node::at(0, 8).carrying(1, 1)];
        sheet.nodes[..4].copy_from_slice(&corners);
        sheet.rows[..6].copy_from_slice(&[1, 2, 0, 3, 0, 2]);
        sheet
    }

    /// Makes a call on the tables, and keeps the counts that it leaves.
    fn call(&mut self, made: impl FnOnce(Tables) -> Result<Answer, Refusal>) -> Result<Answer, Refusal> {
        let nodes = Node::table(&mut self.nodes);
        let a = made(Tables { nodes, rows: &mut self.rows, scratch: &mut self.scratch, n: self.n, t: self.t })?;
        (self.n, self.t) = (a.n, a.t);
        Ok(a)
    }

    /// Prints the correction at a point, or why there is none.
    fn ask(&mut self, x: i32, y: i32) {
        let nodes = Node::numbers(&self.nodes);
        let g = View { nodes, rows: &self.rows, scratch: &mut self.scratch, n: self.n, t: self.t };
        match correction_at(g, 4, x, y) {
            Ok(Correction { dx, dy }) => println!("at ({x}, {y}): correction ({dx}, {dy})"),
            Err(refusal) => println!("at ({x}, {y}): {refusal}"),
        }
    }

    fn show(&self, k: usize) {
        let Node { x, y, dx, dy } = self.nodes[k];
        println!("node {k}: place ({x}, {y}), correction ({dx}, {dy})");
    }
}

/// A call that is done leaves these counts.
fn done(call: &str, a: Answer) {
    println!("{call}: {} nodes, {} triangles", a.n, a.t);
}

/// Prints why a call is refused.
fn refused(call: &str, said: Result<Answer, Refusal>) {
    println!("{call}: {}", said.expect_err("a refusal"));
}

/// A job: what it refines and sets.
fn print_fine_rule(sheet: &mut Sheet) -> Result<(), Refusal> {
    done("quarter", sheet.call(|g| quarter(g, 4, &[1, 0]))?);
    sheet.show(4); // the mean of nodes 0 and 2: -3 and 0 give -2
    done("set node 4", sheet.call(|g| set_correction(g, 4, 4, 9, -9))?);
    sheet.show(4);
    sheet.ask(2, 1); // in the triangle of nodes 6, 4 and 0
    sheet.ask(9, 1);
    refused("set node 3", sheet.call(|g| set_correction(g, 4, 3, 9, -9)));
    refused("set node 7", sheet.call(|g| set_correction(g, 4, 7, 9, -9)));
    refused("set node 4 to 32,768", sheet.call(|g| set_correction(g, 4, 4, 32_768, -9)));
    done("refine", sheet.call(|g| refine(g, 4, &[1, 0, 0, 0, 0, 0]))?);
    sheet.show(7); // the mean of node 1 and node 4 as set
    Ok(())
}

/// Prints the counts that a red refinement leaves, and its field.
fn cut_red(call: &str, a: Answer) {
    done(call, a);
    println!("it made {}", if a.red { "a red cut" } else { "no red cut" });
}

/// Another job: after its red cut, restore ends away from the base.
fn print_round_stamp(sheet: &mut Sheet) -> Result<(), Refusal> {
    cut_red("refine_red, no row marked", sheet.call(|g| refine_red(g, 4, &[0, 0]))?);
    cut_red("refine_red", sheet.call(|g| refine_red(g, 4, &[1, 0]))?);
    let a = sheet.call(|g| restore(g, 4))?;
    done("restore", a);
    println!("{} passes, and the red cut stays", a.passes);
    Ok(())
}

fn main() -> Result<(), Refusal> {
    let mut sheet = Sheet::square();
    done("check", sheet.call(check)?);
    sheet.ask(2, 1); // -14/8 and 40/8
    print_fine_rule(&mut sheet)?;
    let a = sheet.call(|g| restore(g, 4))?;
    done("restore", a);
    let base = Sheet::square();
    assert!(sheet.nodes == base.nodes && sheet.rows == base.rows, "the base is back");
    println!("{} passes, and the base is back, with its corrections:", a.passes);
    (0..sheet.n).for_each(|k| sheet.show(k));
    sheet.ask(2, 1); // as before the job
    print_round_stamp(&mut sheet)?;

    sheet = base;
    sheet.rows.copy_within(0..3, 6);
    sheet.t = 3;
    refused("check, row 0 once more", sheet.call(check));

    sheet.nodes[4] = Node::at(4, 4); // on the edge 0-2, and a corner above it alone
    sheet.rows[..9].copy_from_slice(&[1, 2, 0, 4, 3, 0, 4, 2, 3]);
    sheet.n = 5;
    refused("check, a middle node on one side of an edge", sheet.call(check));
    Ok(())
}
