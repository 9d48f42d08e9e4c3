//! Document 01's hand meshes, those of requests W1 and W5 to W8, and every refusal with its culprit, run through the proved library, by its exported
//! calls and by the wrapper, and through the rival. Usage: hand.
//! Entries past the counts and scratch hold sevens before each call: after 0 they are zero, after a refusal, a check or a question the tables are
//! as they were.
use compare::{proved, rival as other, wrapped, Answer, Call};
use rival::calls::Tables;
use rival::random::grid;

/// Places of nodes, which carry no correction, and rows.
type Mesh = (&'static [(i32, i32)], &'static [[u32; 3]]);

/// Nodes, x y dx dy each, and rows.
type Carrying = (&'static [[i32; 4]], &'static [[u32; 3]]);

const S: Mesh = (&[(0, 0), (8, 0), (8, 8), (0, 8)], &[[1, 2, 0], [3, 0, 2]]);
const R: Mesh = (&[(0, 0), (16, 0), (0, 16), (4, 4)], &[[0, 1, 3], [1, 2, 3], [2, 0, 3]]);
const SMALL: Mesh = (&[(0, 0), (1, 0), (0, 1)], &[[0, 1, 2]]);
const EMPTY: Mesh = (&[], &[]);

const CASE_2: Mesh = (&[(0, 0), (8, 0), (8, 8), (0, 8), (4, 4)], &[[4, 1, 2], [4, 3, 0], [4, 0, 1], [4, 2, 3]]);
const CASE_3: Mesh = (
    &[(0, 0), (8, 0), (8, 8), (0, 8), (4, 4), (8, 4)],
    &[[5, 4, 1], [4, 3, 0], [4, 0, 1], [4, 2, 3], [5, 2, 4]],
);
const CASE_4: Mesh = (
    &[(0, 0), (8, 0), (8, 8), (0, 8), (4, 4), (8, 4), (6, 2), (4, 0)],
    &[[6, 5, 4], [4, 3, 0], [7, 4, 0], [4, 2, 3], [5, 2, 4], [6, 1, 5], [6, 7, 1], [6, 4, 7]],
);
/// Case 5's first pass takes node 6; node 7 is then called 6.
const CASE_5_PASS_1: Mesh = (
    &[(0, 0), (8, 0), (8, 8), (0, 8), (4, 4), (8, 4), (4, 0)],
    &[[5, 4, 1], [4, 3, 0], [6, 4, 0], [4, 2, 3], [5, 2, 4], [6, 1, 4]],
);
const CASE_8: Mesh = (
    &[(0, 0), (16, 0), (0, 16), (4, 4), (10, 2), (2, 2), (2, 10)],
    &[[4, 0, 1], [6, 1, 2], [5, 2, 0], [5, 4, 3], [5, 0, 4], [4, 6, 3], [4, 1, 6], [6, 5, 3], [6, 2, 5]],
);
const ENDS: Mesh = (&[(-3, 0), (1, 0), (-1, 4)], &[[2, 0, 1]]);
const ENDS_CUT: Mesh = (&[(-3, 0), (1, 0), (-1, 4), (-1, 0)], &[[3, 2, 0], [3, 1, 2]]);

/// S, row 0 cut in four.
const QUARTERED: Mesh = (
    &[(0, 0), (8, 0), (8, 8), (0, 8), (4, 4), (8, 4), (4, 0)],
    &[[5, 4, 1], [4, 3, 0], [6, 4, 0], [5, 2, 4], [6, 1, 4], [4, 2, 3]],
);
/// S, both rows cut in four.
const BOTH_QUARTERED: Mesh = (
    &[(0, 0), (8, 0), (8, 8), (0, 8), (4, 4), (8, 4), (4, 0), (0, 4), (4, 8)],
    &[[5, 4, 1], [7, 4, 3], [6, 4, 0], [5, 2, 4], [6, 1, 4], [8, 4, 2], [7, 0, 4], [8, 3, 4]],
);
/// Case 2, rows 0 and 2 cut in four: they share the side 1-4.
const SIDE_SHARED: Mesh = (
    &[(0, 0), (8, 0), (8, 8), (0, 8), (4, 4), (8, 4), (6, 2), (6, 6), (0, 4), (2, 2), (4, 0), (4, 8)],
    &[
        [6, 5, 4], [8, 4, 3], [9, 10, 4], [7, 11, 4], [7, 5, 2], [6, 1, 5], [7, 4, 5], [9, 8, 0], [9, 4, 8], [6, 10, 1], [9, 0, 10],
        [6, 4, 10], [11, 3, 4], [7, 2, 11],
    ],
);
/// A strip; the refinement edges of rows 5, 4 and 3 are each a side of the next lower row.
const CHAIN: Mesh = (
    &[(0, 0), (8, 0), (16, 0), (24, 0), (32, 0), (0, 8), (8, 8), (16, 8), (24, 8)],
    &[[8, 3, 4], [8, 7, 3], [2, 3, 7], [6, 2, 7], [1, 2, 6], [5, 1, 6], [5, 0, 1]],
);
/// Its last row cut in four, which draws in all but row 0; and refined, which draws in none.
const CHAIN_QUARTERED: Mesh = (
    &[
        (0, 0), (8, 0), (16, 0), (24, 0), (32, 0), (0, 8), (8, 8), (16, 8), (24, 8), (20, 4), (16, 4), (12, 4), (8, 4), (4, 4), (4, 0),
        (0, 4),
    ],
    &[
        [8, 3, 4], [9, 8, 7], [9, 2, 3], [11, 10, 6], [11, 1, 2], [13, 12, 5], [15, 14, 5], [9, 3, 8], [10, 9, 7], [10, 2, 9], [10, 7, 6],
        [11, 2, 10], [12, 11, 6], [12, 1, 11], [12, 6, 5], [13, 1, 12], [13, 14, 1], [15, 0, 14], [13, 5, 14],
    ],
);
const CHAIN_REFINED: Mesh = (
    &[(0, 0), (8, 0), (16, 0), (24, 0), (32, 0), (0, 8), (8, 8), (16, 8), (24, 8), (4, 0)],
    &[[8, 3, 4], [8, 7, 3], [2, 3, 7], [6, 2, 7], [1, 2, 6], [5, 1, 6], [9, 5, 0], [9, 1, 5]],
);
/// S, row 0 cut in four, then row 0 refined; then row 4 cut in four.
const QUARTERED_REFINED: Mesh = (
    &[(0, 0), (8, 0), (8, 8), (0, 8), (4, 4), (8, 4), (4, 0), (6, 2)],
    &[[7, 5, 4], [4, 3, 0], [6, 4, 0], [5, 2, 4], [7, 6, 1], [4, 2, 3], [7, 1, 5], [7, 4, 6]],
);
const MIXED: Mesh = (
    &[(0, 0), (8, 0), (8, 8), (0, 8), (4, 4), (8, 4), (4, 0), (6, 2), (0, 4), (2, 2), (4, 2), (6, 0), (5, 1), (7, 1), (8, 2)],
    &[
        [7, 5, 4], [8, 4, 3], [10, 9, 6], [5, 2, 4], [12, 11, 7], [4, 2, 3], [13, 14, 7], [10, 7, 4], [9, 8, 0], [9, 4, 8], [9, 0, 6],
        [10, 4, 9], [13, 11, 1], [12, 6, 11], [13, 7, 11], [14, 5, 7], [13, 1, 14], [12, 10, 6], [12, 7, 10],
    ],
);
/// R, row 0 cut in four: all rows round the inner node are drawn in.
const ROUND_QUARTERED: Mesh = (
    &[(0, 0), (16, 0), (0, 16), (4, 4), (10, 2), (8, 0), (2, 2), (2, 10)],
    &[[5, 4, 0], [7, 1, 2], [6, 2, 0], [6, 4, 3], [5, 1, 4], [6, 0, 4], [4, 7, 3], [4, 1, 7], [7, 6, 3], [7, 2, 6]],
);
/// Row 0's sides are the refinement edges of its neighbours.
const WINGED: Mesh = (&[(0, 0), (16, 0), (0, 16), (8, -8), (-8, 8)], &[[0, 1, 2], [3, 1, 0], [4, 0, 2]]);
/// Its row 0 cut in four.
const CUT_ALL: Mesh = (
    &[(0, 0), (16, 0), (0, 16), (8, -8), (-8, 8), (8, 8), (8, 0), (0, 8)],
    &[[6, 5, 0], [6, 3, 1], [7, 4, 0], [7, 5, 2], [6, 1, 5], [7, 0, 5], [6, 0, 3], [7, 2, 4]],
);
/// Its row 1 cut in four; rows 0 and 1.
const WING_QUARTERED: Mesh = (
    &[(0, 0), (16, 0), (0, 16), (8, -8), (-8, 8), (8, 8), (8, 0), (12, -4), (4, -4)],
    &[[6, 5, 0], [7, 6, 3], [4, 0, 2], [5, 2, 0], [6, 1, 5], [8, 6, 0], [7, 1, 6], [8, 3, 6]],
);
const WINGS_QUARTERED: Mesh = (
    &[(0, 0), (16, 0), (0, 16), (8, -8), (-8, 8), (8, 8), (8, 0), (0, 8), (12, -4), (4, -4)],
    &[[6, 5, 0], [8, 6, 3], [7, 4, 0], [7, 5, 2], [6, 1, 5], [7, 0, 5], [9, 6, 0], [8, 1, 6], [9, 3, 6], [7, 2, 4]],
);
/// Case 12's triangle, cut in four.
const ENDS_QUARTERED: Mesh = (
    &[(-3, 0), (1, 0), (-1, 4), (-1, 0), (-2, 2), (0, 2)],
    &[[4, 3, 2], [5, 3, 1], [4, 0, 3], [5, 2, 3]],
);
/// S, row 0 cut red: m, u and v are 4, 5 and 6, and row 1 is cut in two. Then its row 0 refined, which halves the middle child too.
const RED: Mesh = (QUARTERED.0, &[[1, 5, 6], [4, 3, 0], [5, 2, 4], [6, 4, 0], [4, 6, 5], [4, 2, 3]]);
const RED_REFINED: Mesh = (QUARTERED_REFINED.0, &[[7, 1, 5], [4, 3, 0], [5, 2, 4], [6, 4, 0], [7, 4, 6], [4, 2, 3], [7, 6, 1], [7, 5, 4]]);
/// S, both rows cut red.
const BOTH_RED: Mesh = (
    BOTH_QUARTERED.0,
    &[[1, 5, 6], [3, 7, 8], [5, 2, 4], [6, 4, 0], [4, 6, 5], [7, 0, 4], [8, 4, 2], [4, 8, 7]],
);
/// Case 12's triangle, cut red.
const ENDS_RED: Mesh = (ENDS_QUARTERED.0, &[[2, 4, 5], [4, 0, 3], [5, 3, 1], [3, 5, 4]]);
/// The winged row cut red, its neighbours in two; one neighbour cut red, the winged row in three; and both neighbours, the winged row with them.
const WINGED_RED: Mesh = (CUT_ALL.0, &[[0, 6, 7], [6, 3, 1], [7, 4, 0], [6, 1, 5], [7, 5, 2], [5, 7, 6], [6, 0, 3], [7, 2, 4]]);
const WING_RED: Mesh = (WING_QUARTERED.0, &[[6, 5, 0], [3, 7, 8], [4, 0, 2], [5, 2, 0], [6, 1, 5], [7, 1, 6], [8, 6, 0], [6, 8, 7]]);
const WINGS_RED: Mesh = (
    &[(0, 0), (16, 0), (0, 16), (8, -8), (-8, 8), (8, 8), (8, 0), (0, 8), (12, -4), (4, -4), (-4, 4), (-4, 12)],
    &[
        [0, 6, 7], [3, 8, 9], [4, 10, 11], [6, 1, 5], [7, 5, 2], [5, 7, 6], [8, 1, 6], [9, 6, 0], [6, 9, 8], [10, 0, 7], [11, 7, 2], [7, 11, 10],
    ],
);
/// The strip's last row cut red: the others that are drawn in have one or two split edges.
const CHAIN_RED: Mesh = (
    CHAIN_QUARTERED.0,
    &[
        [8, 3, 4], [9, 8, 7], [9, 2, 3], [11, 10, 6], [11, 1, 2], [13, 12, 5], [5, 15, 13], [9, 3, 8], [10, 9, 7], [10, 2, 9], [10, 7, 6],
        [11, 2, 10], [12, 11, 6], [12, 1, 11], [12, 6, 5], [13, 1, 12], [15, 0, 14], [13, 14, 1], [14, 13, 15],
    ],
);
/// The refinement edge has even sums, the sides have not.
const ODD_SIDES: Mesh = (&[(1, 1), (4, 0), (0, 4)], &[[0, 1, 2]]);
const ODD_SIDES_REFINED: Mesh = (&[(1, 1), (4, 0), (0, 4), (2, 2)], &[[3, 0, 1], [3, 2, 0]]);
/// Rows 1 and 2 name a node that is not there, and one node twice.
const MISNAMED: Mesh = (S.0, &[[1, 2, 0], [3, 0, 4], [2, 2, 0]]);
/// Row 1 repeats an edge of row 0; row 1 is turned; node 4 is in no row.
const REPEATED: Mesh = (S.0, &[[1, 2, 0], [2, 0, 3]]);
const TURNED: Mesh = (S.0, &[[1, 2, 0], [0, 2, 1]]);
const LONER: Mesh = (&[(0, 0), (8, 0), (8, 8), (0, 8), (9, 9)], S.1);
/// Row 0's edges have even sums, the refinement edge that its side draws in has not.
const ODD_NEIGHBOUR: Mesh = (&[(0, 4), (8, 4), (0, 12), (3, 0)], &[[0, 1, 2], [1, 0, 3]]);

/// S; nodes 1 and 3 carry the ends of the range.
const C: Carrying = (&[[0, 0, -3, 7], [8, 0, 32767, -32768], [8, 8, 0, -2], [0, 8, -32768, 32767]], S.1);
/// C, row 0 refined: node 4 halves 0-2. Then once more: node 5 halves 1-2.
const C_ONCE: Carrying = (&[C.0[0], C.0[1], C.0[2], C.0[3], [4, 4, -2, 2]], CASE_2.1);
const C_TWICE: Carrying = (&[C.0[0], C.0[1], C.0[2], C.0[3], [4, 4, -2, 2], [8, 4, 16383, -16385]], CASE_3.1);
/// Node 4 set; node 5 set to the ends of the range; node 0 set, with no base node.
const SET_4: Carrying = (&[C.0[0], C.0[1], C.0[2], C.0[3], [4, 4, 9, -9], [8, 4, 16383, -16385]], CASE_3.1);
const SET_5: Carrying = (&[C.0[0], C.0[1], C.0[2], C.0[3], [4, 4, -2, 2], [8, 4, 32767, -32768]], CASE_3.1);
const SET_0: Carrying = (&[[0, 0, 5, -6], C.0[1], C.0[2], C.0[3], [4, 4, -2, 2], [8, 4, 16383, -16385]], CASE_3.1);
/// Row 0 refined again: node 6 halves 1-4, as 4 was set, and node 7 halves 0-1.
const C_THRICE: Carrying = (
    &[C.0[0], C.0[1], C.0[2], C.0[3], [4, 4, 9, -9], [8, 4, 16383, -16385], [6, 2, 16388, -16389], [4, 0, 16382, -16381]],
    CASE_4.1,
);
/// Node 6 goes; 7 is then called 6 and carries what it did.
const C_WITHOUT_6: Carrying = (
    &[C.0[0], C.0[1], C.0[2], C.0[3], [4, 4, 9, -9], [8, 4, 16383, -16385], [4, 0, 16382, -16381]],
    CASE_5_PASS_1.1,
);
/// C, row 0 cut in four.
const C_QUARTERED: Carrying = (
    &[C.0[0], C.0[1], C.0[2], C.0[3], [4, 4, -2, 2], [8, 4, 16383, -16385], [4, 0, 16382, -16381]],
    QUARTERED.1,
);
/// C, row 0 cut red.
const C_RED: Carrying = (C_QUARTERED.0, RED.1);
/// Node 4 carries the mean of 0 and 2, but does not stand between them.
const BESIDE: Carrying = (&[C.0[0], C.0[1], C.0[2], C.0[3], [4, 5, -2, 2]], CASE_2.1);
/// Node 1 is out of range by its correction, node 2 by its place, node 3 by both.
const ASTRAY: Carrying = (&[[0, 0, 0, 0], [8, 0, 0, 32768], [1048577, 8, 0, 0], [0, 1048577, -32769, 0]], S.1);

/// S with corrections. At (x, y) row 0 tells dx (4 (x - y) - 3 (8 - x)) / 8 and dy (7 (8 - x) - 2 y) / 8, and row 1, where y is above x, dx
/// (y - x - 3 (8 - y)) / 8 and dy (y - x + 7 (8 - y) - 2 x) / 8, both rounded down.
const Q: Carrying = (&[[0, 0, -3, 7], [8, 0, 4, 0], [8, 8, 0, -2], [0, 8, 1, 1]], S.1);
/// Q, row 0 refined; and then node 4 set.
const Q_ONCE: Carrying = (&[Q.0[0], Q.0[1], Q.0[2], Q.0[3], [4, 4, -2, 2]], CASE_2.1);
const Q_SET: Carrying = (&[Q.0[0], Q.0[1], Q.0[2], Q.0[3], [4, 4, 9, -9]], CASE_2.1);
/// One triangle.
const HALF: Carrying = (&[[0, 0, -3, 7], [8, 0, 4, 0], [0, 8, 1, 1]], SMALL.1);
/// How far out a place may be.
const FAR: i32 = 1048576;
/// The largest square, whose corners carry either end of the range by turns; all of them one end; and a sliver along its diagonal.
const BIG: Carrying = (&[[-FAR, -FAR, 32767, -32768], [FAR, -FAR, -32768, 32767], [FAR, FAR, 32767, -32768], [-FAR, FAR, -32768, 32767]], S.1);
const EVEN: Carrying = (&[BIG.0[0], [FAR, -FAR, 32767, -32768], BIG.0[2], [-FAR, FAR, 32767, -32768]], S.1);
const SLIVER: Carrying = (&[[-FAR, -FAR, -3, 4], [FAR, FAR, 0, -1], [FAR - 1, FAR, 100, 100]], SMALL.1);
/// Two triangles at one place; the same, the other row lower; one over the other's corner; and one with its first node in the other.
const ALIKE: Carrying = (&[[0, 0, 1, 2], [8, 0, 1, 2], [0, 8, 1, 2], [0, 0, -9, 9], [8, 0, -9, 9], [0, 8, -9, 9]], &[[0, 1, 2], [3, 4, 5]]);
const OTHER_LOWER: Carrying = (ALIKE.0, &[[3, 4, 5], [0, 1, 2]]);
const LARGER: Carrying = (&[ALIKE.0[0], ALIKE.0[1], ALIKE.0[2], [0, 0, -9, 9], [16, 0, -9, 9], [0, 16, -9, 9]], ALIKE.1);
const INSIDE: Carrying = (&[ALIKE.0[0], ALIKE.0[1], ALIKE.0[2], [2, 2, -9, 9], [12, 2, -9, 9], [2, 12, -9, 9]], ALIKE.1);

/// The supplier's mesh: a square whose half is cut at the middle node, and the other half is not. Then its row 0 refined, cut in four, and cut red.
const CRACKED: Mesh = (CASE_2.0, &[[1, 2, 0], [4, 3, 0], [4, 2, 3]]);
const CRACKED_REFINED: Mesh = (&[(0, 0), (8, 0), (8, 8), (0, 8), (4, 4), (4, 4)], &[[5, 1, 2], [4, 3, 0], [4, 2, 3], [5, 0, 1]]);
const CRACKED_QUARTERED: Mesh = (
    &[(0, 0), (8, 0), (8, 8), (0, 8), (4, 4), (4, 4), (8, 4), (4, 0)],
    &[[6, 5, 1], [4, 3, 0], [4, 2, 3], [7, 5, 0], [6, 2, 5], [7, 1, 5]],
);
const CRACKED_RED: Mesh = (CRACKED_QUARTERED.0, &[[1, 6, 7], [4, 3, 0], [4, 2, 3], [6, 2, 5], [7, 5, 0], [5, 7, 6]]);
/// It carries what Q does, and (9, -9) in the middle; and then another value there.
const CRACKED_CARRYING: Carrying = (&[Q.0[0], Q.0[1], Q.0[2], Q.0[3], [4, 4, 9, -9]], CRACKED.1);
const CRACKED_SET: Carrying = (&[Q.0[0], Q.0[1], Q.0[2], Q.0[3], [4, 4, 5, -6]], CRACKED.1);
/// A triangle that touches the square at a corner, with a node of its own there; and the same, row 1 turned.
const DOUBLED: Mesh = (&[(0, 0), (8, 0), (8, 8), (0, 8), (8, 8), (16, 8), (8, 16)], &[[1, 2, 0], [3, 0, 2], [4, 5, 6]]);
const DOUBLED_TURNED: Mesh = (DOUBLED.0, &[[1, 2, 0], [0, 2, 3], [4, 5, 6]]);
/// A triangle over both halves of the square; and the same, row 1 turned.
const ACROSS: Mesh = (&[(0, 0), (8, 0), (8, 8), (0, 8), (3, 1), (5, 3), (2, 4)], &[[1, 2, 0], [3, 0, 2], [4, 5, 6]]);
const ACROSS_TURNED: Mesh = (ACROSS.0, &[[1, 2, 0], [0, 2, 3], [4, 5, 6]]);
/// A star of two triangles: no corner of one is in the other.
const STARRED: Mesh = (&[(0, 2), (6, 2), (3, 8), (3, 0), (6, 6), (0, 6)], &[[0, 1, 2], [3, 4, 5]]);
/// Two triangles with nodes of their own.
const TWO: &[[u32; 3]] = &[[0, 1, 2], [3, 4, 5]];

/// A call, what it is given, and what 01, W1, W2 or W5 to W8 says of it.
struct Case {
    name: &'static str,
    given: Tables,
    call: Call,
    number: u32,
    after: Held,
    passes: usize,
    told: [i32; 2],
    red: u32,
    culprit: usize,
}

/// A mesh as tables hold it.
struct Held {
    nodes: Vec<i32>,
    rows: Vec<u32>,
}

impl From<Mesh> for Held {
    fn from((nodes, rows): Mesh) -> Held {
        Held { nodes: nodes.iter().flat_map(|p| [p.0, p.1, 0, 0]).collect(), rows: rows.concat() }
    }
}

impl From<Carrying> for Held {
    fn from((nodes, rows): Carrying) -> Held {
        Held { nodes: nodes.concat(), rows: rows.concat() }
    }
}

/// The mesh in tables of these rooms.
fn lent(mesh: impl Into<Held>, nc: usize, tc: usize) -> Tables {
    let Held { mut nodes, mut rows } = mesh.into();
    let (n, t) = (nodes.len() / 4, rows.len() / 3);
    nodes.resize(4 * nc, 7);
    rows.resize(3 * tc, 7);
    Tables { nodes, rows, scratch: vec![7; 4 * (nc + tc)], n, t }
}

/// A call that is done and leaves this mesh.
fn done(name: &'static str, given: impl Into<Held>, call: Call, after: impl Into<Held>, passes: usize) -> Case {
    Case { name, given: lent(given, 20, 30), call, number: 0, after: after.into(), passes, told: [0, 0], red: 0, culprit: 0 }
}

/// A call that makes a red cut and leaves this mesh.
fn cut_red(name: &'static str, given: impl Into<Held>, call: Call, after: impl Into<Held>) -> Case {
    Case { red: 1, ..done(name, given, call, after, 0) }
}

/// A call that is refused and names nobody.
fn refused(name: &'static str, given: Tables, call: Call, number: u32) -> Case {
    Case { name, given, call, number, after: EMPTY.into(), passes: 0, told: [0, 0], red: 0, culprit: 0 }
}

/// A question about a point that is answered.
fn asked(name: &'static str, given: Tables, n0: usize, point: [i32; 2], told: [i32; 2]) -> Case {
    Case { name, given, call: Call::Ask(n0, point), number: 0, after: EMPTY.into(), passes: 0, told, red: 0, culprit: 0 }
}

/// Marks: 1 at the places listed, 0 elsewhere.
fn marks(count: usize, places: &[usize]) -> Vec<u8> {
    (0..count).map(|k| places.contains(&k) as u8).collect()
}

fn refine(mesh: Mesh, n0: usize, listed: &[usize]) -> Call {
    Call::Refine(n0, marks(mesh.1.len(), listed))
}

fn quarter(mesh: Mesh, n0: usize, listed: &[usize]) -> Call {
    Call::Quarter(n0, marks(mesh.1.len(), listed))
}

fn refine_red(mesh: Mesh, n0: usize, listed: &[usize]) -> Call {
    Call::Red(n0, marks(mesh.1.len(), listed))
}

fn coarsen(mesh: Mesh, n0: usize, listed: &[usize]) -> Call {
    Call::Coarsen(n0, marks(mesh.0.len(), listed))
}

fn full_pass(mesh: Mesh, n0: usize) -> Call {
    Call::Coarsen(n0, vec![1; mesh.0.len()])
}

/// Cases 1 to 12 that are done.
fn hand_meshes() -> Vec<Case> {
    vec![
        done("case 1, S is compatible", S, Call::Check, S, 0),
        done("case 2", S, refine(S, 4, &[0]), CASE_2, 0),
        done("case 3", CASE_2, refine(CASE_2, 4, &[0]), CASE_3, 0),
        done("case 4", CASE_3, refine(CASE_3, 4, &[0]), CASE_4, 0),
        done("case 5, the first pass takes 6", CASE_4, full_pass(CASE_4, 4), CASE_5_PASS_1, 0),
        done("case 5, the second 5 and 7", CASE_5_PASS_1, full_pass(CASE_5_PASS_1, 4), CASE_2, 0),
        done("case 5, the third 4", CASE_2, full_pass(CASE_2, 4), S, 0),
        done("case 5, restore", CASE_4, Call::Restore(4), S, 3),
        done("case 6, nothing goes", CASE_3, coarsen(CASE_3, 4, &[4]), CASE_3, 0),
        done("case 8", R, refine(R, 4, &[0]), CASE_8, 0),
        done("case 9, restore", CASE_8, Call::Restore(4), CASE_8, 0),
        done("case 10, unmarked", SMALL, refine(SMALL, 3, &[]), SMALL, 0),
        done("case 12, the midpoint of (-3,0) and (1,0)", ENDS, refine(ENDS, 3, &[0]), ENDS_CUT, 0),
        done("case 12, back again", ENDS_CUT, Call::Restore(3), ENDS, 1),
        done("the empty mesh, check", EMPTY, Call::Check, EMPTY, 0),
        done("the empty mesh, refine", EMPTY, Call::Refine(0, vec![]), EMPTY, 0),
        done("the empty mesh, coarsen", EMPTY, Call::Coarsen(0, vec![]), EMPTY, 0),
        done("the empty mesh, restore", EMPTY, Call::Restore(0), EMPTY, 0),
        Case { given: lent(S, 4, 4), ..done("case 11, no marks", S, refine(S, 4, &[]), S, 0) },
        Case { given: lent(S, 5, 4), ..done("the rooms are just enough", S, refine(S, 4, &[0]), CASE_2, 0) },
    ]
}

/// Request W1: all three edges of a marked row start the split set.
fn quarter_meshes() -> Vec<Case> {
    vec![
        done("S, row 0", S, quarter(S, 4, &[0]), QUARTERED, 0),
        done("S, row 0, restore", QUARTERED, Call::Restore(4), S, 2),
        done("S, row 0, the first pass", QUARTERED, full_pass(QUARTERED, 4), CASE_2, 0),
        done("S, both rows", S, quarter(S, 4, &[0, 1]), BOTH_QUARTERED, 0),
        done("S, both rows, restore", BOTH_QUARTERED, Call::Restore(4), S, 2),
        done("S, no marks", S, quarter(S, 4, &[]), S, 0),
        done("the empty mesh, quarter", EMPTY, Call::Quarter(0, vec![]), EMPTY, 0),
        done("a side in common", CASE_2, quarter(CASE_2, 4, &[0, 2]), SIDE_SHARED, 0),
        done("a side in common, restore", SIDE_SHARED, Call::Restore(4), S, 3),
        done("past one ring", CHAIN, quarter(CHAIN, 9, &[6]), CHAIN_QUARTERED, 0),
        done("the same row refined", CHAIN, refine(CHAIN, 9, &[6]), CHAIN_REFINED, 0),
        done("one way, the other", QUARTERED, refine(QUARTERED, 4, &[0]), QUARTERED_REFINED, 0),
        done("and the first again", QUARTERED_REFINED, quarter(QUARTERED_REFINED, 4, &[4]), MIXED, 0),
        done("both ways mixed, restore", MIXED, Call::Restore(4), S, 5),
        done("R, round the inner node", R, quarter(R, 4, &[0]), ROUND_QUARTERED, 0),
        done("sides that are refinement edges", WINGED, quarter(WINGED, 5, &[0]), CUT_ALL, 0),
        done("the same edges by their own rows", WINGED, refine(WINGED, 5, &[1, 2]), CUT_ALL, 0),
        done("the neighbour marked", WINGED, quarter(WINGED, 5, &[1]), WING_QUARTERED, 0),
        done("both marked", WINGED, quarter(WINGED, 5, &[0, 1]), WINGS_QUARTERED, 0),
        done("both marked, restore", WINGS_QUARTERED, Call::Restore(5), WINGED, 3),
        done("one triangle, case 12's midpoint", ENDS, quarter(ENDS, 3, &[0]), ENDS_QUARTERED, 0),
        done("odd sides, refine", ODD_SIDES, refine(ODD_SIDES, 3, &[0]), ODD_SIDES_REFINED, 0),
        Case { given: lent(S, 7, 6), ..done("the rooms are just enough, quarter", S, quarter(S, 4, &[0]), QUARTERED, 0) },
    ]
}

/// Request W8: start and close as in W1, but a row with all three edges split is cut red. The field is 1 where one is.
fn red_meshes() -> Vec<Case> {
    vec![
        cut_red("W8, one triangle", ENDS, refine_red(ENDS, 3, &[0]), ENDS_RED),
        cut_red("W8, S, row 0", S, refine_red(S, 4, &[0]), RED),
        cut_red("W8, S, both rows", S, refine_red(S, 4, &[0, 1]), BOTH_RED),
        cut_red("W8, two neighbours", WINGED, refine_red(WINGED, 5, &[0]), WINGED_RED),
        cut_red("W8, a neighbour with two split edges", WINGED, refine_red(WINGED, 5, &[1]), WING_RED),
        cut_red("W8, a row that is not marked", WINGED, refine_red(WINGED, 5, &[1, 2]), WINGS_RED),
        cut_red("W8, all three marked", WINGED, refine_red(WINGED, 5, &[0, 1, 2]), WINGS_RED),
        cut_red("W8, past one ring", CHAIN, refine_red(CHAIN, 9, &[6]), CHAIN_RED),
        cut_red("W8, with corrections", C, Call::Red(4, marks(2, &[0])), C_RED),
        cut_red("W8, cracked", CRACKED, refine_red(CRACKED, 4, &[0]), CRACKED_RED),
        Case { given: lent(S, 7, 6), ..cut_red("W8, the rooms are just enough", S, refine_red(S, 4, &[0]), RED) },
        done("W8, no marks", S, refine_red(S, 4, &[]), S, 0),
        done("W8, no marks, after a red cut", RED, refine_red(RED, 4, &[]), RED, 0),
        done("W8, the empty mesh", EMPTY, Call::Red(0, vec![]), EMPTY, 0),
        done("W8, odd edges, unmarked", SMALL, refine_red(SMALL, 3, &[]), SMALL, 0),
        done("W8, compatible", BOTH_RED, Call::Check, BOTH_RED, 0),
        refused("W8, not compatible", lent(RED, 20, 30), Call::Check, 10),
        done("W8, restore leaves the red cut", RED, Call::Restore(4), RED, 0),
        done("W8, restore leaves both", BOTH_RED, Call::Restore(4), BOTH_RED, 0),
        done("W8, restore leaves the winged row's", WINGED_RED, Call::Restore(5), WINGED_RED, 0),
        done("W8, then refined", RED, refine(RED, 4, &[0]), RED_REFINED, 0),
        done("W8, restore back to the red cut", RED_REFINED, Call::Restore(4), RED, 1),
    ]
}

/// Request W5: what the nodes carry after refining, setting, coarsening and restoring.
fn corrections() -> Vec<Case> {
    let row_0 = |rows: usize| Call::Refine(4, marks(rows, &[0]));
    vec![
        done("W5, C is admitted", C, Call::Check, C, 0),
        done("W5, refine", C, row_0(2), C_ONCE, 0),
        done("W5, refine twice", C_ONCE, row_0(4), C_TWICE, 0),
        done("W5, set node 4", C_TWICE, Call::Set(4, 4, [9, -9]), SET_4, 0),
        done("W5, refine with what was set", SET_4, row_0(5), C_THRICE, 0),
        done("W5, a full pass", C_THRICE, Call::Coarsen(4, vec![1; 8]), C_WITHOUT_6, 0),
        done("W5, restore", C_THRICE, Call::Restore(4), C, 3),
        done("W5, restore after a setting", SET_4, Call::Restore(4), C, 2),
        done("W5, quarter", C, Call::Quarter(4, marks(2, &[0])), C_QUARTERED, 0),
        done("W5, restore after quarter", C_QUARTERED, Call::Restore(4), C, 2),
        done("W5, a node that was set goes", SET_4, Call::Coarsen(4, vec![0, 0, 0, 0, 0, 1]), (&SET_4.0[..5], CASE_2.1), 0),
        done("W5, the mean carried beside the middle", BESIDE, Call::Restore(4), BESIDE, 0),
        done("W5, set to the ends of the range", C_TWICE, Call::Set(4, 5, [32767, -32768]), SET_5, 0),
        done("W5, set to what it carries", SET_5, Call::Set(4, 5, [32767, -32768]), SET_5, 0),
        done("W5, set with no base node", C_TWICE, Call::Set(0, 0, [5, -6]), SET_0, 0),
        Case { given: lent(C_TWICE, 6, 5), ..done("W5, set in full tables", C_TWICE, Call::Set(4, 4, [9, -9]), SET_4, 0) },
    ]
}

/// "rounded down (−3 and 0 give −2)": what the ends carry, and the node between them.
fn means() -> Vec<Case> {
    let ends: [[[i32; 2]; 3]; 7] = [
        [[-3, 4], [0, -1], [-2, 1]],
        [[0, -3], [3, 0], [1, -2]],
        [[3, 3], [0, -1], [1, 1]],
        [[-1, -1], [0, -1], [-1, -1]],
        [[-4, -4], [0, -1], [-2, -3]],
        [[32767, -32768], [32767, -32768], [32767, -32768]],
        [[32767, -32768], [-32768, 32767], [-1, -1]],
    ];
    let held = |(places, rows): Mesh, carried: &[[i32; 2]]| Held {
        nodes: places.iter().zip(carried).flat_map(|(p, c)| [p.0, p.1, c[0], c[1]]).collect(),
        rows: rows.concat(),
    };
    let case = |[a, b, mean]: [[i32; 2]; 3]| {
        let carried = [a, b, [11, -12], mean];
        done("W5, the mean", held(ENDS, &carried), refine(ENDS, 3, &[0]), held(ENDS_CUT, &carried), 0)
    };
    ends.map(case).into()
}

/// A question: its name, the mesh, the point, and what is told.
type Asked = (&'static str, Carrying, [i32; 2], [i32; 2]);

/// Asked in tables with room to spare.
fn in_tables((name, mesh, point, told): Asked) -> Case {
    asked(name, lent(mesh, 20, 30), mesh.0.len(), point, told)
}

/// Request W6 on small meshes: points inside, on sides and on corners, rounded down.
fn questions() -> Vec<Case> {
    let asked_about: [Asked; 35] = [
        ("W6, in row 0, 3/8 and 17/8", Q, [5, 2], [0, 2]),
        ("W6, in row 0, 21/8 and 5/8", Q, [7, 1], [2, 0]),
        ("W6, in row 0, -14/8 and 40/8", Q, [2, 1], [-2, 5]),
        ("W6, in row 0, 1/8 and -5/8", Q, [7, 6], [0, -1]),
        ("W6, in row 1, -6/8 and 20/8", Q, [2, 5], [-1, 2]),
        ("W6, in row 1, 3/8 and 11/8", Q, [1, 7], [0, 1]),
        ("W6, in row 1, -2/8 and -4/8", Q, [6, 7], [-1, -1]),
        ("W6, on the side below, -3/8 and 35/8", Q, [3, 0], [-1, 4]),
        ("W6, on the right side, 12/8 and -10/8", Q, [8, 5], [1, -2]),
        ("W6, on the left side, -12/8 and 38/8", Q, [0, 3], [-2, 4]),
        ("W6, on the side above, 3/8 and -7/8", Q, [5, 8], [0, -1]),
        ("W6, on the shared side, -3/2 and 5/2", Q, [4, 4], [-2, 2]),
        ("W6, on the shared side, -21/8 and 47/8", Q, [1, 1], [-3, 5]),
        ("W6, on the shared side, -6/8 and 2/8", Q, [6, 6], [-1, 0]),
        ("W6, at node 0", Q, [0, 0], [-3, 7]),
        ("W6, at node 1", Q, [8, 0], [4, 0]),
        ("W6, at node 2", Q, [8, 8], [0, -2]),
        ("W6, at node 3", Q, [0, 8], [1, 1]),
        ("W6, refined, -60/32 and 156/32", Q_ONCE, [2, 1], [-2, 4]),
        ("W6, at an added node", Q_ONCE, [4, 4], [-2, 2]),
        ("W6, beside a node that was set, 28/32 and 68/32", Q_SET, [2, 1], [0, 2]),
        ("W6, at a node that was set", Q_SET, [4, 4], [9, -9]),
        ("W6, on the longest side of one triangle, 5/2 and 1/2", HALF, [4, 4], [2, 0]),
        ("W6, by a corner of the smallest triangle", (&[[0, 0, 5, -6], [1, 0, 0, 0], [0, 1, 0, 0]], SMALL.1), [0, 0], [5, -6]),
        ("W6, by rows that coincide", ALIKE, [2, 2], [1, 2]),
        ("W6, at nodes that coincide", ALIKE, [8, 0], [1, 2]),
        ("W6, by rows that coincide, the other lower", OTHER_LOWER, [2, 2], [-9, 9]),
        ("W6, at nodes that coincide, the other lower", OTHER_LOWER, [8, 0], [-9, 9]),
        ("W6, by a row over a corner, in both", LARGER, [4, 4], [1, 2]),
        ("W6, by a row over a corner, in the larger", LARGER, [4, 5], [-9, 9]),
        ("W6, by a row over a corner, at its node", LARGER, [16, 0], [-9, 9]),
        ("W6, at a node in a lower row", INSIDE, [2, 2], [1, 2]),
        ("W6, at a node in no lower row", INSIDE, [12, 2], [-9, 9]),
        ("W6, on the lower row's side, in the other", INSIDE, [4, 4], [1, 2]),
        ("W6, a step past it", INSIDE, [5, 4], [-9, 9]),
    ];
    let others = [asked("W6, in full tables", lent(Q, 4, 2), 4, [5, 2], [0, 2]), asked("W6, with no base node", lent(Q, 20, 30), 0, [5, 2], [0, 2])];
    asked_about.into_iter().map(in_tables).chain(others).collect()
}

/// Request W6 on the largest meshes. On BIG a step along a side changes dx and dy by 65,535 / 2,097,152.
fn largest_questions() -> Vec<Case> {
    let asked_about: [Asked; 16] = [
        ("W6, the middle", BIG, [0, 0], [32767, -32768]),
        ("W6, right of the middle", BIG, [1, 0], [32766, -32768]),
        ("W6, above the middle", BIG, [0, 1], [32766, -32768]),
        ("W6, the middle of row 0, -1/2", BIG, [FAR / 2, -FAR / 2], [-1, -1]),
        ("W6, the middle of a side, -1/2", BIG, [0, -FAR], [-1, -1]),
        ("W6, a unit from node 0", BIG, [1 - FAR, -FAR], [32766, -32768]),
        ("W6, a unit from node 1", BIG, [FAR, 1 - FAR], [-32768, 32766]),
        ("W6, at node 0 of the largest", BIG, [-FAR, -FAR], [32767, -32768]),
        ("W6, at node 1 of the largest", BIG, [FAR, -FAR], [-32768, 32767]),
        ("W6, at node 2 of the largest", BIG, [FAR, FAR], [32767, -32768]),
        ("W6, at node 3 of the largest", BIG, [-FAR, FAR], [-32768, 32767]),
        ("W6, one end everywhere, row 0", EVEN, [654321, -123457], [32767, -32768]),
        ("W6, one end everywhere, row 1", EVEN, [-123457, 654321], [32767, -32768]),
        ("W6, one end everywhere, on the shared side", EVEN, [-7, -7], [32767, -32768]),
        ("W6, on a sliver, -3/2 and 3/2", SLIVER, [0, 0], [-2, 1]),
        ("W6, at the end of a sliver", SLIVER, [FAR - 1, FAR], [100, 100]),
    ];
    // node k carries k and -k; the first row is (1, 33, 0), the last (1022, 990, 1023)
    let (nodes, rows) = grid(31, 31, 8);
    let many = || lent(Held { nodes: nodes.iter().zip(0..).flat_map(|(p, k)| [p.0, p.1, k, -k]).collect(), rows: rows.concat() }, 1024, 2048);
    let others = [
        asked("W6, the first row of many, 69/8", many(), 1024, [5, 2], [8, -9]),
        asked("W6, the last row of many, 8114/8", many(), 1024, [242, 246], [1014, -1015]),
        refused("14, no row of many", many(), Call::Ask(1024, [249, 248]), 14),
    ];
    asked_about.into_iter().map(in_tables).chain(others).collect()
}

/// 14: a step outside, beyond a corner on a side's line, and as far out as a point can be.
fn number_14() -> Vec<Case> {
    const LOW: i32 = i32::MIN;
    const HIGH: i32 = i32::MAX;
    let ends = [[LOW, LOW], [LOW, HIGH], [HIGH, LOW], [HIGH, HIGH], [0, LOW], [HIGH, 0]];
    let outside = |name: &'static str, mesh: Carrying, points: &[[i32; 2]]| -> Vec<Case> {
        points.iter().map(|&point| refused(name, lent(mesh, 20, 30), Call::Ask(mesh.0.len(), point), 14)).collect()
    };
    let empty: Carrying = (&[], &[]);
    let all = [
        outside("14, a step outside", Q, &[[9, 4], [-1, 4], [4, -1], [4, 9], [9, 8], [8, 9], [-1, 0], [0, -1], [9, 9], [-1, -1]]),
        outside("14, a step past the longest side", HALF, &[[4, 5], [5, 4], [1, 8], [8, 1]]),
        outside("14, on a side's line", HALF, &[[9, -1], [-1, 9], [9, 0], [0, 9], [-1, 0], [0, -1], [16, -8]]),
        outside("14, beside a sliver", SLIVER, &[[-1, 0], [0, -1], [FAR - 2, FAR]]),
        outside("14, a step outside the largest", BIG, &[[FAR + 1, 0], [-FAR - 1, FAR], [0, -FAR - 1], [FAR, FAR + 1]]),
        outside("14, as far out as can be", Q, &ends),
        outside("14, as far out as can be, the largest", BIG, &ends),
        outside("14, as far out as can be, a sliver", SLIVER, &ends),
        outside("14, the empty mesh", empty, &[[0, 0], ends[0], ends[3]]),
    ];
    all.into_iter().flatten().collect()
}

/// 2: another length, and a byte above 1.
fn number_2() -> Vec<Case> {
    let s = || lent(S, 20, 30);
    vec![
        refused("2, refine, one mark short", s(), Call::Refine(4, vec![1]), 2),
        refused("2, refine, one mark more", s(), Call::Refine(4, vec![1, 0, 0]), 2),
        refused("2, refine, a byte of 2", s(), Call::Refine(4, vec![0, 2]), 2),
        refused("2, quarter, one mark short", s(), Call::Quarter(4, vec![1]), 2),
        refused("2, quarter, one mark more", s(), Call::Quarter(4, vec![1, 0, 0]), 2),
        refused("2, quarter, a byte of 2", s(), Call::Quarter(4, vec![0, 2]), 2),
        refused("2, refine_red, one mark short", s(), Call::Red(4, vec![1]), 2),
        refused("2, refine_red, one mark more", s(), Call::Red(4, vec![1, 0, 0]), 2),
        refused("2, refine_red, a byte of 2", s(), Call::Red(4, vec![1, 2]), 2),
        refused("2, coarsen, a mark a row", s(), Call::Coarsen(4, vec![0, 0]), 2),
        refused("2, coarsen, a byte of 255", s(), Call::Coarsen(4, vec![0, 0, 0, 255]), 2),
        refused("2 before 4, refine", lent(MISNAMED, 20, 30), Call::Refine(4, vec![1]), 2),
        refused("2 before 4, quarter", lent(MISNAMED, 20, 30), Call::Quarter(4, vec![2, 0, 0]), 2),
        refused("2 before 4, refine_red", lent(MISNAMED, 20, 30), Call::Red(4, vec![1, 2, 0]), 2),
        refused("2 before 4, coarsen", lent(MISNAMED, 20, 30), Call::Coarsen(4, vec![]), 2),
    ]
}

/// 8, 9 and 10.
fn numbers_8_to_10() -> Vec<Case> {
    vec![
        refused("case 7, R is not compatible", lent(R, 20, 30), Call::Check, 10),
        refused("10, by rows above the lowest", lent(CHAIN, 20, 30), Call::Check, 10),
        refused("case 10, marked", lent(SMALL, 20, 30), refine(SMALL, 3, &[0]), 8),
        refused("case 11, no room for a node", lent(S, 4, 30), refine(S, 4, &[0]), 9),
        refused("9, no room for two rows", lent(S, 20, 3), refine(S, 4, &[0]), 9),
        refused("8 before 9", lent(SMALL, 3, 1), refine(SMALL, 3, &[0]), 8),
        refused("8, by the sides alone", lent(ODD_SIDES, 20, 30), quarter(ODD_SIDES, 3, &[0]), 8),
        refused("8, by an edge drawn in", lent(ODD_NEIGHBOUR, 20, 30), quarter(ODD_NEIGHBOUR, 4, &[0]), 8),
        refused("8 before 9, quarter", lent(ODD_SIDES, 3, 1), quarter(ODD_SIDES, 3, &[0]), 8),
        refused("9, room for a refine, not for a quarter", lent(S, 5, 4), quarter(S, 4, &[0]), 9),
        refused("9, room for two nodes of three", lent(S, 6, 6), quarter(S, 4, &[0]), 9),
        refused("9, room for three rows of four", lent(S, 7, 5), quarter(S, 4, &[0]), 9),
        refused("8, refine_red, by the sides alone", lent(ODD_SIDES, 20, 30), refine_red(ODD_SIDES, 3, &[0]), 8),
        refused("8, refine_red, by an edge drawn in", lent(ODD_NEIGHBOUR, 20, 30), refine_red(ODD_NEIGHBOUR, 4, &[0]), 8),
        refused("8 before 9, refine_red", lent(ODD_SIDES, 3, 1), refine_red(ODD_SIDES, 3, &[0]), 8),
        refused("9, refine_red, room for two nodes of three", lent(S, 6, 6), refine_red(S, 4, &[0]), 9),
        refused("9, refine_red, room for three rows of four", lent(S, 7, 5), refine_red(S, 4, &[0]), 9),
    ]
}

/// Request W7: 11, 12, and their order among the others.
fn numbers_11_and_12() -> Vec<Case> {
    const HALF: [(i32, i32); 3] = [(0, 0), (8, 0), (0, 8)];
    let wrong: [(&'static str, Mesh, u32); 22] = [
        ("11, the supplier's mesh", CRACKED, 11),
        ("11, two nodes at one place", DOUBLED, 11),
        ("11, a node inside a side, from outside", (&[HALF[0], HALF[1], HALF[2], (4, 4), (12, 4), (5, 12)], TWO), 11),
        ("11, a node inside a side, from inside", (&[HALF[0], HALF[1], HALF[2], (1, 1), (4, 4), (2, 3)], TWO), 11),
        ("11, a node of the lower row inside a side", (&[(4, 0), (5, -4), (6, -3), HALF[0], HALF[1], HALF[2]], TWO), 11),
        ("11, next to an end of a side", (&[HALF[0], HALF[1], HALF[2], (7, 0), (5, -4), (9, -4)], TWO), 11),
        ("11, inside an upright side", (&[HALF[0], HALF[1], HALF[2], (0, 1), (-3, 4), (-5, 1)], TWO), 11),
        ("11, sides that lie on each other", (&[HALF[0], HALF[1], HALF[2], (-1, 0), (4, -4), (9, 0)], TWO), 11),
        ("11, inside the longest side", (&[(-FAR, -FAR), (FAR, FAR), (FAR - 1, FAR), (0, 0), (0, -1), (1, 0)], TWO), 11),
        ("11, doubled at the end of the range", (&[(FAR, FAR), (FAR - 1, FAR), (FAR, FAR - 1), (FAR, FAR), (0, FAR), (-1, 5)], TWO), 11),
        ("11 before 12, two triangles alike", (&[HALF[0], HALF[1], HALF[2], HALF[0], HALF[1], HALF[2]], TWO), 11),
        ("11 before 12, by a node that is no corner of these", (&[HALF[0], HALF[1], HALF[2], (1, 1), (3, 1), (2, 3), (4, 0), (9, -2), (9, -1)], &[[0, 1, 2], [3, 4, 5], [6, 7, 8]]), 11),
        ("11 before 10", DOUBLED_TURNED, 11),
        ("12, over both halves", ACROSS, 12),
        ("12, no corner of one in the other", STARRED, 12),
        ("12, one in the other", (&[HALF[0], HALF[1], HALF[2], (1, 1), (3, 1), (2, 3)], TWO), 12),
        ("12, the other in the one", (&[(1, 1), (3, 1), (2, 3), HALF[0], HALF[1], HALF[2]], TWO), 12),
        ("12, by a corner one step in", (&[HALF[0], HALF[1], HALF[2], (4, 3), (12, 4), (5, 12)], TWO), 12),
        ("12, a node in common", (&[HALF[0], HALF[1], HALF[2], (7, 2), (3, 7)], &[[0, 1, 2], [0, 3, 4]]), 12),
        ("12, at no whole place", (&[(-FAR, -FAR), (FAR, FAR - 1), (FAR, FAR), (-FAR, FAR), (FAR, -FAR), (FAR, 1 - FAR)], TWO), 12),
        ("12, the largest", (&[(-FAR, -FAR), (FAR, -FAR), (-FAR, FAR), (FAR, FAR - 1), (FAR - 1, FAR), (1 - FAR, 1 - FAR)], TWO), 12),
        ("12 before 10", ACROSS_TURNED, 12),
    ];
    let unused: [(&'static str, Mesh); 2] = [
        ("7 before 11", (&[(0, 0), (8, 0), (8, 8), (0, 8), (8, 8)], S.1)),
        ("7 before 12", (&[HALF[0], HALF[1], HALF[2], (1, 1), (3, 1), (2, 3), (4, 5)], TWO)),
    ];
    let check = |(name, mesh, number): (&'static str, Mesh, u32)| refused(name, lent(mesh, 20, 30), Call::Check, number);
    let by_7 = unused.map(|(name, mesh)| Case { culprit: mesh.0.len() - 1, ..check((name, mesh, 7)) });
    wrong.into_iter().map(check).chain(by_7).collect()
}

/// Request W7: triangles that touch, at a node or along an edge that is theirs, or not at all, are admitted.
fn touching() -> Vec<Case> {
    let right: [(&'static str, Mesh); 8] = [
        ("W7, a node in common", (&[(0, 0), (8, 0), (0, 8), (-8, 0), (0, -8)], &[[0, 1, 2], [0, 3, 4]])),
        ("W7, an edge in common", (&[(0, 0), (8, 0), (0, 8), (7, 7)], &[[0, 1, 2], [3, 2, 1]])),
        ("W7, on the line of a side, a step past it", (&[(0, 0), (8, 0), (0, 8), (9, 0), (16, 0), (16, 8)], TWO)),
        ("W7, a step off a side", (&[(0, 0), (8, 0), (0, 8), (5, 4), (12, 4), (5, 12)], TWO)),
        ("W7, one round the corner of the other", (&[(0, 0), (8, 0), (0, 8), (9, -3), (10, 9), (9, 0)], TWO)),
        ("W7, slivers with an edge in common", (&[(-FAR, -FAR), (FAR, FAR), (FAR - 1, FAR), (FAR, FAR - 1)], &[[0, 1, 2], [1, 0, 3]])),
        ("W7, slivers a step apart", (&[(-FAR, -FAR), (FAR, FAR - 1), (FAR, FAR), (-FAR, 1 - FAR), (FAR - 1, FAR), (FAR - 2, FAR)], TWO)),
        ("W7, the halves of the largest square", (&[(-FAR, -FAR), (FAR, -FAR), (FAR, FAR), (-FAR, FAR)], S.1)),
    ];
    right.into_iter().map(|(name, mesh)| done(name, mesh, Call::Check, mesh, 0)).collect()
}

/// Request W7: "Refine and coarsen don't repeat this." Nor do the others.
fn taken_as_before() -> Vec<Case> {
    let mut all = vec![
        done("W7, refine, cracked", CRACKED, refine(CRACKED, 4, &[0]), CRACKED_REFINED, 0),
        done("W7, quarter, cracked", CRACKED, quarter(CRACKED, 4, &[0]), CRACKED_QUARTERED, 0),
        done("W7, coarsen, cracked: the edge 0-2 holds node 4", CRACKED, full_pass(CRACKED, 4), CRACKED, 0),
        done("W7, restore, cracked", CRACKED, Call::Restore(4), CRACKED, 0),
        done("W7, restore, cracked and refined", CRACKED_REFINED, Call::Restore(5), CRACKED, 1),
        done("W7, restore, cracked and cut in four", CRACKED_QUARTERED, Call::Restore(5), CRACKED, 2),
        done("W7, set, cracked", CRACKED_CARRYING, Call::Set(4, 4, [5, -6]), CRACKED_SET, 0),
        asked("W7, ask, cracked, by row 0", lent(CRACKED_CARRYING, 20, 30), 4, [4, 4], [-2, 2]),
        asked("W7, ask, cracked, by row 1: 20/8 and -6/8", lent(CRACKED_CARRYING, 20, 30), 4, [1, 6], [2, -1]),
        refused("14, cracked", lent(CRACKED_CARRYING, 20, 30), Call::Ask(4, [9, 4]), 14),
    ];
    for (name, mesh) in [("W7, doubled", DOUBLED), ("W7, across", ACROSS), ("W7, starred", STARRED)] {
        let n0 = mesh.0.len();
        let marked = [refine(mesh, n0, &[]), quarter(mesh, n0, &[]), refine_red(mesh, n0, &[]), full_pass(mesh, n0)];
        let calls = marked.into_iter().chain([Call::Restore(n0), Call::Set(0, 0, [0, 0])]);
        all.extend(calls.map(|call| done(name, mesh, call, mesh, 0)));
        all.push(asked(name, lent(mesh, 20, 30), n0, [3, 3], [0, 0]));
    }
    all
}

/// Every call but the check takes n0; all answer 3 to 7 alike, and name the same culprit: a question too, be the point in a row or outside.
fn by_all_calls(name: &'static str, given: Tables, number: u32, culprit: usize) -> Vec<Case> {
    let (nodes, rows) = (vec![0; given.n], vec![0; given.t]);
    let marked = [Call::Refine(0, rows.clone()), Call::Quarter(0, rows.clone()), Call::Red(0, vec![1; rows.len()]), Call::Coarsen(0, nodes)];
    let others = [Call::Check, Call::Restore(0), Call::Set(0, 0, [1, -1]), Call::Ask(0, [4, 2]), Call::Ask(0, [i32::MIN, i32::MAX])];
    marked.into_iter().chain(others).map(|call| Case { culprit, ..refused(name, given.clone(), call, number) }).collect()
}

/// Each of 3 to 7, and who is named.
fn numbers_3_to_7() -> Vec<Case> {
    let wrong: [(&'static str, Mesh, u32, usize); 14] = [
        ("case 12, x = 1,048,577", (&[(1048577, 0), (0, 4), (0, 0)], &[[0, 1, 2]]), 3, 0),
        ("x = -1,048,577", (&[(-1048577, 0), (0, 0), (0, 4)], &[[0, 1, 2]]), 3, 0),
        ("y = 1,048,577", (&[(0, 0), (4, 0), (0, 1048577)], &[[0, 1, 2]]), 3, 2),
        ("y = -1,048,577", (&[(4, 0), (0, -1048577), (0, 0)], &[[0, 1, 2]]), 3, 1),
        ("x = the lowest number of 32 bits", (&[(i32::MIN, 0), (0, 0), (0, 4)], &[[0, 1, 2]]), 3, 0),
        ("4, a node not below n", (S.0, &[[1, 2, 0], [3, 0, 4]]), 4, 1),
        ("4, a node number of 32 ones", (S.0, &[[1, 2, 0], [3, u32::MAX, 2]]), 4, 1),
        ("4, one node twice", (S.0, &[[1, 2, 0], [3, 0, 3]]), 4, 1),
        ("5, a directed edge twice", (S.0, &[[1, 2, 0], [3, 2, 0]]), 5, 1),
        ("5, one row twice", (S.0, &[[1, 2, 0], [3, 0, 2], [3, 0, 2]]), 5, 2),
        ("6, no area", (&[(0, 0), (4, 0), (8, 0)], &[[0, 1, 2]]), 6, 0),
        ("6, the other way round", (&[(0, 0), (0, 8), (8, 0)], &[[0, 1, 2]]), 6, 0),
        ("7, a node in no triangle", (S.0, &[[1, 2, 0]]), 7, 3),
        ("3 before 4 to 7", (&[(9999999, 0), (0, 0)], &[[0, 0, 5], [0, 0, 5]]), 3, 0),
    ];
    wrong.into_iter().flat_map(|(name, mesh, number, culprit)| by_all_calls(name, lent(mesh, 20, 30), number, culprit)).collect()
}

/// Several are at fault: "the lowest offending number", and "for 5 the lowest triangle with a directed edge that a lower row already has".
fn lowest_culprits() -> Vec<Case> {
    let wrong: [(&'static str, Mesh, u32, usize); 9] = [
        ("3, nodes 1 and 3", (&[(0, 0), (8, 2000000), (8, 8), (-2000000, 8)], S.1), 3, 1),
        ("4, rows 1 and 2", MISNAMED, 4, 1),
        ("5, row 2 as row 1, row 3 as row 0", (S.0, &[[1, 2, 0], [3, 0, 2], [3, 0, 2], [1, 2, 0]]), 5, 2),
        ("5, row 2 as row 0, row 3 as row 1", (S.0, &[[1, 2, 0], [3, 0, 2], [1, 2, 0], [3, 0, 2]]), 5, 2),
        ("5, three rows alike", (S.0, &[[3, 0, 2], [1, 2, 0], [1, 2, 0], [1, 2, 0]]), 5, 2),
        ("5, by other corners of the rows", (S.0, &[[3, 0, 2], [1, 2, 0], [2, 0, 3], [0, 1, 2]]), 5, 2),
        ("6, rows 1 and 2", (&[(0, 0), (8, 0), (8, 8), (4, 4), (8, 4)], &[[1, 2, 0], [3, 0, 2], [4, 2, 1]]), 6, 1),
        ("7, nodes 1 and 4", (&[(0, 0), (8, 0), (8, 8), (0, 8), (4, 4)], &[[3, 0, 2]]), 7, 1),
        ("4 at row 1, 5 to 7 lower", (&[(0, 0), (0, 0), (0, 0), (0, 0), (9, 9)], &[[1, 2, 0], [1, 2, 2], [1, 2, 0]]), 4, 1),
    ];
    wrong.into_iter().flat_map(|(name, mesh, number, culprit)| by_all_calls(name, lent(mesh, 20, 30), number, culprit)).collect()
}

/// A grid of 1,024 nodes and 1,922 rows, and one row more: the last node or the last row is at fault.
fn last_culprits() -> Vec<Case> {
    let (nodes, mut rows) = grid(31, 31, 8);
    rows.push([0, 2, 64]);
    let given = Tables { nodes: nodes.iter().flat_map(|p| [p.0, p.1, -1, 1]).collect(), rows: rows.concat(), scratch: vec![7; 20000], n: 1024, t: 1923 };
    type Spoil = fn(&mut Tables);
    let wrong: [(&'static str, Spoil, u32, usize); 6] = [
        ("3, the last node", |g| g.nodes[4 * 1023 + 1] = i32::MAX, 3, 1023),
        ("3, the last correction", |g| g.nodes[4 * 1023 + 3] = 32768, 3, 1023),
        ("4, the last row", |g| g.rows[3 * 1922] = 1024, 4, 1922),
        ("5, the last row", |g| g.rows[3 * 1922 + 2] = 35, 5, 1922),
        ("6, the last row", |g| g.rows[3 * 1922 + 2] = 4, 6, 1922),
        ("7, the last node", |g| g.t = 1920, 7, 1023),
    ];
    let spoilt = |spoil: Spoil| {
        let mut g = given.clone();
        spoil(&mut g);
        g
    };
    wrong.into_iter().flat_map(|(name, spoil, number, culprit)| by_all_calls(name, spoilt(spoil), number, culprit)).collect()
}

/// Case 12: each end of the range passes.
fn range_ends() -> Vec<Case> {
    let right: [(&'static str, Mesh); 4] = [
        ("case 12, x = 1,048,576", (&[(1048576, 0), (0, 4), (0, 0)], &[[0, 1, 2]])),
        ("x = -1,048,576", (&[(-1048576, 0), (0, 0), (0, 4)], &[[0, 1, 2]])),
        ("y = 1,048,576", (&[(0, 1048576), (0, 0), (4, 0)], &[[0, 1, 2]])),
        ("y = -1,048,576", (&[(0, -1048576), (4, 0), (0, 0)], &[[0, 1, 2]])),
    ];
    right.into_iter().flat_map(|(name, mesh)| [done(name, mesh, Call::Check, mesh, 0), done(name, mesh, Call::Restore(3), mesh, 0)]).collect()
}

/// Every reason for 1, of every call.
fn number_1() -> Vec<Case> {
    type Spoil = fn(&mut Tables);
    let reasons: [(&'static str, Spoil); 11] = [
        ("1, a node table of 4 k + 1", |g| g.nodes.push(7)),
        ("1, a node table of 4 k + 2", |g| g.nodes.extend([7, 7])),
        ("1, a node table of 4 k + 3", |g| g.nodes.extend([7, 7, 7])),
        ("1, a row table of 3 k + 1", |g| g.rows.push(7)),
        ("1, a row table of 3 k + 2", |g| g.rows.extend([7, 7])),
        ("1, 1,025 nodes of room", |g| (g.nodes, g.scratch) = (vec![7; 4100], vec![7; 20000])),
        ("1, 2,049 rows of room", |g| (g.rows, g.scratch) = (vec![7; 6147], vec![7; 20000])),
        ("1, n above NC", |g| g.n = 21),
        ("1, t above TC", |g| g.t = usize::MAX),
        ("1, scratch one short", |g| g.scratch.truncate(4 * 50 - 1)),
        ("1 before 4", |g| (g.rows[5], g.scratch) = (4, vec![])),
    ];
    let with = |n0: usize| {
        let marked = [refine(S, n0, &[0]), quarter(S, n0, &[0]), refine_red(S, n0, &[0]), full_pass(S, n0)];
        marked.into_iter().chain([Call::Restore(n0), Call::Set(n0, 4, [40000, 0]), Call::Ask(n0, [4, 2]), Call::Ask(n0, [9, 2])])
    };
    let mut all: Vec<Case> = with(5).map(|call| refused("1, n0 above n", lent(S, 20, 30), call, 1)).collect();
    for (name, spoil) in reasons {
        for call in with(4).chain([Call::Check]) {
            let mut given = lent(S, 20, 30);
            spoil(&mut given);
            all.push(refused(name, given, call, 1));
        }
    }
    all
}

/// Request W5: corrections out of range that are stored, refused by all calls alike.
fn stored_out() -> Vec<Case> {
    let parts = [[32768, 0], [0, 32768], [-32769, 0], [0, -32769], [i32::MIN, 0], [0, i32::MAX]];
    let carrying = |[dx, dy]: [i32; 2]| Held { nodes: [[0, 0, 0, 0], [8, 0, 0, 0], [8, 8, dx, dy], [0, 8, 0, 0]].concat(), rows: S.1.concat() };
    let mut all: Vec<Case> = parts.into_iter().flat_map(|part| by_all_calls("3, a correction", lent(carrying(part), 20, 30), 3, 2)).collect();
    all.extend(by_all_calls("3, by correction or place", lent(ASTRAY, 20, 30), 3, 1));
    all.extend([(3, [0, -32769]), (2, [5, -6])].map(|(node, value)| {
        let call = Call::Set(4, node, value);
        Case { culprit: 2, ..refused("3, stored, before the value to be set", lent(carrying([32768, 0]), 20, 30), call, 3) }
    }));
    all
}

/// A setting: its name, what it is given, n0 and the node, the value, and what it draws.
type Wrong = (&'static str, Tables, [usize; 2], [i32; 2], u32, usize);

/// Request W5: every reason to refuse a setting, in their order.
fn settings_refused() -> Vec<Case> {
    const WIDE: [i32; 2] = [32768, 0];
    const LOW: [i32; 2] = [0, -32769];
    const IN: [i32; 2] = [5, -6];
    let [misnamed, repeated, turned, loner] = [MISNAMED, REPEATED, TURNED, LONER].map(|mesh| move || lent(mesh, 20, 30));
    let twice = || lent(C_TWICE, 20, 30);
    let wrong: [Wrong; 22] = [
        ("3, dx to be set", twice(), [4, 5], WIDE, 3, 5),
        ("3, dy to be set", twice(), [4, 4], LOW, 3, 4),
        ("3, dx to be set far out", twice(), [4, 4], [i32::MIN, 0], 3, 4),
        ("3, dy to be set far out", twice(), [4, 4], [0, i32::MAX], 3, 4),
        ("3 to be set, before 4", misnamed(), [4, 2], WIDE, 3, 2),
        ("3 to be set, before 5", repeated(), [4, 3], LOW, 3, 3),
        ("3 to be set, before 6", turned(), [4, 0], LOW, 3, 0),
        ("3 to be set, before 7", loner(), [4, 7], LOW, 3, 7),
        ("3 to be set, before 13", twice(), [4, 0], WIDE, 3, 0),
        ("3 to be set, before 15", twice(), [4, 6], LOW, 3, 6),
        ("3 to be set, of a node number of all ones", twice(), [4, usize::MAX], LOW, 3, usize::MAX),
        ("4 before 13", misnamed(), [4, 1], IN, 4, 1),
        ("5 before 15", repeated(), [4, 9], IN, 5, 1),
        ("6 before 13", turned(), [4, 0], IN, 6, 1),
        ("7 of the node to be set", loner(), [4, 4], IN, 7, 4),
        ("13", twice(), [4, 3], IN, 13, 0),
        ("13, all are base nodes", twice(), [6, 5], IN, 13, 0),
        ("13, to what it carries", twice(), [4, 0], [-3, 7], 13, 0),
        ("15", twice(), [4, 6], IN, 15, 0),
        ("15, all are base nodes", twice(), [6, 6], IN, 15, 0),
        ("15, a node number of all ones", twice(), [4, usize::MAX], IN, 15, 0),
        ("15, the empty mesh", lent(EMPTY, 20, 30), [0, 0], IN, 15, 0),
    ];
    let case = |(name, given, [n0, node], value, number, culprit): Wrong| Case { culprit, ..refused(name, given, Call::Set(n0, node, value), number) };
    wrong.into_iter().map(case).collect()
}

/// What the tables hold after a call.
fn expected(case: &Case) -> (Answer, Tables) {
    let given = &case.given;
    let mut after = match case.number {
        0 if !matches!(case.call, Call::Check | Call::Ask(..)) => {
            let after = Held { nodes: case.after.nodes.clone(), rows: case.after.rows.clone() };
            let mut g = lent(after, given.nodes.len() / 4, given.rows.len() / 3);
            g.nodes[4 * g.n..].fill(0);
            g.rows[3 * g.t..].fill(0);
            g
        }
        _ => given.clone(),
    };
    after.scratch = vec![0; given.scratch.len()];
    (Answer { number: case.number, n: after.n, t: after.t, passes: case.passes, told: case.told, red: case.red, culprit: case.culprit }, after)
}

/// Runs the case; says what is wrong, if anything.
fn fault(case: &Case, by: fn(&Call, &mut Tables) -> Answer) -> Option<String> {
    let mut left = case.given.clone();
    let said = by(&case.call, &mut left);
    let (wanted, after) = expected(case);
    if said != wanted {
        Some(format!("{}: {:?}\nsaid {said:?}\nnot {wanted:?}", case.name, case.call))
    } else {
        (left != after).then(|| format!("{}: {:?}\nleft {left:?}\nnot {after:?}", case.name, case.call))
    }
}

fn main() {
    let refined = [hand_meshes(), quarter_meshes(), red_meshes(), range_ends(), corrections(), means()];
    let others = [questions(), largest_questions(), touching(), taken_as_before()];
    let unlawful = [number_1(), number_2(), numbers_3_to_7(), lowest_culprits(), last_culprits(), stored_out()];
    let refused = [numbers_8_to_10(), numbers_11_and_12(), settings_refused(), number_14()];
    let cases: Vec<Case> = refined.into_iter().chain(others).chain(unlawful).chain(refused).flatten().collect();
    let faults: Vec<String> = cases.iter().flat_map(|c| [fault(c, proved), fault(c, wrapped), fault(c, other)]).flatten().collect();
    for f in &faults {
        println!("hand: {f}");
    }
    println!("hand: {} cases by the exported calls, by the wrapper and by the rival, {} wrong", cases.len(), faults.len());
    std::process::exit(!faults.is_empty() as i32);
}
