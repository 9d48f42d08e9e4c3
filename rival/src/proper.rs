//! Request W7: what the base check refuses as 11 and as 12, of a lawful mesh, straight from the words. A node inside an edge is found among the edge's
//! whole points, and a shared interior point by cutting one triangle to the other. Both look only at what stands side by side from left to right.

pub type Place = [i64; 2];

/// 11: "two nodes stand at one place or a node lies strictly inside an edge".
pub fn crowded(places: &[Place], triangles: &[[Place; 3]]) -> bool {
    let mut sorted = places.to_vec();
    sorted.sort();
    let inside_one = |[p, q, r]: &[Place; 3]| [(p, q), (q, r), (r, p)].iter().any(|(a, b)| holds_inside(&sorted, **a, **b));
    sorted.windows(2).any(|two| two[0] == two[1]) || triangles.iter().any(inside_one)
}

/// Whether one of the places, which are sorted, is strictly inside the edge. Its whole points are as many equal steps apart as the greatest number
/// that divides both its width and its height says.
fn holds_inside(sorted: &[Place], a: Place, b: Place) -> bool {
    let way = [b[0] - a[0], b[1] - a[1]];
    let steps = common(way[0].abs(), way[1].abs());
    let step = way.map(|part| part / steps);
    let along = (step[0] == 0) as usize;
    let high = |p: &&Place| a[1].min(b[1]) <= p[1] && p[1] <= a[1].max(b[1]);
    let passed = |p: &Place| {
        let taken = (p[along] - a[along]) / step[along];
        0 < taken && taken < steps && *p == [a[0] + taken * step[0], a[1] + taken * step[1]]
    };
    let from = sorted.partition_point(|p| p[0] < a[0].min(b[0]));
    sorted[from..].iter().take_while(|p| p[0] <= a[0].max(b[0])).filter(high).any(passed)
}

/// The greatest number that divides both.
fn common(a: i64, b: i64) -> i64 {
    if b == 0 { a } else { common(b, a % b) }
}

/// A triangle, the least and the greatest of its corners' x, and those of y.
type Boxed = ([Place; 3], [i64; 2], [i64; 2]);

fn boxed(t: [Place; 3]) -> Boxed {
    let [x, y] = [0, 1].map(|s| [t[0][s].min(t[1][s]).min(t[2][s]), t[0][s].max(t[1][s]).max(t[2][s])]);
    (t, x, y)
}

/// 12: "two triangles share an interior point".
pub fn overlapping(triangles: &[[Place; 3]]) -> bool {
    let mut sorted: Vec<Boxed> = triangles.iter().copied().map(boxed).collect();
    sorted.sort_by_key(|(_, x, _)| x[0]);
    sorted.iter().enumerate().any(|(k, (one, x, y))| {
        let beside = sorted[k + 1..].iter().take_while(|other| other.1[0] < x[1]);
        beside.filter(|other| other.2[0] < y[1] && y[0] < other.2[1]).any(|other| share(*one, other.0))
    })
}

/// a, b and c: a x + b y + c is above 0 left of the line, and 0 on it.
type Line = [i128; 3];

/// X, Y and W, with W above 0: the point (X/W, Y/W).
type Point = [i128; 3];

/// A corner of what is left of a triangle, and the line of the side that begins there.
type Corner = (Point, Line);

// Coordinates are at most 2^20 either way. So a and b of a line are at most 2^21, c is at most 2^41; of a crossing X and Y are at most 2^63 and W at
// most 2^43, since it is always made of two lines that sides lie on, and never of points that were made before; and a product of both is below 2^86.

fn line(p: Place, q: Place) -> Line {
    [p[1] - q[1], q[0] - p[0], p[0] * q[1] - q[0] * p[1]].map(i128::from)
}

fn product(l: Line, p: Point) -> i128 {
    l[0] * p[0] + l[1] * p[1] + l[2] * p[2]
}

/// Where two lines cross that are not parallel.
fn crossing(l: Line, m: Line) -> Point {
    let point = [l[1] * m[2] - m[1] * l[2], l[2] * m[0] - m[2] * l[0], l[0] * m[1] - m[0] * l[1]];
    point.map(|part| part * point[2].signum())
}

fn corners([p, q, r]: [Place; 3]) -> [Corner; 3] {
    [(p, q), (q, r), (r, p)].map(|(from, to)| ([from[0], from[1], 1].map(i128::from), line(from, to)))
}

/// What is left of a shape that has an area after all right of the line is cut off; nothing if that has none: if no corner is strictly left of it.
fn cut(shape: &[Corner], by: Line) -> Option<Vec<Corner>> {
    if shape.iter().all(|corner| product(by, corner.0) <= 0) {
        return None;
    }
    let mut left = vec![];
    for (k, &(corner, side)) in shape.iter().enumerate() {
        let [begins, ends] = [corner, shape[(k + 1) % shape.len()].0].map(|end| product(by, end) >= 0);
        if begins {
            left.push((corner, side));
        }
        if begins != ends {
            // where the side goes on to the right of the line, what is left goes on along it
            left.push((crossing(side, by), if begins { by } else { side }));
        }
    }
    Some(left)
}

/// Whether what is left of one triangle, cut to the other by its three sides, has an area.
pub fn share(one: [Place; 3], [p, q, r]: [Place; 3]) -> bool {
    let first = cut(&corners(one), line(p, q));
    let second = first.and_then(|left| cut(&left, line(q, r)));
    second.and_then(|left| cut(&left, line(r, p))).is_some()
}
