//! Draws the mesh that `07` shows: `01` and `02` lines on standard input, an SVG on standard output. Other lines are passed over.
//! Every triangle has its row number, a dot at its newest corner and a dashed line along its refinement edge; nodes have their numbers,
//! those from the first word of the command line upward (the base's node count) in another colour. A number stands in the widest gap
//! between the edges of its node, with a white edge, so that no line runs through it.
use std::f64::consts::TAU;
use std::fmt::Write;
use std::io::Read;

const SIZE: f64 = 420.0;
const MARGIN: f64 = 34.0;
const NUMBER_OFF: f64 = 14.0;

type Point = (f64, f64);

fn number(text: &str) -> i64 {
    i64::from_str_radix(text, 16).expect("hexadecimal digits")
}

fn main() {
    let base: usize = std::env::args().nth(1).map_or(usize::MAX, |w| w.parse().expect("a node count"));
    let mut text = String::new();
    std::io::stdin().read_to_string(&mut text).expect("text");
    let mut nodes: Vec<Point> = vec![];
    let mut rows: Vec<[usize; 3]> = vec![];
    for line in text.lines() {
        if line.len() == 26 && line.starts_with("01") {
            nodes.push((number(&line[2..10]) as u32 as i32 as f64, number(&line[10..18]) as u32 as i32 as f64));
        } else if line.len() == 14 && line.starts_with("02") {
            rows.push([0, 1, 2].map(|s| number(&line[2 + 4 * s..6 + 4 * s]) as usize));
        }
    }
    print!("{}", drawing(&nodes, &rows, base));
}

/// The point at a part of the way from `a` to `b`, but no nearer to `a` than `least`, if that is not past half the way.
fn along(a: Point, b: Point, part: f64, least: f64) -> Point {
    let far = (b.0 - a.0).hypot(b.1 - a.1);
    let k = part.max((least / far).min(0.5));
    (a.0 + (b.0 - a.0) * k, a.1 + (b.1 - a.1) * k)
}

/// Where the number of node `k` stands: in the middle of the widest gap between its edges.
fn number_place(points: &[Point], rows: &[[usize; 3]], k: usize) -> Point {
    let ends = rows.iter().filter(|r| r.contains(&k)).flatten().filter(|&&e| e != k);
    let mut ways: Vec<f64> = ends.map(|&e| (points[e].1 - points[k].1).atan2(points[e].0 - points[k].0)).collect();
    ways.sort_by(f64::total_cmp);
    ways.push(ways.first().map_or(0.0, |w| w + TAU));
    let gap = ways.windows(2).max_by(|a, b| (a[1] - a[0]).total_cmp(&(b[1] - b[0] + 1e-9)));
    let way = gap.map_or(0.0, |g| (g[0] + g[1]) / 2.0);
    (points[k].0 + NUMBER_OFF * way.cos(), points[k].1 + NUMBER_OFF * way.sin())
}

fn written(s: &mut String, at: Point, ink: &str, weight: &str, edge: &str, k: usize) {
    let (x, y) = (at.0, at.1 + 4.5);
    let around = format!("stroke=\"{edge}\" stroke-width=\"4\" stroke-linejoin=\"round\" paint-order=\"stroke\"");
    writeln!(s, "<text x=\"{x:.1}\" y=\"{y:.1}\" text-anchor=\"middle\" font-weight=\"{weight}\" fill=\"{ink}\" {around}>{k}</text>").unwrap();
}

fn drawing(nodes: &[Point], rows: &[[usize; 3]], base: usize) -> String {
    let span = |f: fn(&Point) -> f64| {
        let low = nodes.iter().map(f).fold(f64::MAX, f64::min);
        let high = nodes.iter().map(f).fold(f64::MIN, f64::max);
        (low, high)
    };
    let ((left, right), (bottom, top)) = (span(|p| p.0), span(|p| p.1));
    let scale = SIZE / (right - left).max(top - bottom).max(1.0);
    let points: Vec<Point> = nodes.iter().map(|p| (MARGIN + (p.0 - left) * scale, MARGIN + (top - p.1) * scale)).collect();
    let (wide, high) = (2.0 * MARGIN + (right - left) * scale, 2.0 * MARGIN + (top - bottom) * scale);
    let mut s = "<svg xmlns=\"http://www.w3.org/2000/svg\" ".to_string();
    writeln!(s, "width=\"{wide:.0}\" height=\"{high:.0}\" font-family=\"sans-serif\" font-size=\"13\">").unwrap();
    s += "<rect width=\"100%\" height=\"100%\" fill=\"white\"/>\n";
    for r in rows {
        let [p, q, t] = r.map(|k| points[k]);
        let path = format!("M{:.1} {:.1}L{:.1} {:.1}L{:.1} {:.1}Z", p.0, p.1, q.0, q.1, t.0, t.1);
        writeln!(s, "<path d=\"{path}\" fill=\"#f3f6fb\" stroke=\"#345\" stroke-width=\"1.2\"/>").unwrap();
    }
    for (i, r) in rows.iter().enumerate() {
        let [p, q, t] = r.map(|k| points[k]);
        let middle = ((p.0 + q.0 + t.0) / 3.0, (p.1 + q.1 + t.1) / 3.0);
        let (n, c, d) = (along(p, middle, 0.22, 27.0), along(q, middle, 0.1, 0.0), along(t, middle, 0.1, 0.0));
        let dashes = format!("M{:.1} {:.1}L{:.1} {:.1}", c.0, c.1, d.0, d.1);
        writeln!(s, "<path d=\"{dashes}\" stroke=\"#c33\" stroke-width=\"1.4\" stroke-dasharray=\"4 3\"/>").unwrap();
        writeln!(s, "<circle cx=\"{:.1}\" cy=\"{:.1}\" r=\"2.6\" fill=\"#c33\"/>", n.0, n.1).unwrap();
        written(&mut s, middle, "#567", "normal", "#f3f6fb", i);
    }
    for (k, &(x, y)) in points.iter().enumerate() {
        let ink = if k < base { "#123" } else { "#07824f" };
        writeln!(s, "<circle cx=\"{x:.1}\" cy=\"{y:.1}\" r=\"3.4\" fill=\"{ink}\"/>").unwrap();
        written(&mut s, number_place(&points, rows, k), ink, "bold", "white", k);
    }
    s + "</svg>\n"
}
