//! Questions about points, by the rival. On standard input a line each: `node` x y dx dy, `row` p q r, `point` x y, in decimal. On standard output, for
//! each point, the number and the correction told.
use rival::calls::{correction_at, Tables};
use std::io::Read;

fn main() {
    let mut text = String::new();
    std::io::stdin().read_to_string(&mut text).expect("text");
    let lines = |kind: &str| -> Vec<Vec<i32>> {
        let numbers = |line: &str| line.split_whitespace().map(|w| w.parse().expect("a number")).collect();
        text.lines().filter_map(|line| line.strip_prefix(kind)).map(numbers).collect()
    };
    let (nodes, rows) = (lines("node"), lines("row"));
    let (n, t) = (nodes.len(), rows.len());
    let rows = rows.concat().into_iter().map(|k| k as u32).collect();
    let mut g = Tables { nodes: nodes.concat(), rows, scratch: vec![0; 4 * (n + t)], n, t };
    for point in lines("point") {
        let told = correction_at(&mut g, 0, [point[0], point[1]]);
        println!("{} {} {}", told.number, told.dx, told.dy);
    }
}
