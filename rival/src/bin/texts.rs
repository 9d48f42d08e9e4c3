//! The line program against the rival's, on random text, good and bad. Usage: texts PROGRAM COUNT [SEED].
//! A run in which a refused 03 never gave one of 3 to 7 with a culprit above 0, an 03 never 0, 10, 11 or 12, a setting never 0, 13 or 15, or an 0a
//! never 0 with a red cut, 0 without one or 8, fails: it is to be longer.
use rival::random::Dice;
use rival::texts::random_text;
use std::io::Write;
use std::process::{Command, Stdio};

/// The numbers that a setting may be answered with: a value out of range cannot be written, and the mesh is lawful.
const SETTINGS: [u8; 3] = [0, 13, 15];

/// The numbers of an 03 that name nobody: what is lent always fits.
const BASES: [u8; 4] = [0, 10, 11, 12];

/// The number of an 0a, and the field that its answer ends with.
const REDS: [(u8, &str); 3] = [(0, "01"), (0, "00"), (8, "00")];

fn run(program: &str, text: &[u8]) -> Vec<u8> {
    let mut child = Command::new(program).stdin(Stdio::piped()).stdout(Stdio::piped()).spawn().expect("the line program");
    let mut to = child.stdin.take().expect("its input");
    let all = text.to_vec();
    let writer = std::thread::spawn(move || to.write_all(&all));
    let out = child.wait_with_output().expect("its output").stdout;
    writer.join().expect("a writer").expect("all written");
    out
}

/// The number of each refused 03 among the answers, if its culprit is above 0.
fn blamed(answers: &[u8]) -> Vec<u8> {
    let lines = answers.split(|&b| b == b'\n').filter(|line| line.starts_with(b"03") && !line.ends_with(b"0000"));
    lines.map(|line| line[3] - b'0').collect()
}

/// How many frames of this kind were answered with this number and an answer that ends so.
fn answered(answers: &[u8], kind: &str, number: u8, end: &str) -> usize {
    let start = format!("{kind}{number:02x}").into_bytes();
    answers.split(|&b| b == b'\n').filter(|line| line.starts_with(&start) && line.ends_with(end.as_bytes())).count()
}

fn main() {
    let mut words = std::env::args().skip(1);
    let program = words.next().expect("the program's path");
    let count: u64 = words.next().map_or(500, |w| w.parse().expect("a count"));
    let first: u64 = words.next().map_or(1, |w| w.parse().expect("a seed"));
    let mut lines = 0;
    let mut blames = vec![];
    let (mut settings, mut bases, mut reds) = ([0; SETTINGS.len()], [0; BASES.len()], [0; REDS.len()]);
    for seed in first..first + count {
        let text = random_text(&mut Dice::new(seed));
        let (ours, theirs) = (run(&program, &text), rival::lines::program(&text));
        if ours != theirs {
            println!("seed {seed}: they differ on\n{}\nprogram\n{}\nrival\n{}", String::from_utf8_lossy(&text), String::from_utf8_lossy(&ours), String::from_utf8_lossy(&theirs));
            std::process::exit(1);
        }
        lines += theirs.iter().filter(|&&b| b == b'\n').count();
        blames.extend(blamed(&theirs));
        settings.iter_mut().zip(SETTINGS).for_each(|(times, number)| *times += answered(&theirs, "08", number, ""));
        bases.iter_mut().zip(BASES).for_each(|(times, number)| *times += answered(&theirs, "03", number, ""));
        reds.iter_mut().zip(REDS).for_each(|(times, (number, field))| *times += answered(&theirs, "0a", number, field));
    }
    let times = [3, 4, 5, 6, 7].map(|k| blames.iter().filter(|&&number| number == k).count());
    println!("texts: refused 03s with a culprit above 0, by 3 to 7: {times:?}");
    println!("texts: 03s answered {BASES:?}: {bases:?}");
    println!("texts: settings answered {SETTINGS:?}: {settings:?}");
    println!("texts: 0as answered {REDS:?}: {reds:?}");
    if times.contains(&0) || bases.contains(&0) || settings.contains(&0) || reds.contains(&0) {
        println!("texts: {count} from seed {first} answered alike, but one of these never came");
        std::process::exit(1);
    }
    println!("texts: {count} from seed {first} answered alike, {lines} lines");
}
