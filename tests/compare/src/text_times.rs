//! How fast the reader takes text, beside the rival's.
use rival::pieces::Reader as Rival;
use rival::random::{grid, Dice};
use rival::texts::random_text;
use spoutbeetle::reader::{State, OUT, PIECE};
use std::time::{Duration, Instant};

/// Texts of one kind, each of which is taken from its beginning to its end.
type Texts = (&'static str, Vec<Vec<u8>>);

fn texts() -> [Texts; 3] {
    let malformed = [vec![b'0'; 254], vec![b'\n']].concat().repeat(4000);
    let (nodes, rows) = grid(21, 22, 8);
    let nodes = nodes.iter().zip(0u16..).map(|((x, y), k)| format!("01{x:08x}{y:08x}{:04x}{:04x}\n", k * 100, !k));
    let rows = rows.iter().map(|[p, q, r]| format!("02{p:04x}{q:04x}{r:04x}\n"));
    let base: String = nodes.chain(rows).chain(["03\n".to_string()]).collect();
    [
        ("lines of 254 digits that are no frames", vec![malformed]),
        ("bases of 506 nodes and 924 rows", vec![base.into_bytes(); 60]),
        ("random texts", (1..=100).map(|seed| random_text(&mut Dice::new(seed))).collect()),
    ]
}

/// The answers to a text, by the proved reader, in pieces of so many bytes.
fn proved(text: &[u8], piece: usize) -> Vec<u8> {
    let (mut state, mut out, mut said) = (State::default(), vec![0; OUT], vec![]);
    let begun = state.begin(&mut out).expect("begun");
    said.extend(&out[..begun.written]);
    for mut rest in text.chunks(piece) {
        while !rest.is_empty() {
            let took = state.take(rest, &mut out).expect("taken");
            said.extend(&out[..took.written]);
            rest = &rest[took.taken..];
        }
    }
    let ended = state.end(&mut out).expect("ended");
    said.extend(&out[..ended.written]);
    said
}

/// By the rival.
fn other(text: &[u8], piece: usize) -> Vec<u8> {
    let mut said = vec![];
    let mut reader = Rival::begin(&mut said);
    text.chunks(piece).for_each(|piece| assert_eq!(reader.take(piece, &mut said), 0));
    reader.end(&mut said);
    said
}

/// What one of the two takes for all texts.
fn time(by: fn(&[u8], usize) -> Vec<u8>, texts: &[Vec<u8>], piece: usize) -> Duration {
    let start = Instant::now();
    texts.iter().for_each(|text| drop(by(text, piece)));
    start.elapsed()
}

/// A table: megabytes of text in a second, the middle of eleven runs of each, one after the other by turns.
pub fn tell() {
    println!("| text | bytes | answers | pieces of | proved, MB/s | rival, MB/s | ratio of times |\n|---|---|---|---|---|---|---|");
    for (name, texts) in texts() {
        assert!(texts.iter().all(|text| proved(text, PIECE) == other(text, PIECE)), "{name}: answered alike");
        let bytes: usize = texts.iter().map(Vec::len).sum();
        let answers: usize = texts.iter().map(|text| other(text, PIECE).len()).sum();
        for piece in [PIECE, 1] {
            let mut runs: [Vec<f64>; 2] = Default::default();
            for _ in 0..11 {
                runs[0].push(time(proved, &texts, piece).as_secs_f64());
                runs[1].push(time(other, &texts, piece).as_secs_f64());
            }
            let [ours, theirs] = runs.map(|mut run| {
                run.sort_by(f64::total_cmp);
                run[run.len() / 2]
            });
            let speed = |seconds: f64| bytes as f64 / seconds / 1e6;
            println!("| {name} | {bytes} | {answers} | {piece} | {:.1} | {:.1} | {:.2} |", speed(ours), speed(theirs), ours / theirs);
        }
    }
}
