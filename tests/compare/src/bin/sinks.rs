//! The Rust reader on sinks that fail, or take few bytes: whatever a sink does, it gets every byte once and in order, and a write takes what it
//! says and no more. The stored texts and random ones, beside plain calls on the same bytes. Usage: sinks COUNT [SEED].
//! A run in which one of the kinds below never came fails: it is to be longer.
use compare::reader::stored;
use rival::random::Dice;
use rival::texts::random_text;
use spoutbeetle::reader::{Reader, State, OUT, PIECE};
use spoutbeetle::Refusal;
use std::collections::BTreeMap;
use std::io::{ErrorKind, Write};

const KINDS: [&str; 9] = [
    "an empty write",
    "a write cut short by a failing sink",
    "a write that failed and took nothing",
    "a write of more than 512 bytes",
    "a sink that blocked",
    "a sink that took nothing",
    "an end that failed and was made again",
    "a flush that failed",
    "a write after the end",
];
type Seen = BTreeMap<&'static str, u64>;

/// A sink that takes up to `most` bytes a time, and fails once in `fails` times; never with 0.
struct Sink {
    dice: Dice,
    most: usize,
    fails: usize,
    got: Vec<u8>,
    blocked: u64,
    took_nothing: u64,
}

impl Write for Sink {
    fn write(&mut self, bytes: &[u8]) -> std::io::Result<usize> {
        if self.fails > 0 && self.dice.once_in(self.fails) {
            match self.dice.below(3) {
                0 => return Err(ErrorKind::Interrupted.into()),
                1 => {
                    self.blocked += 1;
                    return Err(ErrorKind::WouldBlock.into());
                }
                _ => {
                    self.took_nothing += 1;
                    return Ok(0);
                }
            }
        }
        let k = bytes.len().min(1 + self.dice.below(self.most));
        self.got.extend(&bytes[..k]);
        Ok(k)
    }

    fn flush(&mut self) -> std::io::Result<()> {
        Ok(())
    }
}

/// Plain calls on the bytes that were taken: all that they answered, and what is carried.
struct Plain {
    state: State,
    said: Vec<u8>,
}

impl Plain {
    fn begin() -> Plain {
        let (mut state, mut out) = (State::default(), vec![0; OUT]);
        let took = state.begin(&mut out).expect("begun");
        Plain { state, said: out[..took.written].to_vec() }
    }

    fn take(&mut self, mut rest: &[u8]) {
        let mut out = vec![0; OUT];
        while !rest.is_empty() {
            let took = self.state.take(rest, &mut out).expect("taken");
            self.said.extend(&out[..took.written]);
            rest = &rest[took.taken..];
        }
    }

    fn end(&mut self) {
        let mut out = vec![0; OUT];
        let took = self.state.end(&mut out).expect("ended");
        self.said.extend(&out[..took.written]);
    }

    /// The reader carries the same, and its sink has of the answers what it took so far.
    fn agrees(&self, reader: &Reader<Sink>) {
        assert!(*reader.state() == self.state, "the reader carries something else");
        assert!(self.said.starts_with(&reader.sink().got), "the sink has something else");
    }
}

/// One write of the next bytes. Answers how many were taken.
fn write(d: &mut Dice, reader: &mut Reader<Sink>, rest: &[u8], plain: &mut Plain, saw: &mut impl FnMut(bool, &'static str)) -> usize {
    let most = [1, 40, 2000][d.below(3)];
    let offered = &rest[..d.below(most + 1).min(rest.len())];
    saw(offered.is_empty(), "an empty write");
    saw(offered.len() > PIECE, "a write of more than 512 bytes");
    let written = reader.write(offered);
    let taken = *written.as_ref().unwrap_or(&0);
    plain.take(&offered[..taken]);
    plain.agrees(reader);
    match written {
        Ok(_) => assert!(taken <= PIECE && (taken > 0 || offered.is_empty()), "{taken} of {} bytes taken", offered.len()),
        Err(error) => assert!([ErrorKind::WouldBlock, ErrorKind::WriteZero].contains(&error.kind()), "{error}"),
    }
    saw(written_short(offered, taken), "a write cut short by a failing sink");
    saw(!offered.is_empty() && taken == 0, "a write that failed and took nothing");
    taken
}

fn written_short(offered: &[u8], taken: usize) -> bool {
    0 < taken && taken < offered.len().min(PIECE)
}

/// Announces the end until all went out. Answers how often that was.
fn end(reader: &mut Reader<Sink>, plain: &mut Plain) -> usize {
    let all_out = |_: &usize| {
        let sent = reader.end().is_ok();
        if reader.state().ended {
            plain.end();
        }
        plain.agrees(reader);
        sent
    };
    (1..).find(all_out).expect("a sink that takes all in the end")
}

/// The whole text through a reader on this sink: what the sink got.
fn talk(d: &mut Dice, text: &[u8], sink: Sink, seen: &mut Seen) -> Vec<u8> {
    let mut saw = |happened: bool, kind| *seen.entry(kind).or_default() += happened as u64;
    let (mut reader, mut plain, mut at) = (Reader::new(sink), Plain::begin(), 0);
    while at < text.len() {
        at += write(d, &mut reader, &text[at..], &mut plain, &mut saw);
        if d.once_in(20) {
            let flushed = reader.flush().is_ok();
            plain.agrees(&reader);
            assert!(!flushed || reader.sink().got == plain.said, "flushed, and not all went out");
            saw(!flushed, "a flush that failed");
        }
    }
    saw(end(&mut reader, &mut plain) > 1, "an end that failed and was made again");
    for late in [&b""[..], b"06\n", &[b'0'; PIECE + 1]] {
        let error = reader.write(late).expect_err("refused after the end");
        assert_eq!(error.downcast::<Refusal>().expect("a refusal"), Refusal::Piece);
        saw(true, "a write after the end");
    }
    reader.end().expect("announced again, there is nothing to do");
    plain.agrees(&reader);
    let sink = reader.into_inner();
    saw(sink.blocked > 0, "a sink that blocked");
    saw(sink.took_nothing > 0, "a sink that took nothing");
    sink.got
}

/// A sink that never takes anything is an error and no endless loop; nothing of the text is taken.
fn full_sink() {
    let mut reader = Reader::new(&mut [][..]);
    for failed in [reader.write(b"06\n").map(drop), reader.flush(), reader.end()] {
        assert_eq!(failed.expect_err("nothing went out").kind(), ErrorKind::WriteZero);
    }
    assert!(*reader.state() == State::default(), "something was taken");
}

/// A text on sinks of every kind: they get what the line program writes.
fn compare(name: &str, seed: u64, text: &[u8], answers: &[u8], seen: &mut Seen) {
    for (most, fails) in [(1, 0), (1, 3), (7, 2), (50, 4), (40_000, 0), (40_000, 2)] {
        let sink = Sink { dice: Dice::new(seed + 1), most, fails, got: vec![], blocked: 0, took_nothing: 0 };
        let got = talk(&mut Dice::new(seed), text, sink, seen);
        assert!(got == answers, "{name}: a sink that takes {most} bytes and fails once in {fails} times got something else");
    }
}

fn main() {
    let mut words = std::env::args().skip(1);
    let count: u64 = words.next().map_or(20, |w| w.parse().expect("a count"));
    let first: u64 = words.next().map_or(1, |w| w.parse().expect("a seed"));
    let (mut seen, stored) = (Seen::new(), stored());
    full_sink();
    stored.iter().for_each(|one| compare(&one.name, first, &one.text, &one.answers, &mut seen));
    for seed in first..first + count {
        let text = random_text(&mut Dice::new(seed));
        compare(&format!("seed {seed}"), seed, &text, &rival::lines::program(&text), &mut seen);
    }
    KINDS.iter().for_each(|kind| println!("{kind}: {} times", seen.get(kind).unwrap_or(&0)));
    if KINDS.iter().any(|kind| seen.get(kind).is_none_or(|&times| times == 0)) {
        println!("sinks: all agree, but one of these never came");
        std::process::exit(1);
    }
    println!("sinks: {} stored texts and {count} from seed {first}; every sink got every byte once", stored.len());
}
