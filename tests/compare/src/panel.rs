//! A front panel that hands a text to the reader piece by piece, and looks at all that every call takes, writes and leaves.
use crate::reader::{exported, wrapped, By, Said, Turn};
use spoutbeetle::reader::{State, OUT, PIECE};
use std::collections::BTreeMap;
use std::fmt::Arguments;

/// The bytes of the longest answer that there is: a `07` that shows 512 nodes and 1,024 triangles.
pub const LONGEST: usize = 512 * 27 + 1024 * 15;

/// How often each kind of thing happened.
pub type Seen = BTreeMap<&'static str, u64>;

/// What a front panel has: all answers, and what is carried.
#[derive(Clone, PartialEq)]
pub struct Had {
    pub said: Vec<u8>,
    pub state: State,
}

pub struct Panel<'a> {
    name: &'a str,
    text: &'a [u8],
    /// How many bytes of the text were taken, and where the unfinished line begins.
    at: usize,
    line_at: usize,
    pub had: Had,
    out: Vec<u8>,
    calls: u64,
    seen: &'a mut Seen,
}

/// Lent before the first call: nothing of it may matter.
fn garbage() -> State {
    let fresh = State::default();
    State {
        line: vec![b'0'; fresh.line.len()],
        nodes: vec![-7; fresh.nodes.len()],
        rows: vec![7; fresh.rows.len()],
        scratch: vec![7; fresh.scratch.len()],
        used: 7777,
        ended: true,
        n: 7777,
        t: 7777,
        n0: 7777,
        accepted: true,
    }
}

/// Whether all are this byte.
fn all_are(bytes: &[u8], byte: u8) -> bool {
    bytes.iter().fold(0, |differ, b| differ | (b ^ byte)) == 0
}

impl<'a> Panel<'a> {
    /// The reader begins, to take this text.
    pub fn begin(name: &'a str, text: &'a [u8], seen: &'a mut Seen) -> Panel<'a> {
        let mut panel = Panel { name, text, at: 0, line_at: 0, had: Had { said: vec![], state: garbage() }, out: vec![0; OUT], calls: 0, seen };
        panel.call(Turn::Begin);
        let fresh = panel.had.state == State::default() && panel.had.said == b"mesh lines 1\n";
        panel.must(fresh, format_args!("a begin leaves another state or writes another line"));
        panel
    }

    /// Fails unless it holds, and says where.
    fn must(&self, holds: bool, otherwise: Arguments) {
        assert!(holds, "{}, byte {} of {}: {otherwise}", self.name, self.at, self.text.len());
    }

    /// A call on a buffer that holds another garbage each time, and holds it still behind what was written. Its answer is kept.
    fn call(&mut self, turn: Turn) -> Said {
        self.calls += 1;
        let filling = self.calls as u8;
        self.out.fill(filling);
        if self.calls % 61 == 0 {
            self.made_alike(turn);
        }
        let said = exported(turn, &mut self.had.state, &mut self.out);
        self.must(said.number == 0 && said.written <= OUT, format_args!("{} says {said:?}", turn.name()));
        self.must(all_are(&self.out[said.written..], filling), format_args!("something is written behind {} bytes", said.written));
        self.had.said.extend(&self.out[..said.written]);
        self.saw(said.written == LONGEST, "the longest answer");
        said
    }

    /// What the call says, leaves and writes, made on copies by either form, which must agree.
    fn made_alike(&mut self, turn: Turn) -> (Said, State, Vec<u8>) {
        let made = |by: By| {
            let (mut state, mut out) = (self.had.state.clone(), self.out.clone());
            (by(turn, &mut state, &mut out), state, out)
        };
        let (ours, wrapper) = (made(exported), made(wrapped));
        self.must(ours == wrapper, format_args!("{} says {:?}, by the wrapper {:?}", turn.name(), ours.0, wrapper.0));
        ours
    }

    fn saw(&mut self, happened: bool, kind: &'static str) {
        if happened {
            *self.seen.entry(kind).or_default() += 1;
        }
    }

    /// What kind of place the next piece begins at.
    fn look_at_cut(&mut self) {
        let (at, column) = (self.at, self.at - self.line_at);
        let [before, after] = [at.checked_sub(1), Some(at)].map(|k| k.and_then(|k| self.text.get(k)).copied());
        let digits = [before, after].iter().all(|b| b.is_some_and(|b| b.is_ascii_hexdigit()));
        self.saw(digits && column % 2 == 1, "cut inside a digit pair");
        self.saw(digits && column % 2 == 0, "cut between digit pairs");
        self.saw(column > 0 && after == Some(b'\n'), "cut before an end byte");
        self.saw(before == Some(b'\n'), "cut after an end byte");
        self.saw(column == 254, "cut after the 254th byte of a line");
        self.saw(column > 254, "cut further on in a line");
    }

    /// Hands over the next bytes of the text as a piece, and what is left of it, until all is taken.
    pub fn hand_over(&mut self, length: usize) {
        self.look_at_cut();
        self.saw(length == 0, "an empty piece");
        self.saw(length == 1, "a piece of one byte");
        self.saw(length == PIECE, "a piece of 512 bytes");
        let (end, said_before) = (self.at + length, self.had.said.len());
        let empty_leaves = (length == 0).then(|| self.had.clone());
        let mut again = false;
        while {
            let rest = &self.text[self.at..end];
            let said = self.call(Turn::Take(rest));
            self.took(rest, said);
            self.saw(again && said.written > 0, "a piece with more than one answer");
            again = true;
            self.at < end
        } {}
        self.saw(length > 0 && self.had.said.len() == said_before, "a piece without an answer");
        self.must(empty_leaves.is_none_or(|before| before == self.had), format_args!("an empty piece changed something"));
    }

    /// One byte at least, all where nothing is written, and up to an end byte otherwise. The line buffer has the unfinished line, told from the
    /// text alone.
    fn took(&mut self, rest: &[u8], said: Said) {
        let some = said.taken <= rest.len() && (said.taken > 0 || rest.is_empty());
        self.must(some, format_args!("{said:?} of {} bytes", rest.len()));
        let taken = &rest[..said.taken];
        let enough = if said.written == 0 { taken.len() == rest.len() } else { taken.ends_with(b"\n") };
        self.must(enough, format_args!("{said:?} of {} bytes", rest.len()));
        if let Some(last) = taken.iter().rposition(|&b| b == b'\n') {
            self.line_at = self.at + last + 1;
        }
        self.at += said.taken;
        let unfinished = &self.text[self.line_at..self.at];
        let (kept, state) = (&unfinished[..unfinished.len().min(255)], &self.had.state);
        let used = state.used == kept.len() && state.line.len() == 255 && !state.ended;
        self.must(used, format_args!("{} bytes used for {} of the line", state.used, unfinished.len()));
        let held = state.line[..kept.len()] == *kept && all_are(&state.line[kept.len()..], 0);
        self.must(held, format_args!("the line buffer has another text than the unfinished line"));
    }

    /// A piece that must be refused as 17, and change nothing.
    pub fn refused(&mut self, piece: &[u8]) {
        let (ended, waits) = (self.had.state.ended, self.had.state.used > 0);
        self.saw(ended && piece.is_empty(), "an empty piece refused after the end");
        self.saw(ended && (1..=PIECE).contains(&piece.len()), "a piece refused after the end");
        self.saw(ended && piece.len() > PIECE, "a long piece refused after the end");
        self.saw(!ended && !waits, "a long piece refused between lines");
        self.saw(!ended && waits, "a long piece refused while a line waits");
        let (said, state, out) = self.made_alike(Turn::Take(piece));
        let (bytes, refusal) = (piece.len(), Said { number: 17, taken: 0, written: 0 });
        self.must(said == refusal, format_args!("a piece of {bytes} bytes is answered {said:?}, ended: {ended}"));
        self.must(state == self.had.state && out == self.out, format_args!("a refused piece of {bytes} bytes changed something"));
    }

    /// Announces the end, and then once more, which must change nothing.
    pub fn end(&mut self) {
        self.must(self.at == self.text.len(), format_args!("the end comes early"));
        let waits = self.had.state.used > 0;
        self.saw(waits, "a last line without its end byte");
        self.call(Turn::End);
        let ended = self.had.clone();
        self.call(Turn::End);
        self.must(ended == self.had, format_args!("announced again, something changed"));
    }
}
