//! The reader: the line program's text arrives in pieces, cut anywhere, and its answers leave as bytes. They are those of the whole text,
//! however it was cut. [`Reader`] is written to like a file and hands the answers to a sink; [`State`] has the calls themselves.
use crate::{ffi, Refusal};
use std::io::{self, ErrorKind, Write};

/// The longest piece that a call takes, in bytes.
pub const PIECE: usize = 512;

/// The least buffer for an answer, in bytes.
pub const OUT: usize = 32_768;

/// All that is carried from piece to piece. It may be read, kept and compared; a call refuses with [`Refusal::Sizes`] what has another size than
/// [`State::default`] gave it, `used` above 255, `n` above 512 and `t` above 1,024. A refusal changes nothing.
#[derive(Clone, Debug, PartialEq, Eq)]
pub struct State {
    /// The first 255 bytes of the unfinished line, then zeros.
    pub line: Vec<u8>,
    /// Four numbers a node, as [`crate::Node::of`] shows them.
    pub nodes: Vec<i32>,
    pub rows: Vec<u32>,
    pub scratch: Vec<u32>,
    /// How many bytes of `line` the unfinished line has.
    pub used: usize,
    /// Whether the end was announced.
    pub ended: bool,
    pub n: usize,
    pub t: usize,
    /// The base's node count, once a base is accepted.
    pub n0: usize,
    pub accepted: bool,
}

/// What a call that is not refused says.
#[derive(Clone, Copy, Debug, PartialEq, Eq)]
pub struct Took {
    /// How many bytes of the piece are done: the rest is to be handed over again.
    pub taken: usize,
    /// How many bytes of the buffer were written, from its start on: one answer at most.
    pub written: usize,
}

/// As `begin` leaves it.
impl Default for State {
    fn default() -> State {
        State {
            line: vec![0; 255],
            nodes: vec![0; 2048],
            rows: vec![0; 3072],
            scratch: vec![0; 6144],
            used: 0,
            ended: false,
            n: 0,
            t: 0,
            n0: 0,
            accepted: false,
        }
    }
}

// SAFETY, in every call below: the pointers and lengths are those of live, distinct slices, numbers and truth values, which is all that a
// call asks.
impl State {
    /// Starts, whatever there was before: tables and line are all zero, and the opening line is written.
    pub fn begin(&mut self, out: &mut [u8]) -> Result<Took, Refusal> {
        let mut written = 0;
        let number = unsafe {
            ffi::spoutbeetle_begin(
                self.line.as_mut_ptr(), self.line.len(), self.nodes.as_mut_ptr(), self.nodes.len(), self.rows.as_mut_ptr(), self.rows.len(),
                self.scratch.as_mut_ptr(), self.scratch.len(), out.as_mut_ptr(), out.len(), &mut self.used, &mut self.ended, &mut self.n,
                &mut self.t, &mut self.n0, &mut self.accepted, &mut written,
            )
        };
        said(number, Took { taken: 0, written })
    }

    /// Takes a piece of 0 to 512 bytes, up to the first line that has an answer: of a piece that is not empty one byte at least, and all of
    /// it where nothing is written. A longer one, or any after the end, is refused with [`Refusal::Piece`].
    pub fn take(&mut self, piece: &[u8], out: &mut [u8]) -> Result<Took, Refusal> {
        let (mut taken, mut written) = (0, 0);
        let number = unsafe {
            ffi::spoutbeetle_take(
                piece.as_ptr(), piece.len(), self.line.as_mut_ptr(), self.line.len(), self.nodes.as_mut_ptr(), self.nodes.len(),
                self.rows.as_mut_ptr(), self.rows.len(), self.scratch.as_mut_ptr(), self.scratch.len(), out.as_mut_ptr(), out.len(),
                &mut self.used, &mut self.ended, &mut self.n, &mut self.t, &mut self.n0, &mut self.accepted, &mut taken, &mut written,
            )
        };
        said(number, Took { taken, written })
    }

    /// Announces the end: `ff` if a line waits for its end byte, then the closing line. Announced once more, nothing is written.
    pub fn end(&mut self, out: &mut [u8]) -> Result<Took, Refusal> {
        let mut written = 0;
        let number = unsafe {
            ffi::spoutbeetle_end(
                self.line.as_mut_ptr(), self.line.len(), self.nodes.as_ptr(), self.nodes.len(), self.rows.as_ptr(), self.rows.len(),
                self.scratch.as_ptr(), self.scratch.len(), out.as_mut_ptr(), out.len(), &mut self.used, &mut self.ended, &mut self.n,
                &mut self.t, &mut self.n0, &mut self.accepted, &mut written,
            )
        };
        said(number, Took { taken: 0, written })
    }
}

fn said(number: u32, took: Took) -> Result<Took, Refusal> {
    Refusal::of(number, 0).map_or(Ok(took), Err)
}

/// The text is written to it, in pieces of any length, and the answers go to the sink, each before the next is made. No byte of either is lost
/// or said twice: an answer that the sink does not take is kept, and goes out before anything else is taken.
///
/// ```no_run
/// # use spoutbeetle::reader::Reader;
/// # fn main() -> std::io::Result<()> {
/// let mut reader = Reader::new(std::io::stdout());
/// std::io::copy(&mut std::io::stdin(), &mut reader)?;
/// reader.end()
/// # }
/// ```
#[derive(Debug)]
pub struct Reader<W: Write> {
    state: State,
    out: Vec<u8>,
    /// What waits for the sink: the bytes of `out` from `sent` up to `written`.
    sent: usize,
    written: usize,
    sink: W,
}

impl<W: Write> Reader<W> {
    /// The opening line goes out with the first write, flush or end.
    pub fn new(sink: W) -> Reader<W> {
        let (mut state, mut out) = (State::default(), vec![0; OUT]);
        let written = state.begin(&mut out).expect("all is lent in its size").written;
        Reader { state, out, sent: 0, written, sink }
    }

    /// Announces the end, and hands the last lines to the sink. After an error what waits is kept, so it may be called again; once all went
    /// out it does nothing more.
    pub fn end(&mut self) -> io::Result<()> {
        self.send()?;
        let took = self.state.end(&mut self.out).map_err(refused)?;
        self.wrote(took);
        self.send()
    }

    /// What is carried.
    pub fn state(&self) -> &State {
        &self.state
    }

    pub fn sink(&self) -> &W {
        &self.sink
    }

    /// The sink. What waits for it is dropped: flush before, or end.
    pub fn into_inner(self) -> W {
        self.sink
    }

    fn wrote(&mut self, took: Took) {
        (self.sent, self.written) = (0, took.written);
    }

    /// Hands what waits to the sink.
    fn send(&mut self) -> io::Result<()> {
        while self.sent < self.written {
            match self.sink.write(&self.out[self.sent..self.written]) {
                Ok(0) => return Err(ErrorKind::WriteZero.into()),
                Ok(k) => self.sent += k,
                Err(error) if error.kind() == ErrorKind::Interrupted => {}
                Err(error) => return Err(error),
            }
        }
        Ok(())
    }
}

/// The input side.
impl<W: Write> Write for Reader<W> {
    /// Takes at most 512 bytes, and says how many; with an error it has taken none. If the sink fails while it takes them, it says how many it
    /// took by then, and the next call meets the sink again. After the end every write is an error that carries [`Refusal::Piece`].
    fn write(&mut self, text: &[u8]) -> io::Result<usize> {
        if self.state.ended {
            return Err(refused(Refusal::Piece));
        }
        self.send()?;
        let piece = &text[..text.len().min(PIECE)];
        let mut done = 0;
        while done < piece.len() {
            let took = self.state.take(&piece[done..], &mut self.out).map_err(refused)?;
            done += took.taken;
            self.wrote(took);
            if self.send().is_err() {
                break;
            }
        }
        Ok(done)
    }

    /// Hands what waits to the sink, and flushes it.
    fn flush(&mut self) -> io::Result<()> {
        self.send()?;
        self.sink.flush()
    }
}

fn refused(refusal: Refusal) -> io::Error {
    io::Error::new(ErrorKind::BrokenPipe, refusal)
}
