//! The calls of the reader, by their exported form and by the Rust wrapper behind one face; and the stored texts.
use spoutbeetle::ffi;
use spoutbeetle::reader::State;
use std::path::Path;

/// A call of the reader.
#[derive(Clone, Copy)]
pub enum Turn<'a> {
    Begin,
    Take(&'a [u8]),
    End,
}

impl Turn<'_> {
    pub fn name(&self) -> String {
        match self {
            Turn::Begin => "begin".to_string(),
            Turn::Take(piece) => format!("take of {} bytes", piece.len()),
            Turn::End => "end".to_string(),
        }
    }
}

/// What a call says; only a take takes.
#[derive(Clone, Copy, Debug, PartialEq, Eq)]
pub struct Said {
    pub number: u32,
    pub taken: usize,
    pub written: usize,
}

/// One of the two ways to make it.
pub type By = fn(Turn, &mut State, &mut [u8]) -> Said;

/// By the exported calls. What is only written, taken and written, holds sevens before.
pub fn exported(turn: Turn, s: &mut State, out: &mut [u8]) -> Said {
    let (mut taken, mut written) = (0, 7777);
    let (line, line_len, out, out_len) = (s.line.as_mut_ptr(), s.line.len(), out.as_mut_ptr(), out.len());
    let (nodes, nodes_len) = (s.nodes.as_mut_ptr(), s.nodes.len());
    let (rows, rows_len) = (s.rows.as_mut_ptr(), s.rows.len());
    let (scratch, scratch_len) = (s.scratch.as_mut_ptr(), s.scratch.len());
    let (used, ended, n, t, n0, accepted) = (&mut s.used, &mut s.ended, &mut s.n, &mut s.t, &mut s.n0, &mut s.accepted);
    // SAFETY: the pointers and lengths are those of live, distinct vectors, numbers and truth values.
    let number = unsafe {
        match turn {
            Turn::Begin => ffi::spoutbeetle_begin(
                line, line_len, nodes, nodes_len, rows, rows_len, scratch, scratch_len, out, out_len, used, ended, n, t, n0, accepted,
                &mut written,
            ),
            Turn::Take(piece) => {
                taken = 7777;
                ffi::spoutbeetle_take(
                    piece.as_ptr(), piece.len(), line, line_len, nodes, nodes_len, rows, rows_len, scratch, scratch_len, out, out_len, used,
                    ended, n, t, n0, accepted, &mut taken, &mut written,
                )
            }
            Turn::End => ffi::spoutbeetle_end(
                line, line_len, nodes, nodes_len, rows, rows_len, scratch, scratch_len, out, out_len, used, ended, n, t, n0, accepted,
                &mut written,
            ),
        }
    };
    Said { number, taken, written }
}

/// By the Rust wrapper, whose refusal says nothing of what was taken and written.
pub fn wrapped(turn: Turn, s: &mut State, out: &mut [u8]) -> Said {
    let said = match turn {
        Turn::Begin => s.begin(out),
        Turn::Take(piece) => s.take(piece, out),
        Turn::End => s.end(out),
    };
    said.map_or_else(|refusal| Said { number: refusal.number(), taken: 0, written: 0 }, |took| Said { number: 0, taken: took.taken, written: took.written })
}

/// A text for the line program, and the answers that are stored with it.
pub struct Stored {
    pub name: String,
    pub text: Vec<u8>,
    pub answers: Vec<u8>,
}

/// The texts of tests/lines.
pub fn stored() -> Vec<Stored> {
    let folder = Path::new(env!("CARGO_MANIFEST_DIR")).join("../lines");
    let mut names: Vec<_> = folder.read_dir().expect("tests/lines").map(|entry| entry.expect("an entry").path()).collect();
    names.retain(|path| path.extension().is_some_and(|end| end == "in"));
    names.sort();
    let read = |path: &Path| std::fs::read(path).expect("a stored text");
    let name = |path: &Path| path.file_stem().expect("a name").to_string_lossy().into();
    names.iter().map(|path| Stored { name: name(path), text: read(path), answers: read(&path.with_extension("out")) }).collect()
}
