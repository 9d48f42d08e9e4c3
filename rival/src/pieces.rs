//! The reader of request W4: text that arrives in pieces, cut anywhere. It keeps the whole unfinished line.
use crate::lines::Desk;

/// The longest piece.
pub const PIECE: usize = 512;

/// The number of a refused piece.
pub const REFUSED: u32 = 17;

/// What is carried from one piece to the next.
pub struct Reader {
    pub desk: Desk,
    /// The unfinished line.
    pub line: Vec<u8>,
    pub ended: bool,
}

impl Reader {
    pub fn begin(out: &mut Vec<u8>) -> Reader {
        out.extend(b"mesh lines 1\n");
        Reader { desk: Desk::default(), line: vec![], ended: false }
    }

    /// The lines that the piece ends are answered. Says 0, or 17 of a piece that is too long or comes after the end.
    pub fn take(&mut self, piece: &[u8], out: &mut Vec<u8>) -> u32 {
        if piece.len() > PIECE || self.ended {
            return REFUSED;
        }
        let mut parts = piece.split(|&b| b == b'\n');
        let last = parts.next_back().expect("a part at least");
        for part in parts {
            self.line.extend(part);
            self.desk.line(&std::mem::take(&mut self.line), out);
        }
        self.line.extend(last);
        0
    }

    /// The end is announced: a line that waits for its end byte is malformed. Announced again, there is nothing to do.
    pub fn end(&mut self, out: &mut Vec<u8>) {
        if self.ended {
            return;
        }
        if !self.line.is_empty() {
            out.extend(b"ff\n");
        }
        out.extend(b"end\n");
        self.line.clear();
        self.ended = true;
    }
}
