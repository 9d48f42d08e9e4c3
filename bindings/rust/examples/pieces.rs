//! Document 01's example as it may arrive: in one piece, and cut in other ways. However it is cut, the answers are the same, and so is what is
//! carried at the end. A piece that is too long, and any after the end, is refused and changes nothing.
use spoutbeetle::reader::{Reader, State, OUT, PIECE};
use spoutbeetle::Refusal;
use std::io::{self, Write};

const TEXT: &str = concat!(
    "01000000000000000000000000\n01000000080000000000000000\n01000000080000000800000000\n01000000000000000800000000\n",
    "02000100020000\n02000300000002\n03\n040000\n06\n",
);

/// A text that was taken: the answers, and what is carried at the end.
#[derive(PartialEq)]
struct Talk {
    said: Vec<u8>,
    state: State,
}

/// A call on a piece that is to be refused, and to change nothing. A `Reader` hands over no piece that is too long, so the call is made plainly.
fn refused(state: &State, piece: &[u8]) -> Refusal {
    let (mut after, mut out) = (state.clone(), vec![0; OUT]);
    let refusal = after.take(piece, &mut out).expect_err("a refusal");
    assert!(after == *state && out == [0; OUT], "a refusal changes nothing");
    refusal
}

/// The text in pieces of the two lengths by turns, with a refused piece before each; and how many pieces it had.
fn cut(first: usize, second: usize) -> io::Result<(Talk, usize)> {
    let mut reader = Reader::new(vec![]);
    let (mut rest, mut pieces) = (TEXT.as_bytes(), 0);
    while !rest.is_empty() {
        let next = if pieces % 2 == 0 { first } else { second };
        let (piece, after) = rest.split_at(next.min(rest.len()));
        refused(reader.state(), &[0; PIECE + 1]);
        reader.write_all(piece)?;
        (rest, pieces) = (after, pieces + 1);
    }
    reader.end()?;
    let state = reader.state().clone();
    Ok((Talk { said: reader.into_inner(), state }, pieces))
}

fn main() -> io::Result<()> {
    let mut reader = Reader::new(vec![]);
    reader.write_all(TEXT.as_bytes())?;
    println!("a piece of 513 bytes: {}", refused(reader.state(), &[0; PIECE + 1]));
    reader.end()?;
    println!("an empty piece after the end: {}", reader.write(b"").expect_err("a refusal"));
    let state = reader.state().clone();
    let whole = Talk { said: reader.into_inner(), state };
    print!("the text in one piece:\n{}", String::from_utf8_lossy(&whole.said));
    for (how, first, second) in [
        ("byte by byte", 1, 1),
        ("7 and 13 bytes by turns", 7, 13),
        ("cut once, inside a digit pair", 48, TEXT.len()),
        ("512 bytes at a time", PIECE, PIECE),
    ] {
        let (talk, pieces) = cut(first, second)?;
        assert!(talk == whole, "{how}");
        println!("{how}, {pieces} pieces: the same answers, the same reader");
    }
    Ok(())
}
