//! The line program by the rival: standard input to standard output.
use std::io::{Read, Write};

fn main() -> std::io::Result<()> {
    let mut input = vec![];
    std::io::stdin().read_to_end(&mut input)?;
    std::io::stdout().write_all(&rival::lines::program(&input))
}
