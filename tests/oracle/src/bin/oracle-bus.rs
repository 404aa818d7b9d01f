//! The program bus by the oracle: a store and accesses on standard input, a byte for each read on standard output.

use std::io::{Read, Write};

fn main() -> std::io::Result<()> {
    let mut input = Vec::new();
    std::io::stdin().read_to_end(&mut input)?;
    std::io::stdout().write_all(&oracle::bus::exchange(&input))
}
