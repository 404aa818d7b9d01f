//! The program fit by the oracle: a job record and a store on standard input, one line on standard output.

use std::io::{Read, Write};

fn main() -> std::io::Result<()> {
    let mut input = Vec::new();
    std::io::stdin().read_to_end(&mut input)?;
    std::io::stdout().write_all(oracle::fit(&input).as_bytes())
}
