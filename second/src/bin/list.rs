//! The second program as a program: a job line and a file on standard input,
//! the listing on standard output.

#![forbid(unsafe_code)]

use std::io::{self, Read, Write};

use second::listing::listing;

fn main() -> io::Result<()> {
    let mut input = Vec::new();
    io::stdin().read_to_end(&mut input)?;
    io::stdout().write_all(listing(&input).as_bytes())
}
