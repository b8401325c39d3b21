//! Answers the messages on standard input, then lists the contexts.

use std::io::{self, BufWriter};

fn main() -> io::Result<()> {
    reference::listing::listing(io::stdin().lock(), BufWriter::new(io::stdout().lock()))
}
