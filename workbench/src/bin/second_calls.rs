//! The call program: which call and on what in, the whole answer out.

use std::io::{self, Read, Write};

use workbench::report;

fn main() -> io::Result<()> {
    let mut input = Vec::new();
    io::stdin().read_to_end(&mut input)?;
    io::stdout().write_all(report::called(&input).as_bytes())
}
