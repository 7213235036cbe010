//! The tick program: a sheet and a record in, the record one tick later out, by
//! value and in place.

use std::io::{self, Read, Write};

use workbench::report;

fn main() -> io::Result<()> {
    let mut input = Vec::new();
    io::stdin().read_to_end(&mut input)?;
    io::stdout().write_all(report::ticked(&input).as_bytes())
}
