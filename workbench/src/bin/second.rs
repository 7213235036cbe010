//! The printing program: a horizon and a sheet in, the run's numbers out.

use std::io::{self, Read, Write};

use workbench::{report, INPUT_TAKEN};

fn main() -> io::Result<()> {
    let mut input = Vec::with_capacity(INPUT_TAKEN);
    io::stdin()
        .take(INPUT_TAKEN as u64)
        .read_to_end(&mut input)?;
    io::stdout().write_all(report::printed(&input).as_bytes())
}
