//! gtswide by the reference implementation: an old file on the standard input, in the new layout on the standard output.

use std::io::{self, Read, Write};

use bench::program::gtswide;
use bench::reference::ENGINE;

fn main() -> io::Result<()> {
    let mut input = Vec::new();
    io::stdin().read_to_end(&mut input)?;
    io::stdout().write_all(&gtswide(&ENGINE, &input))
}
