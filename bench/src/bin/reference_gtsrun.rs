//! gtsrun by the reference implementation: reads model.gts in the working directory and the standard input.

use std::io::{self, Read, Write};

use bench::program::gtsrun;
use bench::reference::ENGINE;

fn main() -> io::Result<()> {
    let model = std::fs::read("model.gts").unwrap_or_default();
    let mut input = Vec::new();
    io::stdin().read_to_end(&mut input)?;
    io::stdout().write_all(gtsrun(&ENGINE, &model, &input).as_bytes())
}
