//! The reference's version of the program, so that its tests have something to run.

use std::io;

fn main() -> io::Result<()> {
    tsm_reference::program::run(io::stdin().lock(), io::stdout().lock())
}
