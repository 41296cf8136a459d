//! Checks a TSM file, and says how many keys and points it has: `check FILE`. Exits with 1 where the file is refused.

use std::process::ExitCode;

fn main() -> Result<ExitCode, Box<dyn std::error::Error>> {
    let path = std::env::args().nth(1).ok_or("usage: check FILE")?;
    let image = std::fs::read(&path)?;
    match tsm::check(&image) {
        Ok(totals) => {
            println!("{path}: {} keys, {} points", totals.keys, totals.points);
            Ok(ExitCode::SUCCESS)
        }
        Err(error) => {
            println!("{path}: refused: {error} ({})", error.number());
            Ok(ExitCode::FAILURE)
        }
    }
}
