//! Case lines on standard input, answer lines on standard output, through the C interface in guarded
//! memory: the guard comes after each slice, or with `--before` before it. The first line that is no
//! case, or whose call does other than lent memory allows, ends it.

use std::env;
use std::io::{stdin, stdout, BufRead, Write};
use std::process::ExitCode;

use tsm_harness::data::shortened;
use tsm_harness::library::Guarded;
use tsm_harness::replay::Replay;

fn main() -> ExitCode {
    let words: Vec<String> = env::args().skip(1).collect();
    let guarded = match words.iter().map(String::as_str).collect::<Vec<_>>()[..] {
        [] => Guarded::After,
        ["--before"] => Guarded::Before,
        _ => return failure("replay [--before] <cases >answers"),
    };
    let mut replay = Replay::new(guarded);
    for (line, number) in stdin().lock().lines().zip(1..) {
        let line = match line {
            Ok(line) => line,
            Err(error) => return failure(&format!("standard input: {error}")),
        };
        match replay.answer(&line) {
            // Each answer is written at once, so that a call that does not come back can be found.
            Ok(answer) => {
                if let Err(error) = writeln!(stdout(), "{answer}") {
                    return failure(&format!("standard output: {error}"));
                }
            }
            Err(fault) => return failure(&format!("line {number}: {fault}: {}", shortened(&line))),
        }
    }
    ExitCode::SUCCESS
}

fn failure(why: &str) -> ExitCode {
    eprintln!("replay: {why}");
    ExitCode::FAILURE
}
