//! Instructions that an act executes, counted by callgrind. The program runs itself under it.

use std::env;
use std::fs;
use std::path::{Path, PathBuf};
use std::process::Command;

use tsm_harness::acts::Reference;
use tsm_harness::library::Library;

use crate::cases::{Case, Lent};

/// The argument under which the program only runs what is to be counted.
pub const ARGUMENT: &str = "--counted";

/// Clearing and copying by ordinary stores: callgrind would count a repeated string instruction once
/// for each byte.
const TUNABLES: &str =
    "glibc.cpu.x86_rep_stosb_threshold=1073741824:glibc.cpu.x86_rep_movsb_threshold=1073741824";

/// Instructions of all calls of a case.
#[derive(Clone, Copy)]
pub struct Instructions {
    pub library: f64,
    pub reference: f64,
}

/// Everything inside is counted, and each call apart.
#[inline(never)]
#[no_mangle]
pub fn tsm_bench_counted(work: &mut dyn FnMut()) {
    work();
}

/// Runs each case once by either implementation: what callgrind is to see.
pub fn run(cases: &[Case]) {
    let mut lent = Lent::enough_for(cases);
    for case in cases {
        tsm_bench_counted(&mut || case.run(&Library, &mut lent));
        tsm_bench_counted(&mut || case.run(&Reference, &mut lent));
    }
}

/// The instructions for each unit of the cases, or none where valgrind is not installed.
pub fn count(cases: &[Case]) -> Option<Vec<Instructions>> {
    let folder = env::temp_dir().join(format!("tsm_bench.{}", std::process::id()));
    fs::create_dir_all(&folder).expect("a temporary folder");
    let counts = counts_in(&folder, 2 * cases.len());
    fs::remove_dir_all(&folder).expect("the temporary folder goes");
    let counts = counts?;
    let of_case = |(case, pair): (&Case, &[f64])| {
        let units = case.units as f64;
        Instructions {
            library: pair[0] / units,
            reference: pair[1] / units,
        }
    };
    Some(cases.iter().zip(counts.chunks(2)).map(of_case).collect())
}

/// What callgrind counted in each call of [`tsm_bench_counted`].
fn counts_in(folder: &Path, calls: usize) -> Option<Vec<f64>> {
    let status = Command::new("valgrind")
        .args(["--quiet", "--tool=callgrind"])
        .arg("--toggle-collect=tsm_bench_counted")
        .arg("--dump-after=tsm_bench_counted")
        .arg(format!(
            "--callgrind-out-file={}",
            folder.join("counts").display()
        ))
        .arg(env::current_exe().expect("the program has a path"))
        .arg(ARGUMENT)
        .env("GLIBC_TUNABLES", TUNABLES)
        .status();
    if !status.is_ok_and(|status| status.success()) {
        return None;
    }
    let counts = (1..=calls).map(|call| total(&folder.join(format!("counts.{call}"))));
    Some(counts.collect())
}

/// The total of a callgrind file.
fn total(path: &PathBuf) -> f64 {
    let text = fs::read_to_string(path).unwrap_or_else(|error| panic!("{path:?}: {error}"));
    let total = text.lines().find_map(|line| line.strip_prefix("totals: "));
    let total = total.and_then(|total| total.trim().parse().ok());
    total.unwrap_or_else(|| panic!("{path:?} has a total"))
}
