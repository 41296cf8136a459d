//! Two implementations in turn: A B B A A B .., each time over the whole case.

use std::hint::black_box;

use tsm_harness::acts::Reference;
use tsm_harness::library::Library;

use crate::cases::{Case, Lent};
use crate::clock;

/// Nanoseconds that one measurement takes at least, which drowns the cost of asking for the time.
const LEAST_NANOSECONDS: f64 = 2e6;
/// Nanoseconds after which a case has been measured often enough.
const ENOUGH_NANOSECONDS: f64 = 1e9;

/// The least and the median of many runs.
#[derive(Clone, Copy)]
pub struct Spread {
    pub least: f64,
    pub median: f64,
}

impl Spread {
    fn of(mut runs: Vec<f64>) -> Spread {
        runs.sort_by(f64::total_cmp);
        Spread {
            least: runs[0],
            median: runs[runs.len() / 2],
        }
    }
}

/// Nanoseconds for each unit of a case.
#[derive(Clone, Copy)]
pub struct Times {
    pub library: Spread,
    pub reference: Spread,
}

impl Times {
    /// How many times as long the library takes, by the least and by the median.
    pub fn ratio(&self) -> Spread {
        Spread {
            least: self.library.least / self.reference.least,
            median: self.library.median / self.reference.median,
        }
    }
}

/// Runs the case by either implementation.
pub fn times(case: &Case, lent: &mut Lent, rounds: usize) -> Times {
    in_turn(rounds, case.units, |is_library| match is_library {
        true => black_box(case).run(&Library, lent),
        false => black_box(case).run(&Reference, lent),
    })
}

/// Runs two things of so many units in turn, the library's and the reference's, at least `rounds` times each. Each
/// measurement has as many passes as take at least [`LEAST_NANOSECONDS`], the same for both.
pub fn in_turn(rounds: usize, units: usize, mut run: impl FnMut(bool)) -> Times {
    run(true);
    let once = clock::spent(|| run(false));
    let passes = (LEAST_NANOSECONDS / once).ceil().clamp(1.0, 1e6) as usize;

    let (mut library, mut reference) = (Vec::new(), Vec::new());
    let mut all = 0.0;
    while library.len() < rounds || (all < ENOUGH_NANOSECONDS && library.len() < 10 * rounds) {
        let library_first = library.len() % 2 == 0;
        for is_library in [library_first, !library_first] {
            let spent = clock::spent(|| (0..passes).for_each(|_| run(is_library)));
            all += spent;
            let runs = match is_library {
                true => &mut library,
                false => &mut reference,
            };
            runs.push(spent / (passes * units) as f64);
        }
    }
    Times {
        library: Spread::of(library),
        reference: Spread::of(reference),
    }
}
