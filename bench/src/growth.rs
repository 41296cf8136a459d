//! How the cost grows with the size: the same kind of file, from 1,000 points or keys to the
//! longest image.

use crate::cases::{self, Case, Lent, Unit};
use crate::inputs::{self, Input};
use crate::measure::{self, Times};

/// The cost of an act at several sizes.
pub struct Curve {
    pub act: &'static str,
    pub unit: Unit,
    pub sizes: Vec<(usize, Times)>,
}

impl Curve {
    /// How many times as much a unit costs at the largest size as at the smallest, by the library.
    pub fn growth(&self) -> f64 {
        let cost = |size: Option<&(usize, Times)>| size.map_or(0.0, |size| size.1.library.least);
        cost(self.sizes.last()) / cost(self.sizes.first())
    }
}

const SMALLEST: usize = 1_000;

/// The sizes, each twice the one before, up to the largest that fits.
fn sizes<T>(make: impl Fn(usize) -> Option<T>) -> Vec<(usize, T)> {
    let doubled = (0..).map(|rank| SMALLEST << rank);
    let mut made: Vec<_> = doubled
        .map_while(|size| Some((size, make(size)?)))
        .collect();
    // The largest that fits, to the smallest size.
    let (mut fits, mut too_large) = match made.last() {
        Some(&(size, _)) => (size, 2 * size),
        None => return made,
    };
    let mut largest = None;
    while too_large - fits > SMALLEST {
        let middle = (fits + too_large) / 2 / SMALLEST * SMALLEST;
        match make(middle) {
            Some(input) => (fits, largest) = (middle, Some((middle, input))),
            None => too_large = middle,
        }
    }
    made.extend(largest);
    made
}

/// The curves of check, write, merge and find.
pub fn curves(rounds: usize) -> Vec<Curve> {
    let files = sizes(inputs::picks_file);
    let pairs = sizes(inputs::picks_pair);
    let keys = sizes(inputs::keys_file);
    vec![
        curve(rounds, &files, cases::check),
        curve(rounds, &files, cases::write),
        curve(rounds, &pairs, cases::merge),
        curve(rounds, &keys, find_by_keys),
    ]
}

/// Finds all over the file, with the cost for each of its keys.
fn find_by_keys(input: &Input) -> Case<'_> {
    let case = cases::find(input, 10);
    Case {
        unit: Unit::Key,
        units: case.units * input.points,
        ..case
    }
}

fn curve<'a, T>(
    rounds: usize,
    inputs: &'a [(usize, T)],
    case: impl Fn(&'a T) -> Case<'a>,
) -> Curve {
    let cases: Vec<_> = inputs.iter().map(|(_, input)| case(input)).collect();
    let mut lent = Lent::enough_for(&cases);
    let sizes = inputs.iter().zip(&cases).map(|((size, _), case)| {
        case.compare();
        (*size, measure::times(case, &mut lent, rounds))
    });
    Curve {
        act: cases[0].act(),
        unit: cases[0].unit,
        sizes: sizes.collect(),
    }
}
