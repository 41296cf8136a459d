//! The proved library beside the reference in ordinary Rust: time, instructions and stack of each
//! act, on the same inputs, in one run.
//!
//! ```text
//! tsm_bench                 measures, and prints the tables of docs/BENCHMARKS.md
//! tsm_bench --plot FILE     also writes the plot of cost by size
//! tsm_bench --only WORD     only the time of acts or inputs with that word in their name
//! tsm_bench --rows          only booleans sections, read a byte at a time and bit by bit
//! tsm_bench --quick         only sees that both answer the same and that the stack is kept
//! ```

mod cases;
mod clock;
mod growth;
mod inputs;
mod instructions;
mod measure;
mod plot;
mod report;
mod rows;
mod stack;

use std::collections::BTreeMap;
use std::env;
use std::fs;

use tsm_harness::acts::{Acts, Reference};
use tsm_harness::library::Library;

use cases::{Case, Lent};
use report::{Measured, Stack};

/// How often each case is measured by either implementation.
const ROUNDS: usize = 31;

fn main() {
    let arguments: Vec<_> = env::args().skip(1).collect();
    let arguments: Vec<_> = arguments.iter().map(String::as_str).collect();
    match arguments[..] {
        [] => print!("{}", measured(None)),
        ["--plot", file] => print!("{}", measured(Some(file))),
        ["--only", word] => print!("{}", only(word)),
        ["--rows"] => print!("{}", report::rows(&rows::times(ROUNDS))),
        ["--quick"] => quick(),
        [instructions::ARGUMENT] => instructions::run(&cases::all(&inputs::Inputs::new())),
        _ => panic!("usage: tsm_bench [--plot FILE | --only WORD | --rows | --quick]"),
    }
}

/// All tables.
fn measured(plot: Option<&str>) -> String {
    let commit = report::commit();
    let inputs = inputs::Inputs::new();
    let cases = cases::all(&inputs);
    let mut lent = Lent::enough_for(&cases);
    let stacks = compared(&cases, &mut lent);
    let times = cases.iter().map(|case| {
        eprintln!("{}, {}", case.act(), case.input);
        measure::times(case, &mut lent, ROUNDS)
    });
    let times: Vec<_> = times.collect();
    eprintln!("rows of holes");
    let rows = rows::times(ROUNDS);
    eprintln!("cost by size");
    let curves = growth::curves(ROUNDS / 2);
    if let Some(file) = plot {
        fs::write(file, plot::svg(&curves)).unwrap_or_else(|error| panic!("{file}: {error}"));
    }
    eprintln!("instructions");
    report::tables(&Measured {
        commit,
        cases: &cases,
        times,
        instructions: instructions::count(&cases),
        stacks,
        rows,
        curves,
    })
}

/// The time of some cases.
fn only(word: &str) -> String {
    let inputs = inputs::Inputs::new();
    let mut cases = cases::all(&inputs);
    cases.retain(|case| case.act().contains(word) || case.input.contains(word));
    let mut lent = Lent::enough_for(&cases);
    cases.iter().for_each(Case::compare);
    let times: Vec<_> = cases
        .iter()
        .map(|case| measure::times(case, &mut lent, ROUNDS))
        .collect();
    report::acts(&cases, &times)
}

/// Only the comparison.
fn quick() {
    let inputs = inputs::Inputs::new();
    let cases = cases::all(&inputs);
    let mut lent = Lent::enough_for(&cases);
    compared(&cases, &mut lent);
    println!(
        "bench: library and reference answer the same in {} cases",
        cases.len()
    );
    println!(
        "bench: {} booleans sections are read the same a byte at a time and bit by bit",
        rows::compare()
    );
}

/// Sees that both implementations answer the same in every case, and gives the stack that each act
/// uses at the most.
fn compared(cases: &[Case], lent: &mut Lent) -> BTreeMap<&'static str, Stack> {
    stack::tells_known_use();
    let mut stacks: BTreeMap<_, Stack> = BTreeMap::new();
    for case in cases {
        case.compare();
        let stack = stacks.entry(case.act()).or_default();
        stack.library = stack.library.max(stack_used(case, &Library, lent));
        stack.reference = stack.reference.max(stack_used(case, &Reference, lent));
    }
    for (act, stack) in &stacks {
        let limit = report::stack_limit(act);
        assert!(
            stack.library < limit,
            "{act} uses {} bytes of stack",
            stack.library
        );
    }
    stacks
}

fn stack_used(case: &Case, acts: &(impl Acts + Sync), lent: &mut Lent) -> usize {
    stack::used(|| case.run(acts, lent))
}
