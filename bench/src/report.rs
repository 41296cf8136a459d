//! The tables, in Markdown.

use std::collections::BTreeMap;
use std::fmt::Write;
use std::fs;
use std::process::Command;

use crate::cases::{Case, Unit};
use crate::growth::Curve;
use crate::instructions::Instructions;
use crate::measure::{Spread, Times};

/// Bytes of stack that an act uses.
#[derive(Default)]
pub struct Stack {
    pub library: usize,
    pub reference: usize,
}

/// Bytes of stack that an act of the library may use, as include/tsm.h says.
pub fn stack_limit(act: &str) -> usize {
    let kibibytes = match act {
        "find" => 2,
        "write" => 28,
        "merge" => 68,
        _ => 20,
    };
    kibibytes * 1024
}

/// A figure of tsm1: what it is, the case of ours that is nearest, and nanoseconds for each unit.
struct Peer(&'static str, &'static str, &'static str, f64);

/// The least of tsm1's processor times over both of its runs.
#[rustfmt::skip]
const PEERS: [Peer; 14] = [
    Peer("decode, jittered integers", "read_block", "block_ints_jitter", 14.4),
    Peer("decode, regular integers", "read_block", "block_ints_regular", 8.4),
    Peer("decode, regular booleans", "read_block", "block_bools_regular", 4.1),
    Peer("decode, lossy booleans", "read_block", "block_bools_lossy", 9.3),
    Peer("encode, jittered integers", "write", "block_ints_jitter", 37.6),
    Peer("encode, regular integers", "write", "block_ints_regular", 11.2),
    Peer("encode, regular booleans", "write", "block_bools_regular", 8.2),
    Peer("encode, lossy booleans", "write", "block_bools_lossy", 15.5),
    Peer("read whole file, checksums", "check", "read_mixed", 6.2),
    Peer("read whole file of integers", "check", "read_ints", 15.1),
    Peer("read whole file of booleans", "check", "read_bools", 3.8),
    Peer("merge, overlapping pair", "merge", "over", 29.7),
    Peer("merge, newer after older", "merge", "tail", 1.1),
    Peer("find among 80 keys", "find", "read_mixed", 202.0),
];

/// What was measured, in the order of the cases.
pub struct Measured<'a> {
    pub commit: String,
    pub cases: &'a [Case<'a>],
    pub times: Vec<Times>,
    /// None where there is no valgrind.
    pub instructions: Option<Vec<Instructions>>,
    pub stacks: BTreeMap<&'static str, Stack>,
    /// Of a booleans section, by its number of values.
    pub rows: Vec<(usize, Times)>,
    pub curves: Vec<Curve>,
}

/// All tables of one run.
pub fn tables(measured: &Measured) -> String {
    let mut out = String::new();
    write_tables(&mut out, measured).expect("a string grows");
    out
}

fn write_tables(out: &mut String, measured: &Measured) -> std::fmt::Result {
    let Measured {
        commit,
        cases,
        times,
        instructions,
        stacks,
        rows,
        curves,
    } = measured;
    let (processor, compiler) = (processor(), compiler());
    writeln!(out, "Commit {commit}; {processor}; {compiler}.\n")?;

    writeln!(out, "### Each act\n")?;
    write_acts(out, cases, times, instructions.as_deref())?;

    writeln!(out, "### Beside tsm1\n")?;
    writeln!(
        out,
        "| tsm1 | ns | half | here | library | reference | reached |"
    )?;
    writeln!(out, "|---|---|---|---|---|---|---|")?;
    for peer in &PEERS {
        write_peer(out, peer, cases, times)?;
    }

    writeln!(out, "\n### Stack\n")?;
    writeln!(out, "| act | library, bytes | limit | reference, bytes |")?;
    writeln!(out, "|---|---|---|---|")?;
    for (act, stack) in stacks {
        let limit = stack_limit(act);
        writeln!(
            out,
            "| {act} | {} | {limit} | {} |",
            stack.library, stack.reference
        )?;
    }

    writeln!(out, "\n### Rows of holes\n")?;
    write_rows(out, rows)?;

    writeln!(out, "\n### Cost by size\n")?;
    curves.iter().try_for_each(|curve| write_curve(out, curve))
}

/// The table of booleans sections alone.
pub fn rows(rows: &[(usize, Times)]) -> String {
    let mut out = String::new();
    write_rows(&mut out, rows).expect("a string grows");
    out
}

fn write_rows(out: &mut String, rows: &[(usize, Times)]) -> std::fmt::Result {
    writeln!(
        out,
        "| values | a byte at a time, ns a section | bit by bit, ns a section | ratio |"
    )?;
    writeln!(out, "|---|---|---|---|")?;
    for (length, times) in rows {
        let section = |spread: Spread| {
            let [least, median] = [spread.least, spread.median].map(|each| each * *length as f64);
            format!("{least:.1} ({median:.1})")
        };
        let (bytes, bits) = (section(times.library), section(times.reference));
        let Spread { least, median } = times.ratio();
        writeln!(
            out,
            "| {length} | {bytes} | {bits} | **{least:.2}** ({median:.2}) |"
        )?;
    }
    Ok(())
}

/// The table of the acts alone, without instructions.
pub fn acts(cases: &[Case], times: &[Times]) -> String {
    let mut out = String::new();
    write_acts(&mut out, cases, times, None).expect("a string grows");
    out
}

fn write_acts(
    out: &mut String,
    cases: &[Case],
    times: &[Times],
    instructions: Option<&[Instructions]>,
) -> std::fmt::Result {
    writeln!(
        out,
        "| act | input | ns each | library | reference | ratio | library MB/s | reference MB/s | instructions: library | reference | ratio |"
    )?;
    writeln!(out, "|---|---|---|---|---|---|---|---|---|---|---|")?;
    for (rank, (case, times)) in cases.iter().zip(times).enumerate() {
        write_case(out, case, times, instructions.map(|counts| counts[rank]))?;
    }
    writeln!(out)?;
    write_slower(out, cases, times)
}

/// Says in which acts the library is slower, and how much in the best and the worst case.
fn write_slower(out: &mut String, cases: &[Case], times: &[Times]) -> std::fmt::Result {
    let mut slower: BTreeMap<_, Vec<f64>> = BTreeMap::new();
    for (case, times) in cases.iter().zip(times) {
        let ratio = times.ratio().least;
        if ratio > 1.0 {
            slower.entry(case.act()).or_default().push(ratio);
        }
    }
    if slower.is_empty() {
        return writeln!(
            out,
            "No act is slower than ordinary Rust on any of these inputs.\n"
        );
    }
    let of_act = |(act, ratios): (&&str, &Vec<f64>)| {
        let all = cases.iter().filter(|case| case.act() == *act).count();
        let least = ratios.iter().copied().fold(f64::INFINITY, f64::min);
        let greatest = ratios.iter().copied().fold(0.0, f64::max);
        let count = ratios.len();
        format!("{act} in {count} of {all} cases ({least:.2} to {greatest:.2})")
    };
    let acts: Vec<_> = slower.iter().map(of_act).collect();
    writeln!(out, "Slower than ordinary Rust: {}.\n", acts.join("; "))
}

fn write_case(
    out: &mut String,
    case: &Case,
    times: &Times,
    instructions: Option<Instructions>,
) -> std::fmt::Result {
    let decimals = decimals(case.unit);
    let cell =
        |spread: Spread| format!("{:.decimals$} ({:.decimals$})", spread.least, spread.median);
    let ratio = times.ratio();
    let speed = |nanoseconds: f64| 1e3 * case.bytes as f64 / (nanoseconds * case.units as f64);
    write!(
        out,
        "| {} | {} | {} | {} | {} | **{:.2}** ({:.2}) | {:.0} | {:.0} |",
        case.act(),
        case.input,
        case.unit.name(),
        cell(times.library),
        cell(times.reference),
        ratio.least,
        ratio.median,
        speed(times.library.least),
        speed(times.reference.least),
    )?;
    match instructions {
        None => writeln!(out, " – | – | – |"),
        Some(Instructions { library, reference }) => writeln!(
            out,
            " {library:.decimals$} | {reference:.decimals$} | {:.2} |",
            library / reference
        ),
    }
}

fn write_peer(out: &mut String, peer: &Peer, cases: &[Case], times: &[Times]) -> std::fmt::Result {
    let &Peer(what, act, input, cost) = peer;
    let mut numbered = cases.iter().zip(times);
    let (case, times) = numbered
        .find(|(case, _)| case.act() == act && case.input == input)
        .expect("the case is measured");
    let (library, reference) = (times.library.least, times.reference.least);
    let half = cost / 2.0;
    let reached = match library <= half {
        true => "yes".to_string(),
        false => format!("no: {:.2} of tsm1's", library / cost),
    };
    let decimals = decimals(case.unit);
    writeln!(
        out,
        "| {what} | {cost:.1} | {half:.1} | {act} of {input} | {library:.decimals$} | {reference:.decimals$} | {reached} |"
    )
}

/// Decimals of a cost: a call costs many nanoseconds, a point few.
fn decimals(unit: Unit) -> usize {
    match unit {
        Unit::Call => 0,
        Unit::Point | Unit::Key => 2,
    }
}

fn write_curve(out: &mut String, curve: &Curve) -> std::fmt::Result {
    let Curve { act, unit, sizes } = curve;
    let unit = unit.name();
    write!(out, "| {act}: {unit}s |")?;
    sizes
        .iter()
        .try_for_each(|(size, _)| write!(out, " {size} |"))?;
    writeln!(out, "\n|---|{}", "---|".repeat(sizes.len()))?;
    for (name, side) in [
        (
            "library",
            (|times| times.library.least) as fn(&Times) -> f64,
        ),
        ("reference", |times| times.reference.least),
    ] {
        write!(out, "| {name}, ns a {unit} |")?;
        let mut costs = sizes.iter().map(|(_, times)| side(times));
        costs.try_for_each(|cost| write!(out, " {cost:.2} |"))?;
        writeln!(out)?;
    }
    let largest = sizes.last().map_or(0, |size| size.0);
    writeln!(
        out,
        "\nAt {largest} {unit}s, {act} costs {:.2} times as much for each as at {}.\n",
        curve.growth(),
        sizes[0].0
    )
}

/// The commit that is measured, with a plus where files differ from it.
pub fn commit() -> String {
    let git = |arguments: &[&str]| {
        let output = Command::new("git").args(arguments).output().ok()?;
        let text = String::from_utf8(output.stdout).ok()?;
        output.status.success().then(|| text.trim().to_string())
    };
    let Some(commit) = git(&["rev-parse", "--short=10", "HEAD"]) else {
        return "unknown".to_string();
    };
    let changes = git(&["status", "--porcelain", "--untracked-files=no"]);
    match changes.is_some_and(|changes| changes.is_empty()) {
        true => commit,
        false => format!("{commit} with changes"),
    }
}

fn processor() -> String {
    let text = fs::read_to_string("/proc/cpuinfo").unwrap_or_default();
    let model = text.lines().find(|line| line.starts_with("model name"));
    let model = model.and_then(|line| line.split_once(": "));
    model
        .map_or("unknown processor", |(_, model)| model)
        .to_string()
}

fn compiler() -> String {
    let output = Command::new("rustc").arg("--version").output();
    let text = output
        .ok()
        .and_then(|output| String::from_utf8(output.stdout).ok());
    text.map_or("unknown rustc".to_string(), |text| text.trim().to_string())
}
