//! The conformance cases and peer files.

use std::fmt;
use std::fs;
use std::path::{Path, PathBuf};
use std::process::Command;

/// The file or folder `name` of the tests.
pub fn path(name: &str) -> PathBuf {
    Path::new(env!("CARGO_MANIFEST_DIR")).join("..").join(name)
}

/// The bytes of the file `name`.
pub fn bytes(name: &str) -> Vec<u8> {
    fs::read(path(name)).unwrap_or_else(|error| panic!("{name}: {error}"))
}

/// The text of the file `name`; one that ends in `.gz` is opened by gzip.
pub fn text(name: &str) -> String {
    let bytes = match name.ends_with(".gz") {
        false => bytes(name),
        true => {
            let output = Command::new("gzip").arg("-dc").arg(path(name)).output();
            let output = output.expect("gzip runs");
            assert!(output.status.success(), "gzip opens {name}");
            output.stdout
        }
    };
    String::from_utf8(bytes).unwrap_or_else(|error| panic!("{name}: {error}"))
}

/// Bytes as the cases write them: lowercase hex, `-` for none.
pub struct Hex<'a>(pub &'a [u8]);

impl fmt::Display for Hex<'_> {
    fn fmt(&self, f: &mut fmt::Formatter) -> fmt::Result {
        if self.0.is_empty() {
            return write!(f, "-");
        }
        self.0.iter().try_for_each(|byte| write!(f, "{byte:02x}"))
    }
}

/// The bytes that `hex` stands for.
pub fn unhex(hex: &str) -> Vec<u8> {
    if hex == "-" {
        return Vec::new();
    }
    let digit = |c: u8| char::from(c).to_digit(16).expect("a hex digit") as u8;
    let pairs = hex.as_bytes().chunks_exact(2);
    assert!(pairs.remainder().is_empty(), "hex digits come in pairs");
    pairs
        .map(|pair| digit(pair[0]) << 4 | digit(pair[1]))
        .collect()
}

/// Enough of a long line to find it.
pub fn shortened(line: &str) -> &str {
    line.get(..400).unwrap_or(line)
}

/// A conformance case and its answer.
pub struct Case {
    /// Which file and line.
    pub name: String,
    pub case: String,
    pub answer: String,
    /// Whether the case is of the two that read 18,078,000 points.
    pub is_huge: bool,
}

impl Case {
    /// The act that is called: the first word.
    pub fn act(&self) -> &str {
        self.case.split(' ').next().unwrap_or_default()
    }

    /// The number of the refusal that is expected, 0 where a good answer is.
    pub fn number(&self) -> u8 {
        refused(&self.answer).map_or(0, |number| number.parse().expect("a refusal's number"))
    }
}

/// The two cases that read 18,078,000 points: act and line in `big`.
const HUGE: [(&str, usize); 2] = [("check", 7), ("unroll", 4)];

/// The acts that have large cases.
const ACTS: [&str; 8] = [
    "check",
    "find",
    "read_block",
    "read_point",
    "write",
    "unroll",
    "merge",
    "program",
];

/// The number of a refusal, as an answer has it.
fn refused(answer: &str) -> Option<&str> {
    answer.strip_prefix("refused ")?.split(' ').next()
}

/// An answer without the place of a refusal, which the C interface does not give.
pub fn without_place(answer: &str) -> String {
    match refused(answer) {
        Some(number) => format!("refused {number}"),
        None => answer.to_string(),
    }
}

/// All cases, the large ones last.
pub fn cases() -> Vec<Case> {
    let set = pairs("conformance/cases.txt.gz", "conformance/answers.txt.gz");
    set.into_iter()
        .chain(ACTS.into_iter().flat_map(big))
        .collect()
}

/// The large cases of an act.
fn big(act: &str) -> Vec<Case> {
    let mut cases = pairs(
        &format!("conformance/big/{act}.cases.txt.gz"),
        &format!("conformance/big/{act}.answers.txt.gz"),
    );
    for (_, line) in HUGE.iter().filter(|(huge_act, _)| *huge_act == act) {
        cases[line - 1].is_huge = true;
    }
    cases
}

fn pairs(cases: &str, answers: &str) -> Vec<Case> {
    let (case_text, answer_text) = (text(cases), text(answers));
    let lines: Vec<_> = case_text.lines().zip(answer_text.lines()).collect();
    assert_eq!(lines.len(), case_text.lines().count(), "answers to {cases}");
    assert_eq!(
        lines.len(),
        answer_text.lines().count(),
        "cases of {answers}"
    );
    let numbered = lines.into_iter().enumerate();
    numbered
        .map(|(line, (case, answer))| Case {
            name: format!("{cases}:{}", line + 1),
            case: case.to_string(),
            answer: answer.to_string(),
            is_huge: false,
        })
        .collect()
}

/// The value of an environment variable that holds a number.
pub fn number_from_env(name: &str, default: u64) -> u64 {
    match std::env::var(name) {
        Ok(text) => text
            .parse()
            .unwrap_or_else(|_| panic!("{name} is a number")),
        Err(_) => default,
    }
}
