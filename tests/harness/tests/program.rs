//! Runs the program: a roll on standard input, its image or a refusal's number on standard output.
//!
//! The reference's program is run always, and the one that TSM_PROGRAM names.

use std::fs::File;
use std::io::Write;
use std::path::{Path, PathBuf};
use std::process::{Command, Output, Stdio};
use std::thread;
use std::time::Duration;

use tsm_harness::data::{self, shortened, unhex, Hex};
use tsm_reference::program::BUFFER;
use tsm_reference::varint;

const BARE: &str = "16d116d1010000000000000005";
const SHORT_OUTPUT: &[u8] = b"19\n";
const BROKEN_ROLL: &[u8] = b"20\n";

/// The programs to run.
fn programs() -> Vec<PathBuf> {
    let mut programs = vec![PathBuf::from(env!("CARGO_BIN_EXE_reference_program"))];
    match std::env::var_os("TSM_PROGRAM") {
        Some(program) => programs.push(PathBuf::from(program)),
        None if cfg!(feature = "library") => panic!("TSM_PROGRAM names no program"),
        None => println!("TSM_PROGRAM is not set: only the reference's program is run"),
    }
    programs
}

/// What the program writes when `roll` arrives in pieces of at most `piece` bytes.
fn run(program: &Path, roll: &[u8], piece: usize) -> Vec<u8> {
    let mut child = Command::new(program)
        .stdin(Stdio::piped())
        .stdout(Stdio::piped())
        .stderr(Stdio::piped())
        .spawn()
        .unwrap_or_else(|error| panic!("{}: {error}", program.display()));
    let mut input = child.stdin.take().expect("standard input is piped");
    let output = thread::scope(|scope| {
        scope.spawn(move || {
            for (rank, part) in roll.chunks(piece).enumerate() {
                if rank > 0 {
                    // Long enough for the program to have read what came before.
                    thread::sleep(Duration::from_millis(1));
                }
                // A program may stop reading once the roll is too long.
                if input.write_all(part).is_err() {
                    break;
                }
            }
        });
        child.wait_with_output().expect("the program ends")
    });
    assert!(output.stderr.is_empty(), "nothing on standard error");
    output.stdout
}

/// Sees that the program writes `expected` for `roll`.
fn expect(program: &Path, roll: &[u8], expected: &[u8]) {
    expect_in_pieces(program, roll, roll.len().max(1), expected);
}

/// The same with a roll that arrives in pieces.
fn expect_in_pieces(program: &Path, roll: &[u8], piece: usize, expected: &[u8]) {
    let output = run(program, roll, piece);
    assert!(
        output == expected,
        "{} writes {} bytes, {}, and not {} bytes, {}",
        program.display(),
        output.len(),
        shortened(&Hex(&output).to_string()),
        expected.len(),
        shortened(&Hex(expected).to_string()),
    );
}

#[test]
fn conformance_cases() {
    let mut cases = data::cases();
    cases.retain(|case| case.act() == "program");
    assert_eq!(cases.len(), 186);
    for program in programs() {
        for case in &cases {
            let roll = case.case.strip_prefix("program ").expect("a program case");
            let output = case.answer.strip_prefix("stdout ").expect("an output");
            println!("{}", case.name);
            expect(&program, &unhex(roll), &unhex(output));
        }
    }
}

#[test]
fn empty_input_is_the_bare_image() {
    for program in programs() {
        expect(&program, &[], &unhex(BARE));
    }
}

#[test]
fn a_roll_that_breaks_its_rules() {
    for program in programs() {
        expect(&program, &[0], BROKEN_ROLL);
        expect(&program, &[1, b'a', 2, 3, 0, 1, 10, 0, 10, 2], BROKEN_ROLL);
    }
}

#[test]
fn a_roll_that_fills_the_buffer() {
    let roll = regular_roll(BUFFER);
    let image = image(&roll);
    for program in programs() {
        expect(&program, &roll, &image);
    }
}

#[test]
fn a_roll_longer_than_the_buffer() {
    let one_more = regular_roll(BUFFER + 1);
    let broken = vec![0; BUFFER + 1];
    let far_longer = vec![0; 20 * BUFFER];
    for program in programs() {
        expect(&program, &one_more, SHORT_OUTPUT);
        expect(&program, &broken, SHORT_OUTPUT);
        expect(&program, &far_longer, SHORT_OUTPUT);
    }
}

#[test]
fn an_image_longer_than_the_buffer() {
    let roll = many_keys_roll(2_000);
    assert!(roll.len() < BUFFER);
    for program in programs() {
        expect(&program, &roll, SHORT_OUTPUT);
    }
}

#[test]
fn input_in_pieces() {
    let small = [1, b'a', 2, 3, 0, 1, 10, 0, 10, 0];
    let full = regular_roll(BUFFER);
    let too_long = regular_roll(BUFFER + 1);
    for program in programs() {
        expect_in_pieces(&program, &small, 1, &image(&small));
        expect_in_pieces(&program, &full, 4_097, &image(&full));
        expect_in_pieces(&program, &too_long, 4_096, SHORT_OUTPUT);
    }
}

/// What the program does with this input and output.
fn run_with(program: &Path, input: impl Into<Stdio>, output: impl Into<Stdio>) -> Output {
    let child = Command::new(program)
        .stdin(input)
        .stdout(output)
        .stderr(Stdio::piped())
        .spawn();
    let child = child.unwrap_or_else(|error| panic!("{}: {error}", program.display()));
    child.wait_with_output().expect("the program ends")
}

/// Nothing was written, and standard error was told why.
fn expect_failure(program: &Path, output: Output) {
    assert!(
        output.stdout.is_empty() && !output.stderr.is_empty(),
        "{} writes {} where it cannot go on, and says {:?}",
        program.display(),
        Hex(&output.stdout),
        String::from_utf8_lossy(&output.stderr),
    );
}

/// A read that fails at once: of a folder.
#[test]
fn input_that_cannot_be_read() {
    for program in programs() {
        let folder = File::open(env!("CARGO_MANIFEST_DIR")).expect("a folder");
        expect_failure(&program, run_with(&program, folder, Stdio::piped()));
    }
}

/// A read that fails after half of a roll, which is a good roll too.
#[cfg(target_os = "linux")]
#[test]
fn input_that_breaks_off() {
    use std::os::fd::OwnedFd;
    use std::os::unix::net::UnixStream;

    for program in programs() {
        let (mut sender, mut receiver) = UnixStream::pair().expect("a pair of sockets");
        // Where a sender goes away before it has read all, its receiver's next read fails.
        receiver.write_all(b"unread").expect("room");
        sender.write_all(&[1, b'a', 2, 1, 0, 1]).expect("room");
        drop(sender);
        let input = OwnedFd::from(receiver);
        expect_failure(&program, run_with(&program, input, Stdio::piped()));
    }
}

/// A write that fails: the program ends, and says so.
#[cfg(target_os = "linux")]
#[test]
fn output_that_cannot_be_written() {
    for program in programs() {
        let full = File::options().write(true).open("/dev/full");
        let full = full.expect("a device that is full");
        expect_failure(&program, run_with(&program, Stdio::null(), full));
    }
}

/// A write that fails after a part of the image was taken: the beginning stays, and standard error
/// is told.
#[cfg(target_os = "linux")]
#[test]
fn output_that_breaks_off() {
    let roll = many_keys_roll(100);
    let image = image(&roll);
    let folder = std::env::temp_dir().join(format!("tsm-program-{}", std::process::id()));
    std::fs::create_dir_all(&folder).expect("a folder");
    let (input, output) = (folder.join("roll"), folder.join("image"));
    std::fs::write(&input, &roll).expect("a file");
    for program in programs() {
        // A file of one block of 512 bytes at most; the signal that says so is not heard.
        let shell = Command::new("sh")
            .arg("-c")
            .arg("trap '' XFSZ; ulimit -f 1; exec \"$0\" <\"$1\" >\"$2\"")
            .args([&program, &input, &output])
            .output();
        let shell = shell.expect("a shell");
        let written = std::fs::read(&output).expect("a file");
        assert!(
            !written.is_empty() && written.len() < image.len() && image.starts_with(&written),
            "{} writes {} of {} bytes",
            program.display(),
            written.len(),
            image.len()
        );
        expect_failure(&program, shell);
    }
    std::fs::remove_dir_all(&folder).expect("the folder goes");
}

/// Standard input or output that is closed. (The reference's is opened again by Rust's runtime.)
#[cfg(unix)]
#[test]
fn input_or_output_that_is_closed() {
    let Some(program) = std::env::var_os("TSM_PROGRAM") else {
        return;
    };
    for line in ["exec \"$0\" <&-", "exec \"$0\" </dev/null >&-"] {
        let shell = Command::new("sh")
            .arg("-c")
            .arg(line)
            .arg(&program)
            .output();
        expect_failure(Path::new(&program), shell.expect("a shell"));
    }
}

/// The reference's image of a good roll.
fn image(roll: &[u8]) -> Vec<u8> {
    let mut image = vec![0; BUFFER];
    let length = tsm_reference::write(roll, &mut image).expect("a good roll");
    image.truncate(length);
    image
}

/// A good roll of exactly `length` bytes: one key with a point for each two bytes.
fn regular_roll(length: usize) -> Vec<u8> {
    // The key takes the byte that is left over.
    let mut roll = match length % 2 {
        0 => vec![1, b'a', 1],
        _ => vec![2, b'a', b'b', 1],
    };
    // The count takes three bytes.
    let points = (length - roll.len() - 3) / 2;
    varint::append(points as u64, &mut roll);
    for point in 0..points {
        roll.extend([u8::from(point > 0), (point % 3) as u8]);
    }
    assert_eq!(roll.len(), length);
    roll
}

/// A good roll of keys with one point each.
fn many_keys_roll(keys: u16) -> Vec<u8> {
    let key = |number: u16| {
        let [high, low] = number.to_be_bytes();
        [2, high, low, 2, 1, 0, 1]
    };
    (0..keys).flat_map(key).collect()
}
