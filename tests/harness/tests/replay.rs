//! Replays every conformance case, the program's too, through the C interface.
#![cfg(feature = "library")]

use tsm_harness::data::{self, shortened};
use tsm_harness::library::Guarded;
use tsm_harness::replay::Replay;

fn replay_all(guarded: Guarded) {
    let mut replay = Replay::new(guarded);
    let mut replayed = 0;
    for case in data::cases() {
        let answer = replay.answer(&case.case);
        let answer = answer.unwrap_or_else(|fault| panic!("{}: {fault}", case.name));
        let expected = data::without_place(&case.answer);
        assert!(
            answer == expected,
            "{}: {} and not {}",
            case.name,
            shortened(&answer),
            shortened(&expected)
        );
        replayed += 1;
    }
    assert_eq!(replayed, 9_310);
}

#[test]
fn with_a_guard_after_each_slice() {
    replay_all(Guarded::After);
}

#[test]
fn with_a_guard_before_each_slice() {
    replay_all(Guarded::Before);
}

/// A line that is no case is told by what is wrong with it.
#[test]
fn lines_that_are_no_cases() {
    let mut replay = Replay::new(Guarded::After);
    for (line, fault) in [
        ("cheque -", "no act is called \"cheque\""),
        ("check 0g", "field 1 is no bytes in hex"),
        ("check 012", "field 1 is no bytes in hex"),
        ("find - -", "field 3 is missing"),
        ("check - 5", "field 2 is one too many"),
        ("write - many", "field 2: invalid digit found in string"),
    ] {
        assert_eq!(replay.answer(line).unwrap_err(), fault);
    }
}
