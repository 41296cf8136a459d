//! Replays the conformance cases: every answer, and every lent cell.

use tsm_harness::acts::{Query, Reference};
use tsm_harness::call::Call;
use tsm_harness::data::{self, shortened, unhex};
use tsm_harness::lent::Padded;
use tsm_harness::tally::Tally;
use tsm_harness::trial::Trial;
use tsm_reference::{check, find, merge, read_block, read_point, unroll, write};
use tsm_reference::{MergeRefusal, Refusal, Side};

/// The cases hold every answer that an act can give.
#[test]
fn every_answer_stands() {
    let cases = data::cases();
    let mut tally = Tally::default();
    for case in &cases {
        tally.count(case.act(), case.number());
    }
    tally.print();
    tally.assert_complete();
    // Of merge, those of a check stand for either image.
    for side in ["older", "newer"] {
        for number in 1..=16 {
            let stands = |case: &data::Case| {
                case.act() == "merge" && case.number() == number && case.answer.ends_with(side)
            };
            let seen = cases.iter().any(stands);
            assert!(
                seen,
                "no merge in which the {side} image is refused as {number}"
            );
        }
    }
}

/// The reference also says where it broke.
#[test]
fn reference() {
    let mut trial = Trial::new(&Reference, &Padded);
    replay(
        |answer| answer.to_string(),
        |call| format!("{}{}", trial.run(call), place(call)),
    );
}

#[cfg(feature = "library")]
mod library {
    use super::*;
    use tsm_harness::lent::Memory;
    use tsm_harness::library::{Guarded, Library};

    fn replay_in(memory: &dyn Memory) {
        let mut trial = Trial::new(&Library, memory);
        replay(data::without_place, |call| trial.run(call).to_string());
    }

    #[test]
    fn with_canaries() {
        replay_in(&Padded);
    }

    #[test]
    fn with_a_guard_after_each_slice() {
        replay_in(&Guarded::After);
    }

    #[test]
    fn with_a_guard_before_each_slice() {
        replay_in(&Guarded::Before);
    }
}

/// Runs every case of every act, and compares its answer with what is made of the expected one.
fn replay(expected: impl Fn(&str) -> String, mut run: impl FnMut(Call) -> String) {
    let with_huge = data::number_from_env("TSM_HUGE", 0) != 0;
    let (mut replayed, mut wrong) = (0, 0);
    for case in data::cases() {
        // Those of the program are replayed in program.rs.
        if case.act() == "program" || case.is_huge && !with_huge {
            continue;
        }
        let expected = expected(&case.answer);
        let answer = run_case(&case.case, &mut run);
        replayed += 1;
        if answer != expected {
            wrong += 1;
            if wrong <= 10 {
                println!(
                    "{}\n  case     {}\n  expected {}\n  answer   {}",
                    case.name,
                    shortened(&case.case),
                    shortened(&expected),
                    shortened(&answer)
                );
            }
        }
    }
    println!("{replayed} cases replayed, {wrong} with another answer");
    assert_eq!(wrong, 0);
    assert_eq!(replayed, if with_huge { 9_124 } else { 9_122 });
}

/// Runs the call that a case line describes.
fn run_case(line: &str, run: &mut impl FnMut(Call) -> String) -> String {
    let fields: Vec<&str> = line.split(' ').collect();
    let length = |field: usize| fields[field].parse().expect("a length");
    match fields[0] {
        "check" => run(Call::Check {
            image: &unhex(fields[1]),
        }),
        "write" => run(Call::Write {
            roll: &unhex(fields[1]),
            capacity: length(2),
        }),
        "unroll" => run(Call::Unroll {
            image: &unhex(fields[1]),
            capacity: length(2),
        }),
        "merge" => run(Call::Merge {
            older: &unhex(fields[1]),
            newer: &unhex(fields[2]),
            capacity: length(3),
        }),
        act => {
            let query = Query {
                image: &unhex(fields[1]),
                key: &unhex(fields[2]),
                time: fields[3].parse().expect("a time"),
            };
            match act {
                "find" => run(Call::Find { query }),
                "read_point" => run(Call::ReadPoint { query }),
                "read_block" => run(Call::ReadBlock {
                    query,
                    times: length(4),
                    values: length(5),
                }),
                _ => panic!("unknown act {act}"),
            }
        }
    }
}

/// What a conformance answer says after the number of a refusal: its place, and in merge the image
/// at fault. Nothing for a good answer.
fn place(call: Call) -> String {
    let Err(MergeRefusal { refusal, side }) = outcome(call) else {
        return String::new();
    };
    let place = match refusal.place() {
        Some(place) => place.to_string(),
        None => "-".to_string(),
    };
    let side = match side {
        Some(Side::Older) => " older",
        Some(Side::Newer) => " newer",
        None => "",
    };
    format!(" {place}{side}")
}

/// Whether the reference refuses the call, and why.
fn outcome(call: Call) -> Result<(), MergeRefusal> {
    let plain = |refusal: Refusal| MergeRefusal {
        refusal,
        side: None,
    };
    match call {
        Call::Check { image } => check(image).map(drop).map_err(plain),
        Call::Find { query } => find(query.image, query.key, query.time)
            .map(drop)
            .map_err(plain),
        Call::ReadBlock {
            query: Query { image, key, time },
            times,
            values,
        } => read_block(image, key, time, &mut vec![0; times], &mut vec![0; values])
            .map(drop)
            .map_err(plain),
        Call::ReadPoint { query } => read_point(query.image, query.key, query.time)
            .map(drop)
            .map_err(plain),
        Call::Write { roll, capacity } => {
            write(roll, &mut vec![0; capacity]).map(drop).map_err(plain)
        }
        Call::Unroll { image, capacity } => unroll(image, &mut vec![0; capacity])
            .map(drop)
            .map_err(plain),
        Call::Merge {
            older,
            newer,
            capacity,
        } => merge(older, newer, &mut vec![0; capacity]).map(drop),
    }
}
