//! The cases: an act on an input, and how many points, bytes or calls that is.

use std::hint::black_box;

use tsm_harness::acts::{Acts, Query, Reference};
use tsm_harness::call::{Answer, Call};
use tsm_harness::lent::Padded;
use tsm_harness::library::Library;
use tsm_harness::random::Random;
use tsm_harness::trial::Trial;
use tsm_reference::block::MAX_POINTS;
use tsm_reference::{self as reference, file, index};

use crate::inputs::{Input, Inputs, Pair};

/// Of what the cost is given.
#[derive(Clone, Copy, PartialEq, Eq)]
pub enum Unit {
    Point,
    Call,
    Key,
}

impl Unit {
    pub fn name(self) -> &'static str {
        match self {
            Unit::Point => "point",
            Unit::Call => "call",
            Unit::Key => "key",
        }
    }
}

/// Calls of one act on one input.
pub struct Case<'a> {
    pub input: String,
    pub calls: Vec<Call<'a>>,
    pub unit: Unit,
    /// How many units all calls together handle.
    pub units: usize,
    /// Bytes of images or rolls that they go through: of a find, those of the index; of a read,
    /// the block's too.
    pub bytes: usize,
}

/// What the calls are lent for their results. It is filled once and not cleared between runs.
pub struct Lent {
    out: Vec<u8>,
    times: [i64; MAX_POINTS],
    values: [i64; MAX_POINTS],
}

impl Lent {
    /// Enough for every case.
    pub fn enough_for(cases: &[Case]) -> Lent {
        let calls = cases.iter().flat_map(|case| &case.calls);
        let capacity = |call: &Call| match *call {
            Call::Write { capacity, .. }
            | Call::Unroll { capacity, .. }
            | Call::Merge { capacity, .. } => capacity,
            _ => 0,
        };
        Lent {
            out: vec![0x55; calls.map(capacity).max().unwrap_or(0)],
            times: [0; MAX_POINTS],
            values: [0; MAX_POINTS],
        }
    }
}

impl Case<'_> {
    /// The name of the act.
    pub fn act(&self) -> &'static str {
        self.calls[0].act()
    }

    /// All calls, one after the other.
    pub fn run(&self, acts: &impl Acts, lent: &mut Lent) {
        for call in &self.calls {
            assert_eq!(run(acts, call, lent), 0, "the act answers");
        }
    }

    /// Sees that the library and the reference answer the same, with every lent cell as it must be.
    pub fn compare(&self) {
        let mut library = Trial::new(&Library, &Padded);
        let mut reference = Trial::new(&Reference, &Padded);
        for &call in &self.calls {
            let (answer, expected) = (library.run(call), reference.run(call));
            assert!(
                !matches!(expected, Answer::Refused(_) | Answer::Fault(_)),
                "{}, {}: {expected:?}",
                self.act(),
                self.input
            );
            assert!(
                answer == expected,
                "{}, {}: {answer:?} and {expected:?}",
                self.act(),
                self.input
            );
        }
    }
}

/// Runs the call and answers 0 or the number of a refusal.
fn run(acts: &impl Acts, call: &Call, lent: &mut Lent) -> u8 {
    match *call {
        Call::Check { image } => black_box(acts.check(image)).number,
        Call::Find { query } => black_box(acts.find(query)).number,
        Call::ReadBlock { query, .. } => {
            black_box(acts.read_block(query, &mut lent.times, &mut lent.values)).number
        }
        Call::ReadPoint { query } => black_box(acts.read_point(query)).number,
        Call::Write { roll, capacity } => {
            black_box(acts.write(roll, &mut lent.out[..capacity])).number
        }
        Call::Unroll { image, capacity } => {
            black_box(acts.unroll(image, &mut lent.out[..capacity])).number
        }
        Call::Merge {
            older,
            newer,
            capacity,
        } => black_box(acts.merge(older, newer, &mut lent.out[..capacity])).number,
    }
}

/// All cases of the table, by act.
pub fn all(inputs: &Inputs) -> Vec<Case<'_>> {
    let Inputs {
        blocks,
        peer,
        write_mixed,
        sheds,
        pairs,
    } = inputs;
    let (mixed, ints) = (&peer[0], &peer[1]);
    let (short_keys, long_keys) = (&sheds[3], &sheds[4]);
    let mut cases = Vec::new();
    cases.extend(peer.iter().chain(sheds).map(check));
    cases.extend([mixed, short_keys, long_keys].map(|input| find(input, 80)));
    cases.extend(blocks.iter().map(|input| read_block(input, 1)));
    cases.extend([mixed, long_keys].map(|input| read_block(input, 80)));
    cases.extend([&blocks[0], mixed, short_keys].map(|input| read_point(input, 80)));
    cases.extend(blocks.iter().chain([write_mixed]).chain(sheds).map(write));
    cases.extend([mixed, ints].into_iter().chain(sheds).map(unroll));
    cases.extend(pairs.iter().map(merge));
    cases
}

pub fn check(input: &Input) -> Case<'_> {
    Case {
        input: input.name.clone(),
        calls: vec![Call::Check {
            image: &input.image,
        }],
        unit: Unit::Point,
        units: input.points,
        bytes: input.image.len(),
    }
}

pub fn write(input: &Input) -> Case<'_> {
    Case {
        input: input.name.clone(),
        calls: vec![Call::Write {
            roll: &input.roll,
            capacity: file::MAX_LENGTH,
        }],
        unit: Unit::Point,
        units: input.points,
        bytes: input.roll.len(),
    }
}

fn unroll(input: &Input) -> Case<'_> {
    Case {
        input: input.name.clone(),
        calls: vec![Call::Unroll {
            image: &input.image,
            capacity: input.roll_length(),
        }],
        unit: Unit::Point,
        units: input.points,
        bytes: input.image.len(),
    }
}

pub fn merge(pair: &Pair) -> Case<'_> {
    let Pair { name, older, newer } = pair;
    Case {
        input: name.clone(),
        calls: vec![Call::Merge {
            older: &older.image,
            newer: &newer.image,
            capacity: file::MAX_LENGTH,
        }],
        unit: Unit::Point,
        units: older.points + newer.points,
        bytes: older.image.len() + newer.image.len(),
    }
}

pub fn find(input: &Input, count: usize) -> Case<'_> {
    let index = input.image.len() - input.index_start();
    let calls = questions(input, count).map(|query| Call::Find { query });
    Case {
        input: input.name.clone(),
        calls: calls.collect(),
        unit: Unit::Call,
        units: count,
        bytes: count * index,
    }
}

fn read_block(input: &Input, count: usize) -> Case<'_> {
    let calls = questions(input, count).map(|query| Call::ReadBlock {
        query,
        times: MAX_POINTS,
        values: MAX_POINTS,
    });
    Case {
        input: input.name.clone(),
        calls: calls.collect(),
        unit: Unit::Point,
        units: questions(input, count).map(|query| read(query).1).sum(),
        bytes: gone_through(input, count),
    }
}

fn read_point(input: &Input, count: usize) -> Case<'_> {
    let mut random = Random::of_case(7, 1);
    let calls = questions(input, count).map(|query| {
        let (times, count) = read(query);
        let time = times[random.below(count)];
        Call::ReadPoint {
            query: Query { time, ..query },
        }
    });
    Case {
        input: input.name.clone(),
        calls: calls.collect(),
        unit: Unit::Call,
        units: count,
        bytes: gone_through(input, count),
    }
}

/// Bytes of the index and of the block, for each question.
fn gone_through(input: &Input, count: usize) -> usize {
    let index = input.image.len() - input.index_start();
    let blocks = questions(input, count).map(|query| {
        let entry = reference::find(query.image, query.key, query.time);
        entry.expect("the entry is there").size as usize
    });
    count * index + blocks.sum::<usize>()
}

/// Keys all over the file, each with the middle of a block.
fn questions(input: &Input, count: usize) -> impl Iterator<Item = Query<'_>> {
    let keys = index::read(&input.image).expect("the file is accepted");
    let mut random = Random::of_case(7, 0);
    (0..count).map(move |rank| {
        let series = keys[rank * keys.len() / count % keys.len()];
        let entries: Vec<_> = series.entries().collect();
        let entry = random.pick(&entries);
        Query {
            image: &input.image,
            key: series.key,
            time: entry.min + (entry.max.abs_diff(entry.min) / 2) as i64,
        }
    })
}

/// The times of the block asked for, and how many there are.
fn read(query: Query) -> ([i64; MAX_POINTS], usize) {
    let (mut times, mut values) = ([0; MAX_POINTS], [0; MAX_POINTS]);
    let Query { image, key, time } = query;
    let block = reference::read_block(image, key, time, &mut times, &mut values);
    (times, block.expect("the block is there").count)
}
