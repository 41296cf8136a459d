//! What the acts are run on: files like a weaving shed's, made from a seed, and the files on which
//! tsm1 was measured (`peer/`).

use std::fs;
use std::path::Path;

use tsm_harness::random::Random;
use tsm_reference::{self as reference, crc32, file, roll, Kind};

const SEED: u64 = 1;
/// 14 November 2023, in nanoseconds.
const START: i64 = 1_700_000_000_000_000_000;
const MILLISECOND: i64 = 1_000_000;
const ROW: i64 = 10 * MILLISECOND;

/// A file, and the roll of its points where it was made from one.
pub struct Input {
    pub name: String,
    pub roll: Vec<u8>,
    pub image: Vec<u8>,
    pub points: usize,
}

impl Input {
    fn of_roll(name: &str, roll: Vec<u8>) -> Option<Input> {
        let mut image = vec![0; file::MAX_LENGTH];
        let length = reference::write(&roll, &mut image).ok()?;
        image.truncate(length);
        let points = points(&image);
        Some(Input {
            name: name.to_string(),
            roll,
            image,
            points,
        })
    }

    fn of_series(name: &str, series: &[Series]) -> Option<Input> {
        let mut writer = roll::Writer::default();
        for Series { key, kind, points } in series {
            writer.begin(key, *kind);
            let (times, values): (Vec<_>, Vec<_>) = points.iter().copied().unzip();
            writer.points(*kind, &times, &values);
            writer.end();
        }
        Input::of_roll(name, writer.finish())
    }

    fn of_peer(name: &str) -> Input {
        let image = peer(&format!("{name}.tsm"));
        let points = points(&image);
        Input {
            name: name.to_string(),
            roll: Vec::new(),
            image,
            points,
        }
    }

    /// Where the index begins.
    pub fn index_start(&self) -> usize {
        let index = file::index_range(&self.image).expect("the file is accepted");
        index.start
    }

    /// How many bytes the roll of the file has.
    pub fn roll_length(&self) -> usize {
        if !self.roll.is_empty() {
            return self.roll.len();
        }
        let mut out = vec![0; 32 * file::MAX_LENGTH];
        reference::unroll(&self.image, &mut out).expect("the roll fits")
    }
}

fn points(image: &[u8]) -> usize {
    let totals = reference::check(image).expect("the file is accepted");
    totals.points as usize
}

/// An older and a newer file.
pub struct Pair {
    pub name: String,
    pub older: Input,
    pub newer: Input,
}

impl Pair {
    fn of_series(name: &str, older: &[Series], newer: &[Series]) -> Option<Pair> {
        let pair = Pair {
            name: name.to_string(),
            older: Input::of_series(name, older)?,
            newer: Input::of_series(name, newer)?,
        };
        pair.merged().is_some().then_some(pair)
    }

    /// The merged file, unless it would be too long.
    fn merged(&self) -> Option<Vec<u8>> {
        let mut out = vec![0; file::MAX_LENGTH];
        let length = reference::merge(&self.older.image, &self.newer.image, &mut out).ok()?;
        out.truncate(length);
        Some(out)
    }

    /// A pair of tsm1, whose merge must have the length and checksum of tsm1's full compaction.
    fn of_peer(name: &str, compaction: (usize, u32)) -> Pair {
        let pair = Pair {
            name: name.to_string(),
            older: Input::of_peer(&format!("{name}_older")),
            newer: Input::of_peer(&format!("{name}_newer")),
        };
        let merged = pair.merged().expect("the files merge");
        assert_eq!((merged.len(), crc32::checksum(&merged)), compaction);
        pair
    }
}

/// All inputs of the table.
pub struct Inputs {
    /// Files of one block of 1,000 points, one for each form of a section.
    pub blocks: Vec<Input>,
    /// Large files of tsm1.
    pub peer: Vec<Input>,
    /// tsm1's input of writing.
    pub write_mixed: Input,
    /// Files like a shed's.
    pub sheds: Vec<Input>,
    pub pairs: Vec<Pair>,
}

impl Inputs {
    pub fn new() -> Inputs {
        let write_mixed = Input::of_roll("write_mixed", peer("write_mixed.roll"));
        let write_mixed = write_mixed.expect("the roll is written");
        let written = (write_mixed.image.len(), crc32::checksum(&write_mixed.image));
        assert_eq!(written, (180_823, 0x3993_deb0), "as tsm1 wrote it");
        Inputs {
            blocks: blocks(),
            peer: ["read_mixed", "read_ints", "read_bools"]
                .map(Input::of_peer)
                .into(),
            write_mixed,
            sheds: sheds(),
            pairs: pairs(),
        }
    }
}

fn blocks() -> Vec<Input> {
    let peer = [
        "block_ints_jitter",
        "block_ints_regular",
        "block_bools_regular",
        "block_bools_lossy",
    ];
    let mut blocks: Vec<Input> = peer.map(peer_block).into();

    // The forms that tsm1's four blocks do not have.
    let mut random = Random::of_case(SEED, 0);
    let regular = |value: &mut dyn FnMut(i64) -> i64| {
        let rows = 0..1_000;
        rows.map(|row| (START + row * ROW, value(row))).collect()
    };
    let raw = regular(&mut |_| random.any() as i64);
    let repeated = regular(&mut |row| 7 * row);
    // A step of 2^61 is too long for packed words.
    let far = |row| i64::MIN + row + if row < 500 { 0 } else { 1 << 61 };
    let far = (0..1_000).map(|row| (far(row), row & 1)).collect();
    for (name, kind, points) in [
        ("block_ints_raw", Kind::Integer, raw),
        ("block_ints_repeated", Kind::Integer, repeated),
        ("block_times_raw", Kind::Boolean, far),
    ] {
        let key = b"block".to_vec();
        let input = Input::of_series(name, &[Series { key, kind, points }]);
        blocks.push(input.expect("one block fits"));
    }
    blocks
}

fn peer_block(name: &str) -> Input {
    let roll = peer(&format!("{name}.roll"));
    Input {
        roll,
        ..Input::of_peer(name)
    }
}

fn peer(name: &str) -> Vec<u8> {
    let path = Path::new(env!("CARGO_MANIFEST_DIR"))
        .join("peer")
        .join(name);
    fs::read(&path).unwrap_or_else(|error| panic!("{}: {error}", path.display()))
}

/// The points of one key.
struct Series {
    key: Vec<u8>,
    kind: Kind,
    points: Vec<(i64, i64)>,
}

/// Booleans: a row every 10 ms, three of a hundred rows missing.
fn rows(random: &mut Random, key: Vec<u8>, start: i64, rows: usize) -> Series {
    let times = (0..rows as i64).map(|row| start + row * ROW);
    let points = times
        .filter_map(|time| {
            let (missing, hole) = (random.below(100) < 3, random.coin());
            (!missing).then_some((time, i64::from(hole)))
        })
        .collect();
    Series {
        key,
        kind: Kind::Boolean,
        points,
    }
}

/// Integers: a count every 100 ms, give or take 7 ms, which grows by 0 to 3.
fn picks(random: &mut Random, key: Vec<u8>, start: i64, count: usize) -> Series {
    let mut total = 0;
    let points = (0..count as i64)
        .map(|rank| {
            let jitter = random.below(14 * MILLISECOND as usize) as i64 - 7 * MILLISECOND;
            total += random.below(4) as i64;
            (start + rank * 100 * MILLISECOND + jitter, total)
        })
        .collect();
    Series {
        key,
        kind: Kind::Integer,
        points,
    }
}

/// Integers of any size at times up to 2^40 ns apart.
fn any(random: &mut Random, key: Vec<u8>, count: usize) -> Series {
    let mut time = START;
    let points = (0..count)
        .map(|_| {
            time += 1 + random.up_to_bits(40) as i64;
            (time, random.any() as i64)
        })
        .collect();
    Series {
        key,
        kind: Kind::Integer,
        points,
    }
}

/// One to four points of either kind.
fn few(random: &mut Random, key: Vec<u8>) -> Series {
    let count = random.between(1, 4);
    match random.coin() {
        true => rows(random, key, START, count + 1),
        false => picks(random, key, START, count),
    }
}

fn loom(number: usize, field: &str) -> Vec<u8> {
    format!("loom,shed=3,loom={number:03}#!~#{field}").into()
}

fn sheds() -> Vec<Input> {
    let mut random = Random::of_case(SEED, 1);
    let random = &mut random;
    let looms = 0..20;
    let holes: Vec<_> = looms
        .clone()
        .map(|loom_number| rows(random, loom(loom_number, "hole"), START, 25_000))
        .collect();
    let counts: Vec<_> = looms
        .clone()
        .map(|loom_number| picks(random, loom(loom_number, "picks"), START, 10_000))
        .collect();
    let anything: Vec<_> = looms
        .map(|loom_number| any(random, loom(loom_number, "any"), 3_000))
        .collect();
    let short: Vec<_> = (0..9_000)
        .map(|number| few(random, format!("k{number:05}").into()))
        .filter(|series| !series.points.is_empty())
        .collect();
    let long: Vec<_> = (0..8)
        .map(|number| rows(random, vec![b'a' + number; 1_000], START, 50_000))
        .collect();
    let named = [
        ("rows with holes", holes),
        ("jittered picks", counts),
        ("random values", anything),
        ("9,000 short keys", short),
        ("8 long keys", long),
    ];
    let inputs = named.map(|(name, series)| Input::of_series(name, &series).expect("it fits"));
    inputs.into()
}

fn pairs() -> Vec<Pair> {
    let mut random = Random::of_case(SEED, 2);
    let random = &mut random;
    let mut holes = |start| -> Vec<_> {
        (0..20)
            .map(|number| rows(random, loom(number, "hole"), start, 25_000))
            .collect()
    };
    let holes = (holes(START), holes(START + 12_500 * ROW));
    let mut counts = || -> Vec<_> {
        (0..10)
            .map(|number| picks(random, loom(number, "picks"), START, 10_000))
            .collect()
    };
    let counts = (counts(), counts());
    // Of three keys one is in the older file, one in the newer, and one in both.
    let mut short = |missing| -> Vec<_> {
        (0..9_000)
            .filter(|number| number % 3 != missing)
            .map(|number| picks(random, format!("k{number:05}").into(), START, 2))
            .collect()
    };
    let short = (short(0), short(1));
    let own = [
        ("rows, half in common", holes),
        ("picks, interleaved", counts),
        ("6,000 short keys", short),
    ];
    let own = own.map(|(name, (older, newer))| {
        Pair::of_series(name, &older, &newer).expect("both files fit")
    });
    let peer = [
        Pair::of_peer("over", (620_317, 0x828d_f6c4)),
        Pair::of_peer("tail", (620_061, 0x0b49_af07)),
    ];
    peer.into_iter().chain(own).collect()
}

/// Points of one key at the most, where the number of points grows.
const KEY_POINTS: usize = 10_000;

/// That many jittered picks, unless the file would be too long.
pub fn picks_file(points: usize) -> Option<Input> {
    Input::of_series("picks", &picks_series(points, START, 3))
}

/// Two files of half as many jittered picks each, half of either over the other.
pub fn picks_pair(points: usize) -> Option<Pair> {
    let half = points / 2;
    let overlap = 100 * MILLISECOND * half.min(KEY_POINTS) as i64 / 2;
    Pair::of_series(
        "picks",
        &picks_series(half, START, 4),
        &picks_series(half, START + overlap, 5),
    )
}

fn picks_series(points: usize, start: i64, case: u64) -> Vec<Series> {
    let mut random = Random::of_case(SEED, case);
    (0..points.div_ceil(KEY_POINTS))
        .map(|number| {
            let count = KEY_POINTS.min(points - number * KEY_POINTS);
            picks(&mut random, loom(number, "picks"), start, count)
        })
        .collect()
}

/// That many keys of one point each, unless the file would be too long.
pub fn keys_file(keys: usize) -> Option<Input> {
    let mut random = Random::of_case(SEED, 6);
    let series: Vec<_> = (0..keys)
        .map(|number| picks(&mut random, format!("k{number:05}").into(), START, 1))
        .collect();
    Input::of_series("keys", &series)
}
