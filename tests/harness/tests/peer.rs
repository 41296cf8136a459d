//! Files, sections and merges of the tsm1 engine.

use tsm_harness::acts::Query;
use tsm_harness::call::{Answer, Call, Entry};
use tsm_harness::data::{self, unhex};
use tsm_harness::model::{Model, BOOLEAN, INTEGER};
use tsm_harness::parts::{booleans, varint_bytes, BlockParts, Parts, SeriesParts};
use tsm_harness::trial::Trial;
use tsm_reference::block::MAX_POINTS;

tsm_harness::test_implementations!(
    files_are_accepted_or_refused,
    points_are_those_of_tsm1,
    rolls_and_images_round_trip,
    merges_are_those_of_tsm1,
    sections_are_read,
    sections_are_written,
);

/// More than any image or roll of a peer file has.
const CAPACITY: usize = 1 << 20;

/// A row of TABLE.md.
struct PeerFile {
    name: String,
    image: Vec<u8>,
    /// The refusal expected by document 01, if one is.
    refused: Option<u8>,
    /// Whether our writer makes the same bytes of an accepted file's points.
    is_same: bool,
}

impl PeerFile {
    /// The image our writer makes of the file's points.
    fn rewritten(&self) -> Vec<u8> {
        match self.is_same {
            true => self.image.clone(),
            false => data::bytes(&format!("peer/rewritten/{}.tsm", self.name)),
        }
    }
}

fn peer_files() -> Vec<PeerFile> {
    let table = data::text("peer/TABLE.md");
    let rows = table.lines().skip(2);
    let files: Vec<_> = rows.map(peer_file).collect();
    assert_eq!(files.len(), 80, "rows of TABLE.md");
    files
}

fn peer_file(row: &str) -> PeerFile {
    let cells: Vec<&str> = row.split('|').map(str::trim).collect();
    let (name, expected, model) = (cells[1], cells[5], cells[6]);
    let refused = match expected.split(' ').next() {
        Some("ok") => None,
        Some(number) => Some(number.parse().expect("a refusal's number")),
        None => panic!("no expectation of {name}"),
    };
    PeerFile {
        name: name.to_string(),
        image: image(name),
        refused,
        is_same: model == "same",
    }
}

fn accepted_files() -> impl Iterator<Item = PeerFile> {
    peer_files()
        .into_iter()
        .filter(|file| file.refused.is_none())
}

fn image(name: &str) -> Vec<u8> {
    data::bytes(&format!("peer/files/{name}.tsm"))
}

fn roll(name: &str) -> Vec<u8> {
    data::bytes(&format!("peer/rolls/{name}.roll"))
}

fn bare() -> Vec<u8> {
    image("h_bare")
}

/// One key as tsm1's reader has it.
struct Series {
    key: Vec<u8>,
    kind: u8,
    entries: Vec<Entry>,
    points: Vec<(i64, i64)>,
}

/// What tsm1's reader finds in a file that document 01 accepts.
fn series_by_tsm1(name: &str) -> Vec<Series> {
    let mut all: Vec<Series> = Vec::new();
    for line in data::text(&format!("peer/points/{name}.txt")).lines() {
        let fields: Vec<&str> = line.split(' ').collect();
        let number = |field: usize| fields[field].parse::<i64>().expect("a number");
        match (fields[0], all.last_mut()) {
            // The bare image, which tsm1 does not take, has no points.
            ("reader", _) => assert_eq!(name, "h_bare"),
            ("key", _) => all.push(Series {
                key: unhex(fields[1]),
                kind: number(3) as u8,
                entries: Vec::new(),
                points: Vec::new(),
            }),
            ("entry", Some(series)) => series.entries.push(Entry {
                kind: series.kind,
                min: number(1),
                max: number(2),
                offset: number(3) as u64,
                size: number(4) as u32,
            }),
            (_, Some(series)) => series.points.push((number(0), number(1))),
            (_, None) => panic!("a line before the first key of {name}"),
        }
    }
    all
}

fn files_are_accepted_or_refused(trial: &mut Trial) {
    for file in peer_files() {
        let (name, image) = (&file.name, &file.image);
        let expected = match file.refused {
            Some(number) => Answer::Refused(number),
            None => {
                let series = series_by_tsm1(name);
                Answer::Totals {
                    keys: series.len() as u64,
                    points: series.iter().map(|s| s.points.len() as u64).sum(),
                }
            }
        };
        assert_eq!(trial.run(Call::Check { image }), expected, "{name}");
        if file.refused.is_some() {
            let unrolled = trial.run(Call::Unroll {
                image,
                capacity: CAPACITY,
            });
            assert_eq!(unrolled, expected, "{name} unrolled");
            assert_eq!(merge(trial, image, &bare()), expected, "{name} older");
            assert_eq!(merge(trial, &bare(), image), expected, "{name} newer");
        }
    }
}

fn points_are_those_of_tsm1(trial: &mut Trial) {
    for file in accepted_files() {
        for series in series_by_tsm1(&file.name) {
            for &entry in &series.entries {
                block_is_that_of_tsm1(trial, &file, &series, entry);
            }
        }
    }
}

/// Find and both reads answer the entry and its points.
fn block_is_that_of_tsm1(trial: &mut Trial, file: &PeerFile, series: &Series, entry: Entry) {
    let name = &file.name;
    let ask = |time| Query {
        image: &file.image,
        key: &series.key,
        time,
    };
    let in_block = |point: &&(i64, i64)| entry.min <= point.0 && point.0 <= entry.max;
    let points = series.points.iter().filter(in_block);
    let (times, values): (Vec<_>, Vec<_>) = points.copied().unzip();

    for time in [entry.min, entry.max] {
        let found = trial.run(Call::Find { query: ask(time) });
        assert_eq!(found, Answer::Entry(entry), "{name}");
    }
    // Only some of the points, for the time it takes.
    for rank in (0..times.len()).step_by(41).chain([times.len() - 1]) {
        let (query, value) = (ask(times[rank]), values[rank]);
        let read = trial.run(Call::ReadPoint { query });
        assert_eq!(read, Answer::Point { entry, value }, "{name}");
    }
    let read = trial.run(Call::ReadBlock {
        query: ask(entry.min),
        times: MAX_POINTS,
        values: MAX_POINTS,
    });
    let expected = Answer::Block {
        entry,
        times,
        values,
    };
    assert_eq!(read, expected, "{name}");
}

fn rolls_and_images_round_trip(trial: &mut Trial) {
    for file in accepted_files() {
        let name = &file.name;
        let (roll, rewritten) = (roll(name), file.rewritten());
        let expected = Answer::Bytes(roll.clone());
        for image in [&file.image, &rewritten] {
            let unrolled = trial.run(Call::Unroll {
                image,
                capacity: CAPACITY,
            });
            assert_eq!(unrolled, expected, "{name} unrolled");
        }
        let written = trial.run(Call::Write {
            roll: &roll,
            capacity: CAPACITY,
        });
        assert_eq!(written, Answer::Bytes(rewritten), "{name} written");
    }
}

fn merges_are_those_of_tsm1(trial: &mut Trial) {
    for (older, newer, merged) in [
        ("m_older", "m_newer", "m_full"),
        ("srv_snap1", "srv_snap2", "srv_full"),
        ("srv_1960_snap1", "srv_1960_snap2", "srv_1960_full"),
    ] {
        let expected = accepted_files().find(|file| file.name == merged);
        let expected = expected.expect("an accepted file").rewritten();
        let answer = merge(trial, &image(older), &image(newer));
        assert_eq!(answer, Answer::Bytes(expected), "{older} and {newer}");
    }
    // Merged with nothing or with itself, a file is written anew.
    for file in accepted_files() {
        let (name, image) = (&file.name, &file.image);
        let rewritten = Answer::Bytes(file.rewritten());
        assert_eq!(merge(trial, image, &bare()), rewritten, "{name} older");
        assert_eq!(merge(trial, &bare(), image), rewritten, "{name} newer");
        assert_eq!(merge(trial, image, image), rewritten, "{name} twice");
    }
}

fn merge(trial: &mut Trial, older: &[u8], newer: &[u8]) -> Answer {
    trial.run(Call::Merge {
        older,
        newer,
        capacity: CAPACITY,
    })
}

/// A row of sections.txt.
struct Section {
    /// Whether it is a timestamps section.
    is_times: bool,
    kind: u8,
    list: Vec<i64>,
    bytes: Vec<u8>,
    verdict: Verdict,
}

enum Verdict {
    /// Our writer makes these bytes.
    Written(Vec<u8>),
    Refused(u8),
}

/// The sections of kinds that are carried.
fn sections() -> Vec<Section> {
    let text = data::text("peer/sections.txt");
    let sections: Vec<_> = text.lines().filter_map(section).collect();
    assert_eq!(sections.len(), 445, "sections of carried kinds");
    sections
}

fn section(row: &str) -> Option<Section> {
    let cells: Vec<&str> = row.split('\t').collect();
    let (is_times, kind) = match cells[0] {
        "times" => (true, BOOLEAN),
        "ints" => (false, INTEGER),
        "bools" => (false, BOOLEAN),
        _ => return None,
    };
    let numbers = cells[1].split(',');
    let bytes = unhex(cells[2]);
    let verdict = match cells[3].strip_prefix("refused ") {
        Some(number) => Verdict::Refused(number.parse().expect("a refusal's number")),
        None if cells[3] == "same" => Verdict::Written(bytes.clone()),
        None => Verdict::Written(unhex(cells[3])),
    };
    Some(Section {
        is_times,
        kind,
        list: numbers.map(|n| n.parse().expect("a number")).collect(),
        bytes,
        verdict,
    })
}

impl Section {
    /// The times and values of a block with this section: for times the values are all 0, for
    /// values the times are 0, 1, 2 and so on, but not more of them than are good.
    fn points(&self) -> (Vec<i64>, Vec<i64>) {
        let count = self.list.len();
        match self.is_times {
            true => (self.list.clone(), vec![0; count]),
            false => (
                (0..count.min(MAX_POINTS) as i64).collect(),
                self.list.clone(),
            ),
        }
    }

    /// An image of one block, in which `bytes` are this section.
    fn image(&self, bytes: &[u8]) -> Vec<u8> {
        let (times, values) = self.points();
        let (times_bytes, values_bytes) = match self.is_times {
            true => (bytes.to_vec(), booleans(&values)),
            false => (first_times(times.len()), bytes.to_vec()),
        };
        let mut block = BlockParts::new(self.kind, &times, times_bytes, values_bytes);
        if !times.is_sorted() {
            // The index is to be in order, so that the section is looked at.
            (block.min, block.max) = (i64::MIN, i64::MAX);
        }
        let series = SeriesParts {
            key: KEY.to_vec(),
            kind: self.kind,
            blocks: vec![block],
        };
        Parts {
            series: vec![series],
        }
        .image()
    }
}

const KEY: &[u8] = b"k";

/// The timestamps section of so many times 0, 1, 2 and so on.
fn first_times(count: usize) -> Vec<u8> {
    match count {
        1 => unhex("1c0000000000000000"),
        _ => [unhex("20000000000000000001"), varint_bytes(count as u64)].concat(),
    }
}

/// tsm1's bytes are read as its list, or refused as the verdict says.
fn sections_are_read(trial: &mut Trial) {
    for section in sections() {
        let image = &section.image(&section.bytes);
        let checked = trial.run(Call::Check { image });
        let (times, values) = section.points();
        match section.verdict {
            Verdict::Refused(number) => assert_eq!(checked, Answer::Refused(number)),
            Verdict::Written(_) => {
                let points = times.len() as u64;
                assert_eq!(checked, Answer::Totals { keys: 1, points });
                let read = trial.run(Call::ReadBlock {
                    query: Query {
                        image,
                        key: KEY,
                        time: times[0],
                    },
                    times: MAX_POINTS,
                    values: MAX_POINTS,
                });
                let Answer::Block {
                    times: times_read,
                    values: values_read,
                    ..
                } = read
                else {
                    panic!("{read}");
                };
                assert_eq!((times_read, values_read), (times, values));
            }
        }
    }
}

/// Our writer makes the bytes of the verdict.
fn sections_are_written(trial: &mut Trial) {
    for section in sections() {
        let Verdict::Written(bytes) = &section.verdict else {
            continue;
        };
        let (times, values) = section.points();
        let points = times.into_iter().zip(values);
        let roll = Model::of_series(KEY, section.kind, points).roll();
        let written = trial.run(Call::Write {
            roll: &roll,
            capacity: CAPACITY,
        });
        assert_eq!(written, Answer::Bytes(section.image(bytes)));
    }
}
