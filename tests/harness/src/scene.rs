//! What a generated case is about: a roll, an image or three images to merge, with the points that
//! they hold if that is known.

use std::cell::RefCell;
use std::collections::BTreeMap;

use tsm_reference::index::MAX_KEY;
use tsm_reference::{merge, unroll, write};

use crate::acts::Query;
use crate::call::Call;
use crate::damage::{damage_image, damage_parts, damage_roll};
use crate::model::{Model, Series, BOOLEAN, INTEGER};
use crate::parts::Parts;
use crate::random::Random;

/// More than any result of a scene has.
const CAPACITY: usize = 1 << 21;

/// Once in so many cases, a scene has as many keys as an image can hold, or some more.
const CROWD_ONCE_IN: usize = 1_000;

pub enum Scene {
    /// A roll, and its points if it is good.
    Roll { roll: Vec<u8>, model: Option<Model> },
    /// An image, its points if it is good, and what is asked of it.
    Image {
        image: Vec<u8>,
        model: Option<Model>,
        questions: Vec<Question>,
    },
    /// Images to be merged, oldest first, and their points if they are good.
    Merge {
        images: [(Vec<u8>, Option<Model>); 3],
    },
}

/// A key and time to ask for.
pub struct Question {
    pub key: Vec<u8>,
    pub time: i64,
}

impl Question {
    pub fn of<'a>(&'a self, image: &'a [u8]) -> Query<'a> {
        Query {
            image,
            key: &self.key,
            time: self.time,
        }
    }
}

impl Scene {
    /// The scene of a case.
    pub fn new(random: &mut Random) -> Scene {
        let is_crowd = random.once_in(CROWD_ONCE_IN);
        let model = match is_crowd {
            true => crowd(random),
            false => small_model(random),
        };
        match random.below(4) {
            0 => roll_scene(model, is_crowd, random),
            1 => merge_scene(model, is_crowd, random),
            _ => image_scene(model, random),
        }
    }

    /// Calls of every act that the scene is for, with outputs that are as long as the result, one
    /// cell shorter, and others.
    pub fn calls<'a>(&'a self, random: &mut Random) -> Vec<Call<'a>> {
        let mut calls = Vec::new();
        match self {
            Scene::Roll { roll, .. } => {
                let length = laid_length(|out| write(roll, out));
                let capacity = near_length(length, random);
                calls.push(Call::Write { roll, capacity });
            }
            Scene::Image {
                image, questions, ..
            } => {
                calls.push(Call::Check { image });
                let length = laid_length(|out| unroll(image, out));
                let capacity = near_length(length, random);
                calls.push(Call::Unroll { image, capacity });
                for question in questions {
                    let query = question.of(image);
                    calls.push(Call::Find { query });
                    calls.push(Call::ReadPoint { query });
                    let count = block_length(query);
                    calls.push(Call::ReadBlock {
                        query,
                        times: near_length(count, random),
                        values: near_length(count, random),
                    });
                }
            }
            Scene::Merge { images } => {
                for pair in images.windows(2) {
                    let (older, newer) = (&pair[0].0, &pair[1].0);
                    let length = laid_length(|out| merge(older, newer, out));
                    let capacity = near_length(length, random);
                    calls.push(Call::Merge {
                        older,
                        newer,
                        capacity,
                    });
                }
            }
        }
        calls
    }
}

/// Lends an output that is long enough for the result of any scene.
fn with_output<T>(act: impl FnOnce(&mut [u8]) -> T) -> T {
    thread_local! {
        static OUTPUT: RefCell<Vec<u8>> = RefCell::new(vec![0; CAPACITY]);
    }
    OUTPUT.with_borrow_mut(|output| act(output))
}

/// How many bytes an act lays; 0 if it refuses.
pub fn laid_length<E>(act: impl FnOnce(&mut [u8]) -> Result<usize, E>) -> usize {
    with_output(|output| act(output).unwrap_or(0))
}

/// How many points are read for the query; 0 if it is refused.
fn block_length(query: Query) -> usize {
    let Query { image, key, time } = query;
    let (mut times, mut values) = ([0; 1_000], [0; 1_000]);
    let read = tsm_reference::read_block(image, key, time, &mut times, &mut values);
    read.map_or(0, |read| read.count)
}

/// A length for an output whose result has `length` cells.
fn near_length(length: usize, random: &mut Random) -> usize {
    match random.below(8) {
        0..=3 => length + random.pick(&[0, 1, 7, 100]),
        4 | 5 => length,
        6 => length.saturating_sub(1),
        _ => random.below(length + 1),
    }
}

fn roll_scene(model: Model, is_crowd: bool, random: &mut Random) -> Scene {
    let mut roll = model.roll();
    let is_good = is_crowd || random.coin();
    if !is_good {
        damage_roll(&mut roll, random);
    }
    Scene::Roll {
        roll,
        model: is_good.then_some(model),
    }
}

fn image_scene(model: Model, random: &mut Random) -> Scene {
    let questions = (0..4).map(|_| question(&model, random)).collect();
    let damage_once_in = random.pick(&[1, 1, 3]);
    let (image, model) = image_of(model, damage_once_in, random);
    Scene::Image {
        image,
        model,
        questions,
    }
}

fn merge_scene(oldest: Model, is_crowd: bool, random: &mut Random) -> Scene {
    let later = |model: &Model, random: &mut Random| match is_crowd {
        true => some_of(model, random),
        false => related(model, random),
    };
    let middle = later(&oldest, random);
    let newest = later(&middle, random);
    let damage_once_in = match is_crowd {
        true => 100,
        false => random.pick(&[2, 10, 1_000]),
    };
    Scene::Merge {
        images: [oldest, middle, newest].map(|model| image_of(model, damage_once_in, random)),
    }
}

/// An image of the model, by our writer or in other forms, and damaged once in so many times. The
/// model comes back if the image was not damaged.
fn image_of(model: Model, damage_once_in: usize, random: &mut Random) -> (Vec<u8>, Option<Model>) {
    let parts = Parts::foreign(&model, random);
    if random.once_in(damage_once_in) {
        return (damaged_image(parts, random), None);
    }
    let ours = match random.coin() {
        true => written(&model.roll()),
        false => None,
    };
    (ours.unwrap_or_else(|| parts.image()), Some(model))
}

/// The image with one fault, or with two, which may meet at one place.
fn damaged_image(mut parts: Parts, random: &mut Random) -> Vec<u8> {
    let (parts_faults, image_faults) = random.pick(&[(1, 0), (2, 0), (1, 1), (0, 1)]);
    for _ in 0..parts_faults {
        damage_parts(&mut parts, random);
    }
    let made = parts.assemble();
    match image_faults {
        0 => made.image,
        _ => damage_image(made, random),
    }
}

/// The reference's image of a roll, if it is not too long.
fn written(roll: &[u8]) -> Option<Vec<u8>> {
    with_output(|output| {
        let length = write(roll, output).ok()?;
        Some(output[..length].to_vec())
    })
}

/// A few keys with a few points.
fn small_model(random: &mut Random) -> Model {
    let count = random.pick(&[0, 1, 1, 1, 2, 2, 3, 4, 6]);
    let series = (0..count).map(|_| (key(random), series(random)));
    Model {
        series: series.collect(),
    }
}

/// About as many keys with one boolean each as an image can hold.
fn crowd(random: &mut Random) -> Model {
    let count = random.between(19_770, 19_800) as u16;
    let mut series = BTreeMap::new();
    for number in 0..count {
        let point = (random.any() as i64, random.below(2) as i64);
        let one = Series {
            kind: BOOLEAN,
            points: BTreeMap::from([point]),
        };
        series.insert(number.to_be_bytes().to_vec(), one);
    }
    Model { series }
}

/// A few series of a crowd, some of them under other keys, and perhaps one of another kind.
fn some_of(crowd: &Model, random: &mut Random) -> Model {
    let mut series = BTreeMap::new();
    for (key, one) in crowd.series.iter().step_by(random.between(100, 1_000)) {
        let mut key = key.clone();
        if random.coin() {
            key.push(0);
        }
        series.insert(key, one.clone());
    }
    if random.once_in(4) {
        let clash = series.first_entry().expect("a crowd has a first key");
        clash.into_mut().kind = INTEGER;
    }
    Model { series }
}

/// Another file that has keys and times in common with the model.
fn related(model: &Model, random: &mut Random) -> Model {
    let mut other = match random.coin() {
        true => small_model(random),
        false => Model::default(),
    };
    for (key, series) in &model.series {
        if random.once_in(5) {
            continue;
        }
        let kind = match random.once_in(20) {
            true => random.pick(&[INTEGER, BOOLEAN]),
            false => series.kind,
        };
        let keep_once_in = random.pick(&[1, 2, 8]);
        let mut points = BTreeMap::new();
        for (&time, &value) in &series.points {
            if !random.once_in(keep_once_in) && !points.is_empty() {
                continue;
            }
            let time = time.saturating_add(random.pick(&[0, 0, 0, 1, -1]));
            let value = match kind == series.kind && random.once_in(3) {
                true => value,
                false => single_value(kind, random),
            };
            points.insert(time, value);
        }
        other.series.insert(key.clone(), Series { kind, points });
    }
    other
}

fn key(random: &mut Random) -> Vec<u8> {
    let length = match random.below(40) {
        0 => MAX_KEY - random.below(2),
        1 | 2 => random.between(100, 300),
        3..=7 => random.between(5, 40),
        _ => random.between(1, 3),
    };
    // Few letters, so that keys are often prefixes of others.
    (0..length)
        .map(|_| random.pick(&[0x00, b'a', b'b', 0xff]))
        .collect()
}

fn series(random: &mut Random) -> Series {
    let kind = random.pick(&[INTEGER, BOOLEAN]);
    let times = times(random);
    let values = values(kind, times.len(), random);
    Series {
        kind,
        points: times.into_iter().zip(values).collect(),
    }
}

fn point_count(random: &mut Random) -> usize {
    match random.below(100) {
        0..=14 => 1,
        15..=24 => 2,
        25..=39 => 3,
        40..=74 => random.between(4, 20),
        75..=89 => random.between(21, 130),
        90..=96 => random.between(131, 500),
        97 | 98 => random.between(998, 1_002),
        _ => random.between(1_003, 3_000),
    }
}

/// At least one time, ascending.
fn times(random: &mut Random) -> Vec<i64> {
    let differences = differences(random);
    let total = differences
        .iter()
        .try_fold(0_u64, |sum, &d| sum.checked_add(d));
    let last_is_greatest = total.and_then(|total| i64::MAX.checked_sub_unsigned(total));
    let mut time = match random.below(8) {
        0 => 0,
        1 => -(random.up_to_bits(12) as i64),
        2 => 1_700_000_000_000_000_000,
        3 => -300_000_000_000_000_000,
        4 => random.any() as i64,
        5 => last_is_greatest.unwrap_or(i64::MIN),
        _ => i64::MIN,
    };
    let mut times = vec![time];
    for difference in differences {
        let Some(later) = time.checked_add_unsigned(difference) else {
            break;
        };
        time = later;
        times.push(time);
    }
    times
}

/// Differences of times, each at least 1, in one of the ways that writers tell apart.
fn differences(random: &mut Random) -> Vec<u64> {
    let count = point_count(random) - 1;
    let scale = 10_u64.pow(random.pick(&[0, 0, 1, 2, 3, 6, 9, 11, 12, 13]));
    let style = random.below(7);
    let step = random.between(1, 20) as u64;
    let bits = random.between(1, 8) as u32;
    let other_once_in = random.pick(&[40, 130, 300]);
    let around_limit = [1, 2, (1 << 60) - 2, (1 << 60) - 1, 1 << 60];
    let difference = |_| match style {
        0 => step * scale,
        1 => random.between(1, 7) as u64 * scale,
        2 => 93_000_000 + random.below(14_000_000) as u64,
        3 if !random.once_in(other_once_in) => 1,
        3 | 4 => random.up_to_bits(60).max(1),
        5 => random.pick(&around_limit),
        _ => random.up_to_bits(bits).max(1) * scale,
    };
    (0..count).map(difference).collect()
}

/// So many values of a kind, in one of the ways that writers tell apart.
fn values(kind: u8, count: usize, random: &mut Random) -> Vec<i64> {
    let style = random.below(6);
    let bits = random.between(1, 12) as u32;
    let step = random.pick(&[0, 0, 1, -1, 5, i64::MAX, i64::MIN]);
    let mut value = single_value(kind, random);
    let next = |_| {
        let this = value;
        value = match (kind, style) {
            (_, 0) => single_value(kind, random),
            (BOOLEAN, 1..=3) => value,
            (BOOLEAN, _) => random.below(2) as i64,
            (_, 1 | 2) => value.wrapping_add(step),
            (_, 3) => value.wrapping_add(random.up_to_bits(bits) as i64),
            (_, 4) if random.coin() => value.wrapping_sub(1),
            _ => value.wrapping_add(random.up_to_bits(58) as i64 - (1 << 57)),
        };
        this
    };
    (0..count).map(next).collect()
}

fn single_value(kind: u8, random: &mut Random) -> i64 {
    if kind == BOOLEAN {
        return random.below(2) as i64;
    }
    let limit = 1 << 59;
    let edges = [
        0,
        1,
        -1,
        i64::MIN,
        i64::MAX,
        limit,
        limit - 1,
        -limit,
        1 - limit,
    ];
    match random.below(3) {
        0 => random.pick(&edges),
        1 => random.up_to_bits(20) as i64,
        _ => random.any() as i64,
    }
}

/// A key and time that the file has, almost has, or has not.
fn question(model: &Model, random: &mut Random) -> Question {
    let any_key = key(random);
    let Some((key, series)) = nth(model.series.iter(), random) else {
        let time = random.any() as i64;
        return Question { key: any_key, time };
    };
    let key = match random.below(20) {
        0 => any_key,
        1 => Vec::new(),
        2 => vec![b'k'; MAX_KEY + 1],
        3 => [key, &b"a"[..]].concat(),
        4 => key[..key.len() - 1].to_vec(),
        _ => key.clone(),
    };
    let times = [
        series.points.keys().next(),
        series.points.keys().next_back(),
    ];
    let some_time = nth(series.points.keys(), random);
    let time = match random.below(10) {
        0 => random.any() as i64,
        1 => random.pick(&[i64::MIN, i64::MAX]),
        2 | 3 => *random.pick(&times).unwrap_or(&0),
        _ => *some_time.unwrap_or(&0),
    };
    let time = time.saturating_add(random.pick(&[0, 0, 0, 1, -1]));
    Question { key, time }
}

/// Any item, if there is one.
fn nth<T>(mut items: impl ExactSizeIterator<Item = T>, random: &mut Random) -> Option<T> {
    match items.len() {
        0 => None,
        count => items.nth(random.below(count)),
    }
}
