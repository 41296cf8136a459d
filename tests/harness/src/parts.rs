//! Images put together from parts, in any form that document 01 accepts and in some it does not.

use std::ops::Range;

use tsm_reference::integers::zigzag;
use tsm_reference::simple8b::{self, PLANS};
use tsm_reference::timestamps::POWERS;
use tsm_reference::{block, crc32, file, varint};

use crate::model::{Model, BOOLEAN, INTEGER};
use crate::random::Random;

/// What an image is put together from.
#[derive(Clone, Default)]
pub struct Parts {
    pub series: Vec<SeriesParts>,
}

#[derive(Clone)]
pub struct SeriesParts {
    pub key: Vec<u8>,
    pub kind: u8,
    pub blocks: Vec<BlockParts>,
}

#[derive(Clone)]
pub struct BlockParts {
    pub min: i64,
    pub max: i64,
    pub kind: u8,
    pub times: Vec<u8>,
    pub values: Vec<u8>,
    /// The bytes of T, when they are not those of the length of `times`.
    pub stated_length: Option<Vec<u8>>,
}

/// A fixed-width number in an image.
#[derive(Clone, Copy)]
pub struct Field {
    pub place: usize,
    pub width: usize,
}

/// An image, with what is needed to damage it.
pub struct Assembled {
    pub image: Vec<u8>,
    /// The numbers of header, index and footer, the kinds of the blocks and the first bytes of T
    /// and the sections.
    pub fields: Vec<Field>,
    pub blocks: Vec<Range<usize>>,
}

impl Assembled {
    /// Makes the checksum of each block good.
    pub fn repair_checksums(&mut self) {
        for block in &self.blocks {
            let block = &mut self.image[block.clone()];
            let (checksum, body) = block.split_at_mut(block::CHECKSUM);
            checksum.copy_from_slice(&crc32::checksum(body).to_be_bytes());
        }
    }

    /// Appends a fixed-width number.
    fn field(&mut self, bytes: &[u8]) {
        self.fields.push(Field {
            place: self.image.len(),
            width: bytes.len(),
        });
        self.image.extend(bytes);
    }

    /// Appends bytes of which the first decides what the others mean.
    fn section(&mut self, bytes: &[u8]) {
        self.fields.push(Field {
            place: self.image.len(),
            width: 1,
        });
        self.image.extend(bytes);
    }
}

impl BlockParts {
    pub fn new(kind: u8, times: &[i64], times_bytes: Vec<u8>, values_bytes: Vec<u8>) -> BlockParts {
        BlockParts {
            min: times[0],
            max: times[times.len() - 1],
            kind,
            times: times_bytes,
            values: values_bytes,
            stated_length: None,
        }
    }

    fn length_bytes(&self) -> Vec<u8> {
        let shortest = || varint_bytes(self.times.len() as u64);
        self.stated_length.clone().unwrap_or_else(shortest)
    }
}

impl Parts {
    /// The image.
    pub fn image(&self) -> Vec<u8> {
        self.assemble().image
    }

    /// The image and where its fields are.
    pub fn assemble(&self) -> Assembled {
        let mut made = Assembled {
            image: Vec::new(),
            fields: Vec::new(),
            blocks: Vec::new(),
        };
        let (magic, version) = file::HEADER.split_at(4);
        made.field(magic);
        made.field(version);
        for block in self.series.iter().flat_map(|series| &series.blocks) {
            let start = made.image.len();
            made.field(&[0; block::CHECKSUM]);
            made.field(&[block.kind]);
            made.section(&block.length_bytes());
            made.section(&block.times);
            made.section(&block.values);
            made.blocks.push(start..made.image.len());
        }
        made.repair_checksums();
        self.lay_index(&mut made);
        made
    }

    fn lay_index(&self, made: &mut Assembled) {
        let index_start = made.image.len() as u64;
        let mut places = made.blocks.clone().into_iter();
        for series in &self.series {
            made.field(&(series.key.len() as u16).to_be_bytes());
            made.image.extend(&series.key);
            made.field(&[series.kind]);
            made.field(&(series.blocks.len() as u16).to_be_bytes());
            for (block, place) in series.blocks.iter().zip(&mut places) {
                made.field(&block.min.to_be_bytes());
                made.field(&block.max.to_be_bytes());
                made.field(&(place.start as u64).to_be_bytes());
                made.field(&(place.len() as u32).to_be_bytes());
            }
        }
        made.field(&index_start.to_be_bytes());
    }

    /// The points of `model` in forms picked at random: blocks of any size, any exponent, form and
    /// plan that holds the numbers.
    pub fn foreign(model: &Model, random: &mut Random) -> Parts {
        let series = model.series.iter().map(|(key, series)| {
            let points: Vec<_> = series.points.iter().map(|(&t, &v)| (t, v)).collect();
            let mut blocks = Vec::new();
            let mut rest = &points[..];
            while !rest.is_empty() {
                let size = match random.once_in(3) {
                    true => random.between(1, rest.len()),
                    false => rest.len(),
                };
                let (taken, left) = rest.split_at(size.min(block::MAX_POINTS));
                blocks.push(foreign_block(series.kind, taken, random));
                rest = left;
            }
            SeriesParts {
                key: key.clone(),
                kind: series.kind,
                blocks,
            }
        });
        Parts {
            series: series.collect(),
        }
    }
}

fn foreign_block(kind: u8, points: &[(i64, i64)], random: &mut Random) -> BlockParts {
    let (times, values): (Vec<i64>, Vec<i64>) = points.iter().copied().unzip();
    let times_bytes = foreign_times(&times, random);
    let values_bytes = match kind {
        INTEGER => foreign_integers(&values, random),
        BOOLEAN => booleans(&values),
        _ => panic!("kind {kind}"),
    };
    BlockParts::new(kind, &times, times_bytes, values_bytes)
}

/// A timestamps section in any form that holds the times.
pub fn foreign_times(times: &[i64], random: &mut Random) -> Vec<u8> {
    let pairs = times.windows(2);
    let differences: Vec<u64> = pairs.map(|pair| pair[0].abs_diff(pair[1])).collect();
    let divides = |power: &&u64| {
        differences
            .iter()
            .all(|difference| difference % **power == 0)
    };
    let powers: Vec<u64> = POWERS.iter().take_while(divides).copied().collect();
    let exponent = random.below(powers.len());
    let scale = powers[exponent];
    let divided: Vec<u64> = differences
        .iter()
        .map(|difference| difference / scale)
        .collect();

    let head = |form: u8, exponent: usize| {
        let mut section = vec![form << 4 | exponent as u8];
        section.extend(times[0].to_be_bytes());
        section
    };
    let mut forms = vec![0];
    if divided
        .iter()
        .all(|&difference| difference <= simple8b::GREATEST)
    {
        forms.push(1);
    }
    if is_repeated(&divided) {
        forms.push(2);
    }
    match random.pick(&forms) {
        0 => raw(head(0, 0), &differences),
        1 => packed(head(1, exponent), &divided, random),
        _ => repeated(head(2, exponent), divided[0], times.len()),
    }
}

/// An integers section in any form that holds the values.
pub fn foreign_integers(values: &[i64], random: &mut Random) -> Vec<u8> {
    let mut before = 0;
    let differences = values.iter().map(|&value| {
        let difference = value.wrapping_sub(before);
        before = value;
        zigzag(difference)
    });
    let stored: Vec<u64> = differences.collect();
    let (first, rest) = (stored[0], &stored[1..]);

    let head = |form: u8| {
        let mut section = vec![form << 4];
        section.extend(first.to_be_bytes());
        section
    };
    let mut forms = vec![0];
    if rest.iter().all(|&number| number <= simple8b::GREATEST) {
        forms.push(1);
    }
    if is_repeated(rest) {
        forms.push(2);
    }
    match random.pick(&forms) {
        0 => raw(head(0), rest),
        1 => packed(head(1), rest, random),
        _ => repeated(head(2), rest[0], rest.len()),
    }
}

/// The booleans section, which has one form.
pub fn booleans(values: &[i64]) -> Vec<u8> {
    let mut section = vec![0x10];
    varint::append(values.len() as u64, &mut section);
    section.extend(values.chunks(8).map(|eight| {
        let bits = eight.iter().zip((0..8).rev());
        bits.fold(0, |byte, (&value, bit)| byte | (value as u8) << bit)
    }));
    section
}

fn is_repeated(numbers: &[u64]) -> bool {
    !numbers.is_empty() && numbers.iter().all(|&number| number == numbers[0])
}

fn raw(mut section: Vec<u8>, numbers: &[u64]) -> Vec<u8> {
    section.extend(numbers.iter().flat_map(|number| number.to_be_bytes()));
    section
}

fn repeated(mut section: Vec<u8>, number: u64, count: usize) -> Vec<u8> {
    varint::append(number, &mut section);
    varint::append(count as u64, &mut section);
    section
}

/// Packs with plans that take the numbers, often but not always the lowest.
fn packed(mut section: Vec<u8>, numbers: &[u64], random: &mut Random) -> Vec<u8> {
    let mut rest = numbers;
    let one_in = random.pick(&[2, 4, 50]);
    while !rest.is_empty() {
        let mut plans = (0..PLANS.len()).filter(|&selector| PLANS[selector].takes(rest));
        let mut selector = plans.next().expect("the last plan takes any number");
        if random.once_in(one_in) {
            let others: Vec<usize> = plans.collect();
            selector = others
                .get(random.below(others.len() + 1))
                .copied()
                .unwrap_or(selector);
        }
        let (taken, left) = rest.split_at(PLANS[selector].count);
        section.extend(simple8b::word(selector, taken).to_be_bytes());
        rest = left;
    }
    section
}

/// The bytes of a seven-bit number.
pub fn varint_bytes(number: u64) -> Vec<u8> {
    let mut bytes = Vec::new();
    varint::append(number, &mut bytes);
    bytes
}
