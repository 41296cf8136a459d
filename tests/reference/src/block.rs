//! The block: checksum, kind, T, T bytes of timestamps, and the values in all the rest.

use crate::booleans;
use crate::bytes;
use crate::crc32;
use crate::index::{Entry, Kind};
use crate::integers;
use crate::refusal::{Place, Refusal};
use crate::timestamps;
use crate::varint;

/// The most points of a block.
pub const MAX_POINTS: usize = 1_000;
/// Bytes of the checksum, which stands first.
pub const CHECKSUM: usize = 4;

/// The points of one block.
pub struct Points {
    times: [i64; MAX_POINTS],
    values: [i64; MAX_POINTS],
    count: usize,
}

impl Default for Points {
    fn default() -> Self {
        Points {
            times: [0; MAX_POINTS],
            values: [0; MAX_POINTS],
            count: 0,
        }
    }
}

impl Points {
    pub fn times(&self) -> &[i64] {
        &self.times[..self.count]
    }

    /// The values, in the order of the times; booleans are 0 or 1.
    pub fn values(&self) -> &[i64] {
        &self.values[..self.count]
    }

    /// Forgets the points.
    pub fn clear(&mut self) {
        self.count = 0;
    }

    pub fn is_full(&self) -> bool {
        self.count == MAX_POINTS
    }

    /// Adds a point; the block is not full.
    #[inline]
    pub fn push(&mut self, time: i64, value: i64) {
        self.times[self.count] = time;
        self.values[self.count] = value;
        self.count += 1;
    }

    /// Adds as many of the points as there is room for, and answers how many.
    pub fn extend(&mut self, times: &[i64], values: &[i64]) -> usize {
        let count = times.len().min(MAX_POINTS - self.count);
        let cells = self.count..self.count + count;
        self.times[cells.clone()].copy_from_slice(&times[..count]);
        self.values[cells].copy_from_slice(&values[..count]);
        self.count += count;
        count
    }

    /// Reads the block of `entry`: refusals 12 to 16.
    pub fn read(&mut self, image: &[u8], entry: &Entry) -> Result<(), Refusal> {
        let block = &image[entry.start()..entry.end()];
        if bytes::u32_at(block, 0) != Some(crc32::checksum(&block[CHECKSUM..])) {
            return Err(Refusal::Checksum(entry.start()));
        }
        let Sections { times, values } = sections(image, entry)?;
        self.count = timestamps::read(&image[times..values], &mut self.times)
            .map_err(|place| Refusal::Timestamps(times + place))?;

        let section = &image[values..entry.end()];
        let slots = &mut self.values[..self.count];
        match entry.kind {
            Kind::Integer => integers::read(section, slots),
            Kind::Boolean => booleans::read(section, slots),
        }
        .map_err(|place| Refusal::Values(values + place))?;

        let ends = (self.times[0], self.times[self.count - 1]);
        if ends != (entry.min, entry.max) {
            return Err(Refusal::BlockTimes(entry.start()));
        }
        Ok(())
    }
}

/// Where the two sections of a block begin.
struct Sections {
    times: Place,
    values: Place,
}

/// Reads kind and T of the block: refusal 13.
fn sections(image: &[u8], entry: &Entry) -> Result<Sections, Refusal> {
    let block = &image[..entry.end()];
    let kind = entry.start() + CHECKSUM;
    if block.get(kind) != Some(&entry.kind.byte()) {
        return Err(Refusal::BlockHead(kind));
    }
    let (length, times) = varint::read(block, kind + 1).map_err(Refusal::BlockHead)?;
    let left = (block.len() - times) as u64;
    if length == 0 || length >= left {
        return Err(Refusal::BlockHead(kind + 1));
    }
    let values = times + length as usize;
    Ok(Sections { times, values })
}

/// Working space for a block that is written.
#[derive(Default)]
pub struct Space {
    numbers: Vec<u64>,
    section: Vec<u8>,
}

/// Appends our writer's block.
pub fn append(kind: Kind, points: &Points, space: &mut Space, out: &mut Vec<u8>) {
    let Space { numbers, section } = space;
    let block = out.len();
    out.extend_from_slice(&[0; CHECKSUM]);
    out.push(kind.byte());

    section.clear();
    timestamps::append(points.times(), numbers, section);
    varint::append(section.len() as u64, out);
    out.extend_from_slice(section);

    match kind {
        Kind::Integer => integers::append(points.values(), numbers, out),
        Kind::Boolean => booleans::append(points.values(), out),
    }
    let body = block + CHECKSUM;
    let checksum = crc32::checksum(&out[body..]);
    out[block..body].copy_from_slice(&checksum.to_be_bytes());
}

#[cfg(test)]
mod tests {
    use super::*;

    #[test]
    fn worked_block_of_three_holes() {
        let mut out = Vec::new();
        let mut points = Points::default();
        points.extend(&[0, 10, 20], &[1, 0, 0]);
        append(Kind::Boolean, &points, &mut Space::default(), &mut out);
        let body = [2, 0x0b, 0x21, 0, 0, 0, 0, 0, 0, 0, 0, 1, 3, 0x10, 3, 0x80];
        assert_eq!(out[CHECKSUM..], body);
        assert_eq!(out.len(), 20);
    }
}
