//! The index: for each key its length, name, kind and count, then one entry for each block.

use std::slice::ChunksExact;

use crate::block::CHECKSUM;
use crate::bytes;
use crate::file;
use crate::refusal::{Place, Refusal};

/// The most bytes of a key.
pub const MAX_KEY: usize = 1_024;

/// Bytes of an entry for one block, and where its fields stand.
const ENTRY: usize = 28;
const MAX_TIME: usize = 8;
const OFFSET: usize = 16;
const SIZE: usize = 24;

/// What the values of a key are.
#[derive(Clone, Copy, Debug, PartialEq, Eq)]
pub enum Kind {
    Integer,
    Boolean,
}

impl Kind {
    pub fn byte(self) -> u8 {
        match self {
            Kind::Integer => 1,
            Kind::Boolean => 2,
        }
    }

    pub fn from_byte(byte: u8) -> Option<Kind> {
        match byte {
            1 => Some(Kind::Integer),
            2 => Some(Kind::Boolean),
            _ => None,
        }
    }
}

/// The index entry of one block.
#[derive(Clone, Copy, Debug, PartialEq, Eq)]
pub struct Entry {
    pub kind: Kind,
    pub min: i64,
    pub max: i64,
    pub offset: u64,
    pub size: u32,
}

impl Entry {
    /// Where the block starts in the image.
    pub fn start(&self) -> Place {
        self.offset as usize
    }

    /// Where the block ends in the image.
    pub fn end(&self) -> Place {
        self.start() + self.size as usize
    }

    fn read(kind: Kind, bytes: &[u8]) -> Option<Entry> {
        Some(Entry {
            kind,
            min: bytes::i64_at(bytes, 0)?,
            max: bytes::i64_at(bytes, MAX_TIME)?,
            offset: bytes::u64_at(bytes, OFFSET)?,
            size: bytes::u32_at(bytes, SIZE)?,
        })
    }

    /// Appends the bytes of the entry, all but the kind.
    pub fn append(&self, out: &mut Vec<u8>) {
        out.extend_from_slice(&self.min.to_be_bytes());
        out.extend_from_slice(&self.max.to_be_bytes());
        out.extend_from_slice(&self.offset.to_be_bytes());
        out.extend_from_slice(&self.size.to_be_bytes());
    }
}

/// One key of the index, with the entries of its blocks.
#[derive(Clone, Copy)]
pub struct Series<'a> {
    pub key: &'a [u8],
    pub kind: Kind,
    entries: &'a [u8],
    entries_at: Place,
}

/// The entries of a key's blocks, in order.
pub struct Entries<'a> {
    kind: Kind,
    bytes: ChunksExact<'a, u8>,
}

impl Iterator for Entries<'_> {
    type Item = Entry;

    fn next(&mut self) -> Option<Entry> {
        Entry::read(self.kind, self.bytes.next()?)
    }
}

impl<'a> Series<'a> {
    /// The entries of the blocks, in order.
    pub fn entries(&self) -> Entries<'a> {
        Entries {
            kind: self.kind,
            bytes: self.entries.chunks_exact(ENTRY),
        }
    }

    /// The entry that covers the time: refusal 18.
    pub fn entry_at(&self, time: i64) -> Result<Entry, Refusal> {
        self.entries()
            .find(|entry| entry.min <= time && time <= entry.max)
            .ok_or(Refusal::NoEntry)
    }

    /// Where the key's part of the index ends.
    fn end(&self) -> Place {
        self.entries_at + self.entries.len()
    }

    /// Reads what the index says of the key at `start`: refusals 5 to 9. `image` ends where the
    /// index does.
    fn read(image: &'a [u8], start: Place, key_before: &[u8]) -> Result<Series<'a>, Refusal> {
        let runs_past = Refusal::IndexEnd(start);
        let length = bytes::u16_at(image, start).ok_or(runs_past)?;
        let length = usize::from(length);
        if !(1..=MAX_KEY).contains(&length) {
            return Err(Refusal::KeyLength(start));
        }
        let key_at = start + 2;
        let kind_at = key_at + length;
        let count_at = kind_at + 1;
        let entries_at = count_at + 2;
        let count = bytes::u16_at(image, count_at).ok_or(runs_past)?;
        let key = &image[key_at..kind_at];
        if key <= key_before {
            return Err(Refusal::KeyOrder(key_at));
        }
        let kind = Kind::from_byte(image[kind_at]).ok_or(Refusal::Kind(kind_at))?;
        if count == 0 {
            return Err(Refusal::NoBlocks(count_at));
        }
        let end = entries_at + ENTRY * usize::from(count);
        let entries = image.get(entries_at..end).ok_or(runs_past)?;
        Ok(Series {
            key,
            kind,
            entries,
            entries_at,
        })
    }

    /// Checks the entries of the blocks, which begin at `start` and may not pass `limit`, and
    /// answers where the last one ends: refusals 10 and 11.
    fn check_entries(&self, start: Place, limit: Place) -> Result<Place, Refusal> {
        let mut block = start;
        let mut max_before = None;
        for (entry, place) in self.entries().zip((self.entries_at..).step_by(ENTRY)) {
            if entry.min > entry.max || max_before.is_some_and(|max| entry.min <= max) {
                return Err(Refusal::TimeOrder(place));
            }
            let size = entry.size as usize;
            if entry.offset != block as u64 || size < CHECKSUM || size > limit - block {
                return Err(Refusal::BlockPlace(place + OFFSET));
            }
            block += size;
            max_before = Some(entry.max);
        }
        Ok(block)
    }
}

/// Checks the whole index and shows each key in turn: refusals 1 to 11.
pub fn walk<'a>(image: &'a [u8], mut visit: impl FnMut(Series<'a>)) -> Result<(), Refusal> {
    let index = file::index_range(image)?;
    let mut place = index.start;
    let mut block = file::HEADER.len();
    // Every key is above the empty one.
    let mut key_before: &[u8] = &[];
    while place < index.end {
        let series = Series::read(&image[..index.end], place, key_before)?;
        block = series.check_entries(block, index.start)?;
        place = series.end();
        key_before = series.key;
        visit(series);
    }
    if block != index.start {
        return Err(Refusal::BlockPlace(index.end));
    }
    Ok(())
}

/// All keys of the image: refusals 1 to 11.
pub fn read(image: &[u8]) -> Result<Vec<Series<'_>>, Refusal> {
    let mut keys = Vec::new();
    walk(image, |series| keys.push(series))?;
    Ok(keys)
}

/// The key, if the image has it: refusals 1 to 11, then 17.
pub fn find<'a>(image: &'a [u8], key: &[u8]) -> Result<Series<'a>, Refusal> {
    let mut found = None;
    walk(image, |series| {
        if found.is_none() && series.key == key {
            found = Some(series);
        }
    })?;
    found.ok_or(Refusal::NoSuchKey)
}
