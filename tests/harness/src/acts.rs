//! The acts as the C interface has them: each replies 0 and what it gives, or the number of the
//! refusal and 0 in every other field.

use tsm_reference as reference;
use tsm_reference::Refusal;

use crate::call::Entry;

/// A key and time asked for.
#[derive(Clone, Copy, Debug)]
pub struct Query<'a> {
    pub image: &'a [u8],
    pub key: &'a [u8],
    pub time: i64,
}

/// What an act replies.
#[derive(Clone, Copy, Debug, PartialEq, Eq)]
pub struct Reply<T> {
    /// 0, or the number of the refusal.
    pub number: u8,
    /// What the act gives; on a refusal, 0 in every field.
    pub given: T,
}

/// What check gives.
#[derive(Clone, Copy, Debug, Default, PartialEq, Eq)]
pub struct Totals {
    pub keys: u64,
    pub points: u64,
}

/// What read block gives beside the points.
#[derive(Clone, Copy, Debug, Default, PartialEq, Eq)]
pub struct Block {
    pub entry: Entry,
    pub count: usize,
}

/// What read point gives.
#[derive(Clone, Copy, Debug, Default, PartialEq, Eq)]
pub struct Point {
    pub entry: Entry,
    pub value: i64,
}

/// The seven acts, with the answers of the C functions of the same names.
pub trait Acts {
    fn check(&self, image: &[u8]) -> Reply<Totals>;
    fn find(&self, query: Query) -> Reply<Entry>;
    fn read_block(&self, query: Query, times: &mut [i64], values: &mut [i64]) -> Reply<Block>;
    fn read_point(&self, query: Query) -> Reply<Point>;
    /// Gives the number of bytes, as the next two do.
    fn write(&self, roll: &[u8], out: &mut [u8]) -> Reply<usize>;
    fn unroll(&self, image: &[u8], out: &mut [u8]) -> Reply<usize>;
    fn merge(&self, older: &[u8], newer: &[u8], out: &mut [u8]) -> Reply<usize>;
}

/// The reference.
pub struct Reference;

impl Acts for Reference {
    fn check(&self, image: &[u8]) -> Reply<Totals> {
        let checked = reference::check(image);
        reply(checked.map(|totals| Totals {
            keys: totals.keys,
            points: totals.points,
        }))
    }

    fn find(&self, query: Query) -> Reply<Entry> {
        let found = reference::find(query.image, query.key, query.time);
        reply(found.map(entry_of))
    }

    fn read_block(&self, query: Query, times: &mut [i64], values: &mut [i64]) -> Reply<Block> {
        let Query { image, key, time } = query;
        let read = reference::read_block(image, key, time, times, values);
        reply(read.map(|read| Block {
            entry: entry_of(read.entry),
            count: read.count,
        }))
    }

    fn read_point(&self, query: Query) -> Reply<Point> {
        let read = reference::read_point(query.image, query.key, query.time);
        reply(read.map(|read| Point {
            entry: entry_of(read.entry),
            value: read.value,
        }))
    }

    fn write(&self, roll: &[u8], out: &mut [u8]) -> Reply<usize> {
        reply(reference::write(roll, out))
    }

    fn unroll(&self, image: &[u8], out: &mut [u8]) -> Reply<usize> {
        reply(reference::unroll(image, out))
    }

    fn merge(&self, older: &[u8], newer: &[u8], out: &mut [u8]) -> Reply<usize> {
        reply(reference::merge(older, newer, out).map_err(|refused| refused.refusal))
    }
}

fn entry_of(entry: reference::Entry) -> Entry {
    Entry {
        kind: entry.kind.byte(),
        min: entry.min,
        max: entry.max,
        offset: entry.offset,
        size: entry.size,
    }
}

/// What the C function would reply.
fn reply<T: Default>(answer: Result<T, Refusal>) -> Reply<T> {
    match answer {
        Ok(given) => Reply { number: 0, given },
        Err(refusal) => Reply {
            number: refusal.number(),
            given: T::default(),
        },
    }
}
