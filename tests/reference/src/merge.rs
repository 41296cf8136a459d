//! The merged points of two files: at a key and time that both hold, the newer's value.

use std::cmp::Ordering;

use crate::block::Points;
use crate::index::{self, Entries, Series};
use crate::refusal::Refusal;
use crate::writer::Writer;

/// Our writer's image of the merged points, or one of the refusals that a full check of either
/// image gives, or 21 or 22.
pub fn merge(older: &[u8], newer: &[u8]) -> Result<Vec<u8>, Refusal> {
    let (older_keys, newer_keys) = (index::read(older)?, index::read(newer)?);
    let pairs = || Pairs {
        older: &older_keys,
        newer: &newer_keys,
    };
    if pairs().any(|pair| pair.has_two_kinds()) {
        return Err(Refusal::TwoKinds);
    }
    let mut writer = Writer::default();
    let mut old = Feed::new(older);
    let mut new = Feed::new(newer);
    for pair in pairs() {
        let Some(series) = pair.older.or(pair.newer) else {
            break;
        };
        writer.begin(series.key, series.kind);
        old.start(pair.older)?;
        new.start(pair.newer)?;
        merge_points(&mut old, &mut new, &mut writer)?;
        writer.end();
    }
    writer.finish()
}

/// One key with what either file has under it.
struct Pair<'a> {
    older: Option<&'a Series<'a>>,
    newer: Option<&'a Series<'a>>,
}

impl Pair<'_> {
    fn has_two_kinds(&self) -> bool {
        match (self.older, self.newer) {
            (Some(older), Some(newer)) => older.kind != newer.kind,
            _ => false,
        }
    }
}

/// The keys of both files, ascending.
struct Pairs<'a> {
    older: &'a [Series<'a>],
    newer: &'a [Series<'a>],
}

impl<'a> Iterator for Pairs<'a> {
    type Item = Pair<'a>;

    fn next(&mut self) -> Option<Pair<'a>> {
        let order = match (self.older.first(), self.newer.first()) {
            (None, None) => return None,
            (Some(_), None) => Ordering::Less,
            (None, Some(_)) => Ordering::Greater,
            (Some(older), Some(newer)) => older.key.cmp(newer.key),
        };
        Some(Pair {
            older: take_first_if(order.is_le(), &mut self.older),
            newer: take_first_if(order.is_ge(), &mut self.newer),
        })
    }
}

fn take_first_if<'a>(wanted: bool, keys: &mut &'a [Series<'a>]) -> Option<&'a Series<'a>> {
    let (first, rest) = keys.split_first().filter(|_| wanted)?;
    *keys = rest;
    Some(first)
}

/// The points of one series, block by block.
struct Feed<'a> {
    image: &'a [u8],
    entries: Option<Entries<'a>>,
    block: Points,
    at: usize,
}

impl<'a> Feed<'a> {
    /// A feed of no points.
    fn new(image: &'a [u8]) -> Feed<'a> {
        Feed {
            image,
            entries: None,
            block: Points::default(),
            at: 0,
        }
    }

    /// Goes to the first point of the series.
    fn start(&mut self, series: Option<&Series<'a>>) -> Result<(), Refusal> {
        self.entries = series.map(Series::entries);
        self.next_block()
    }

    /// The times and values that are left of the block; none at the end of the series.
    fn rest(&self) -> (&[i64], &[i64]) {
        let (times, values) = (self.block.times(), self.block.values());
        (&times[self.at..], &values[self.at..])
    }

    /// Goes over so many points of the block, and to the next block where it ends.
    fn skip(&mut self, count: usize) -> Result<(), Refusal> {
        self.at += count;
        if self.at == self.block.times().len() {
            self.next_block()?;
        }
        Ok(())
    }

    fn next_block(&mut self) -> Result<(), Refusal> {
        self.at = 0;
        match self.entries.as_mut().and_then(Entries::next) {
            Some(entry) => self.block.read(self.image, &entry),
            None => {
                self.block.clear();
                Ok(())
            }
        }
    }
}

/// Writes the points of both feeds by time, the newer's at equal times.
fn merge_points(old: &mut Feed, new: &mut Feed, writer: &mut Writer) -> Result<(), Refusal> {
    loop {
        let ((old_times, old_values), (new_times, new_values)) = (old.rest(), new.rest());
        let (old_count, new_count) = match (old_times.first(), new_times.first()) {
            (None, None) => return Ok(()),
            (Some(_), None) => {
                writer.points(old_times, old_values);
                (old_times.len(), 0)
            }
            (None, Some(_)) => {
                writer.points(new_times, new_values);
                (0, new_times.len())
            }
            (Some(_), Some(_)) => merge_blocks(old.rest(), new.rest(), writer),
        };
        old.skip(old_count)?;
        new.skip(new_count)?;
    }
}

/// Writes points of both blocks until one block ends, and answers how many of either are done.
fn merge_blocks(
    (old_times, old_values): (&[i64], &[i64]),
    (new_times, new_values): (&[i64], &[i64]),
    writer: &mut Writer,
) -> (usize, usize) {
    let (mut old, mut new) = (0, 0);
    while old < old_times.len() && new < new_times.len() {
        let (older, newer) = (old_times[old], new_times[new]);
        let value = match newer <= older {
            true => new_values[new],
            false => old_values[old],
        };
        writer.point(older.min(newer), value);
        old += usize::from(older <= newer);
        new += usize::from(newer <= older);
    }
    (old, new)
}
