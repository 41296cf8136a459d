//! The points of a file as maps, from which every answer can be told without bytes.

use std::collections::btree_map::{BTreeMap, Entry};

use tsm_reference::integers::zigzag;
use tsm_reference::varint;

pub const INTEGER: u8 = 1;
pub const BOOLEAN: u8 = 2;

/// What a file has under one key.
#[derive(Clone, Debug, PartialEq, Eq)]
pub struct Series {
    pub kind: u8,
    /// The value at each time; at least one.
    pub points: BTreeMap<i64, i64>,
}

/// The points of a file, by key and then by time.
#[derive(Clone, Debug, Default, PartialEq, Eq)]
pub struct Model {
    pub series: BTreeMap<Vec<u8>, Series>,
}

impl Model {
    /// A file of one key.
    pub fn of_series(key: &[u8], kind: u8, points: impl Iterator<Item = (i64, i64)>) -> Model {
        let points = points.collect();
        let series = Series { kind, points };
        Model {
            series: BTreeMap::from([(key.to_vec(), series)]),
        }
    }

    /// How many points there are over all keys.
    pub fn points(&self) -> u64 {
        let counts = self.series.values().map(|series| series.points.len());
        counts.sum::<usize>() as u64
    }

    /// The roll of the points.
    pub fn roll(&self) -> Vec<u8> {
        let mut roll = Vec::new();
        for (key, series) in &self.series {
            varint::append(key.len() as u64, &mut roll);
            roll.extend(key);
            roll.push(series.kind);
            varint::append(series.points.len() as u64, &mut roll);
            let mut before = None;
            for (&time, &value) in &series.points {
                let time_number = before.map_or(zigzag(time), |before| time.abs_diff(before));
                let value_number = match series.kind {
                    INTEGER => zigzag(value),
                    _ => value as u64,
                };
                varint::append(time_number, &mut roll);
                varint::append(value_number, &mut roll);
                before = Some(time);
            }
        }
        roll
    }

    /// The points of this file with those of a newer one put over them, unless a key has two
    /// kinds.
    pub fn merged(&self, newer: &Model) -> Option<Model> {
        let mut merged = self.clone();
        for (key, new) in &newer.series {
            match merged.series.entry(key.clone()) {
                Entry::Vacant(slot) => drop(slot.insert(new.clone())),
                Entry::Occupied(old) if old.get().kind != new.kind => return None,
                Entry::Occupied(old) => old.into_mut().points.extend(&new.points),
            }
        }
        Some(merged)
    }
}
