//! A call of an act, and its answer.

use std::fmt;

use crate::acts::Query;
use crate::data::{shortened, Hex};

/// A call of an act. The lengths are those of the lent outputs.
#[derive(Clone, Copy, Debug)]
pub enum Call<'a> {
    Check {
        image: &'a [u8],
    },
    Find {
        query: Query<'a>,
    },
    ReadBlock {
        query: Query<'a>,
        times: usize,
        values: usize,
    },
    ReadPoint {
        query: Query<'a>,
    },
    Write {
        roll: &'a [u8],
        capacity: usize,
    },
    Unroll {
        image: &'a [u8],
        capacity: usize,
    },
    Merge {
        older: &'a [u8],
        newer: &'a [u8],
        capacity: usize,
    },
}

impl Call<'_> {
    /// The name of the act.
    pub fn act(&self) -> &'static str {
        match self {
            Call::Check { .. } => "check",
            Call::Find { .. } => "find",
            Call::ReadBlock { .. } => "read_block",
            Call::ReadPoint { .. } => "read_point",
            Call::Write { .. } => "write",
            Call::Unroll { .. } => "unroll",
            Call::Merge { .. } => "merge",
        }
    }
}

/// The call as a conformance case has it.
impl fmt::Display for Call<'_> {
    fn fmt(&self, f: &mut fmt::Formatter) -> fmt::Result {
        write!(f, "{} ", self.act())?;
        match self {
            Call::Check { image } => write!(f, "{}", Hex(image)),
            Call::Find { query } | Call::ReadPoint { query } => write!(f, "{query}"),
            Call::ReadBlock {
                query,
                times,
                values,
            } => write!(f, "{query} {times} {values}"),
            Call::Write { roll, capacity } => write!(f, "{} {capacity}", Hex(roll)),
            Call::Unroll { image, capacity } => write!(f, "{} {capacity}", Hex(image)),
            Call::Merge {
                older,
                newer,
                capacity,
            } => {
                write!(f, "{} {} {capacity}", Hex(older), Hex(newer))
            }
        }
    }
}

impl fmt::Display for Query<'_> {
    fn fmt(&self, f: &mut fmt::Formatter) -> fmt::Result {
        write!(f, "{} {} {}", Hex(self.image), Hex(self.key), self.time)
    }
}

/// An index entry.
#[derive(Clone, Copy, Debug, Default, PartialEq, Eq)]
pub struct Entry {
    pub kind: u8,
    pub min: i64,
    pub max: i64,
    pub offset: u64,
    pub size: u32,
}

/// The answer of an act, with all it wrote.
#[derive(Clone, PartialEq, Eq)]
pub enum Answer {
    Totals {
        keys: u64,
        points: u64,
    },
    Entry(Entry),
    Block {
        entry: Entry,
        times: Vec<i64>,
        values: Vec<i64>,
    },
    Point {
        entry: Entry,
        value: i64,
    },
    Bytes(Vec<u8>),
    Refused(u8),
    /// Lent memory is not as it must be afterwards.
    Fault(&'static str),
}

impl Answer {
    /// 0 for a good answer, else the number of the refusal.
    pub fn number(&self) -> u8 {
        match self {
            Answer::Refused(number) => *number,
            _ => 0,
        }
    }
}

/// The answer as a conformance answer has it, without the place of a refusal.
impl fmt::Display for Answer {
    fn fmt(&self, f: &mut fmt::Formatter) -> fmt::Result {
        match self {
            Answer::Totals { keys, points } => write!(f, "ok {keys} {points}"),
            Answer::Entry(entry) => write!(f, "ok {entry}"),
            Answer::Block {
                entry,
                times,
                values,
            } => {
                write!(f, "ok {entry} {}", times.len())?;
                let mut points = times.iter().zip(values);
                points.try_for_each(|(time, value)| write!(f, " {time}:{value}"))
            }
            Answer::Point { entry, value } => write!(f, "ok {entry} {value}"),
            Answer::Bytes(bytes) => write!(f, "ok {} {}", bytes.len(), Hex(bytes)),
            Answer::Refused(number) => write!(f, "refused {number}"),
            Answer::Fault(what) => write!(f, "fault: {what}"),
        }
    }
}

/// The beginning of the answer, for the report of a failed test.
impl fmt::Debug for Answer {
    fn fmt(&self, f: &mut fmt::Formatter) -> fmt::Result {
        f.write_str(shortened(&self.to_string()))
    }
}

impl fmt::Display for Entry {
    fn fmt(&self, f: &mut fmt::Formatter) -> fmt::Result {
        let Entry {
            kind,
            min,
            max,
            offset,
            size,
        } = self;
        write!(f, "{kind} {min} {max} {offset} {size}")
    }
}
