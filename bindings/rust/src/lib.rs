//! TSM files: check an image, find an entry, read a block or a point, write, unroll and merge images.
//!
//! An image is the whole of a TSM file, as bytes; a roll is the plain list of its series. The work is done by the proved
//! static library `libtsm.a`; this crate gives it Rust's types, iterators over keys and blocks ([`Index`]) and points
//! ([`Points`]), and rolls put together key by key ([`Roll`]). It uses only the standard library. The directory of
//! `libtsm.a` is `TSM_LIB_DIR` when the crate is built, or `target/staticlib` of the repository.
//!
//! ```
//! let image = std::fs::read("../../examples/booleans.tsm")?;
//! let totals = tsm::check(&image)?;
//! assert_eq!((totals.keys, totals.points), (1, 3));
//!
//! let block = tsm::read_block(&image, b"a", 10)?;
//! assert_eq!(block.times, [0, 10, 20]);
//! assert_eq!(block.values, [1, 0, 0]);
//! # Ok::<(), Box<dyn std::error::Error>>(())
//! ```
#![deny(missing_docs)]
#![deny(unsafe_code)]

mod error;
mod roll;
#[doc(hidden)] // public for tests of the C functions themselves
#[allow(missing_docs, unsafe_code)]
pub mod sys;
mod walk;

pub use error::Error;
pub use roll::{Roll, RollError};
pub use walk::{Index, Key, Points, Series};

/// The Rust examples of README.md, which are run with those of this crate.
#[cfg(doctest)]
#[doc = include_str!("../../../README.md")]
pub struct Readme;

/// The least number of bytes of an image.
pub const IMAGE_LEAST: usize = 13;

/// The greatest number of bytes of an image.
pub const IMAGE_MOST: usize = 1_048_576;

/// The greatest number of bytes of a key; the least is 1.
pub const KEY_MOST: usize = 1_024;

/// The greatest number of points of a block.
pub const BLOCK_MOST: usize = 1_000;

/// What the values of a key are.
#[derive(Clone, Copy, Debug, PartialEq, Eq, Hash)]
#[non_exhaustive]
pub enum Kind {
    /// Signed 64-bit numbers.
    Integer = 1,
    /// 0 for false, 1 for true.
    Boolean = 2,
}

impl Kind {
    /// The kind of a byte of a file.
    ///
    /// ```
    /// assert_eq!(tsm::Kind::from_byte(2), Some(tsm::Kind::Boolean));
    /// assert_eq!(tsm::Kind::from_byte(7), None);
    /// ```
    pub fn from_byte(byte: u8) -> Option<Kind> {
        match byte {
            1 => Some(Kind::Integer),
            2 => Some(Kind::Boolean),
            _ => None,
        }
    }

    /// The byte of the kind in a file.
    pub fn byte(self) -> u8 {
        self as u8
    }
}

/// The numbers of keys and points of an image.
#[derive(Clone, Copy, Debug, PartialEq, Eq, Hash)]
pub struct Totals {
    /// How many keys there are.
    pub keys: u64,
    /// How many points there are, of all keys.
    pub points: u64,
}

/// An index entry: one block of a key.
#[derive(Clone, Copy, Debug, PartialEq, Eq, Hash)]
pub struct Entry {
    /// What the values of the key are.
    pub kind: Kind,
    /// The time of the block's first point.
    pub min: i64,
    /// The time of the block's last point.
    pub max: i64,
    /// Where the block stands in the image, in bytes from its start.
    pub offset: u64,
    /// How many bytes the block has, its checksum included.
    pub size: u32,
}

/// A block that was read: its entry and its points, by ascending time.
#[derive(Clone, Debug, PartialEq, Eq, Hash)]
pub struct Block {
    /// The block's entry in the index.
    pub entry: Entry,
    /// The time of each point.
    pub times: Vec<i64>,
    /// The value of each point; of a boolean, 0 or 1.
    pub values: Vec<i64>,
}

impl Block {
    /// The points, each a time and a value.
    ///
    /// ```
    /// let image = std::fs::read("../../examples/booleans.tsm")?;
    /// let block = tsm::read_block(&image, b"a", 0)?;
    /// let true_at: Vec<i64> = block.points().filter(|p| p.1 == 1).map(|p| p.0).collect();
    /// assert_eq!(true_at, [0]);
    /// # Ok::<(), Box<dyn std::error::Error>>(())
    /// ```
    pub fn points(&self) -> impl ExactSizeIterator<Item = (i64, i64)> + '_ {
        self.times.iter().copied().zip(self.values.iter().copied())
    }
}

/// A value that was read, and the entry of its block.
#[derive(Clone, Copy, Debug, PartialEq, Eq, Hash)]
pub struct PointRead {
    /// The entry of the block that holds the point.
    pub entry: Entry,
    /// The value; of a boolean, 0 or 1.
    pub value: i64,
}

/// Checks an image in full, every block included, and counts its keys and points.
///
/// # Errors
///
/// 1 to 16: the first rule of the format that the image breaks.
///
/// ```
/// let mut image = std::fs::read("../../examples/booleans.tsm")?;
/// assert_eq!(tsm::check(&image)?.points, 3);
///
/// image[24] ^= 0x80;
/// assert_eq!(tsm::check(&image), Err(tsm::Error::Checksum));
/// # Ok::<(), Box<dyn std::error::Error>>(())
/// ```
pub fn check(image: &[u8]) -> Result<Totals, Error> {
    let checked = sys::check(image);
    accepted(checked.answer)?;
    Ok(Totals {
        keys: checked.keys,
        points: checked.points,
    })
}

/// Finds the index entry whose block covers a time of a key. The whole index is checked; no block is read.
///
/// # Errors
///
/// 1 to 11 for the index; [`Error::NoSuchKey`]; [`Error::NoEntry`].
///
/// ```
/// let image = std::fs::read("../../examples/booleans.tsm")?;
/// let entry = tsm::find(&image, b"a", 15)?;
/// assert_eq!((entry.min, entry.max, entry.kind), (0, 20, tsm::Kind::Boolean));
/// assert_eq!(tsm::find(&image, b"b", 15), Err(tsm::Error::NoSuchKey));
/// # Ok::<(), Box<dyn std::error::Error>>(())
/// ```
pub fn find(image: &[u8], key: &[u8], time: i64) -> Result<Entry, Error> {
    let found = sys::find(image, key, time);
    accepted(found.answer)?;
    Ok(entry_of(found.entry))
}

/// Reads the block that covers a time of a key.
///
/// # Errors
///
/// Those of [`find`], then 12 to 16 for the block.
///
/// ```
/// let image = std::fs::read("../../examples/influxdb.tsm")?;
/// let block = tsm::read_block(&image, b"idle,loom=9#!~#count", 1_700_000_000_010_000_000)?;
/// assert_eq!(block.points().len(), 640);
/// # Ok::<(), Box<dyn std::error::Error>>(())
/// ```
pub fn read_block(image: &[u8], key: &[u8], time: i64) -> Result<Block, Error> {
    let (mut times, mut values) = (vec![0; BLOCK_MOST], vec![0; BLOCK_MOST]);
    let (entry, count) = read_block_into(image, key, time, &mut times, &mut values)?;
    times.truncate(count);
    values.truncate(count);
    Ok(Block {
        entry,
        times,
        values,
    })
}

/// Reads the block that covers a time of a key into the front of two slices, and gives its entry and the number of its
/// points. Cells past the points are left as they were; an error leaves all.
///
/// # Errors
///
/// Those of [`read_block`], then [`Error::ShortBuffer`] where a slice is shorter than the points. Slices of
/// [`BLOCK_MOST`] cells are always long enough.
///
/// ```
/// let image = std::fs::read("../../examples/booleans.tsm")?;
/// let (mut times, mut values) = ([7; 4], [7; 4]);
/// let (_, count) = tsm::read_block_into(&image, b"a", 0, &mut times, &mut values)?;
/// assert_eq!((count, times, values), (3, [0, 10, 20, 7], [1, 0, 0, 7]));
/// # Ok::<(), Box<dyn std::error::Error>>(())
/// ```
pub fn read_block_into(
    image: &[u8],
    key: &[u8],
    time: i64,
    times: &mut [i64],
    values: &mut [i64],
) -> Result<(Entry, usize), Error> {
    let block = sys::read_block(image, key, time, times, values);
    accepted(block.answer)?;
    Ok((entry_of(block.entry), block.count))
}

/// Reads the value of a key at exactly a time.
///
/// # Errors
///
/// Those of [`read_block`], then [`Error::NoPoint`].
///
/// ```
/// let image = std::fs::read("../../examples/booleans.tsm")?;
/// assert_eq!(tsm::read_point(&image, b"a", 0)?.value, 1);
/// assert_eq!(tsm::read_point(&image, b"a", 5), Err(tsm::Error::NoPoint));
/// # Ok::<(), Box<dyn std::error::Error>>(())
/// ```
pub fn read_point(image: &[u8], key: &[u8], time: i64) -> Result<PointRead, Error> {
    let point = sys::read_point(image, key, time);
    accepted(point.answer)?;
    Ok(PointRead {
        entry: entry_of(point.entry),
        value: point.value,
    })
}

/// Writes a roll as an image.
///
/// # Errors
///
/// [`Error::BadRoll`], [`Error::ImageTooLong`].
///
/// ```
/// let image = tsm::write(&std::fs::read("../../examples/booleans.roll")?)?;
/// assert_eq!(image, std::fs::read("../../examples/booleans.tsm")?);
/// # Ok::<(), Box<dyn std::error::Error>>(())
/// ```
pub fn write(roll: &[u8]) -> Result<Vec<u8>, Error> {
    grown(IMAGE_MOST, |out| write_into(roll, out))
}

/// Writes a roll as an image into the front of a slice, and gives the number of its bytes. Bytes past the image are left
/// as they were; an error leaves all.
///
/// # Errors
///
/// Those of [`write`], then [`Error::ShortBuffer`]. A slice of [`IMAGE_MOST`] bytes is always long enough.
pub fn write_into(roll: &[u8], out: &mut [u8]) -> Result<usize, Error> {
    length_of(sys::write(roll, out))
}

/// Writes an image as a roll, after its full check.
///
/// # Errors
///
/// Those of [`check`].
///
/// ```
/// let roll = tsm::unroll(&std::fs::read("../../examples/influxdb.tsm")?)?;
/// assert_eq!(roll, std::fs::read("../../examples/influxdb.roll")?);
/// # Ok::<(), Box<dyn std::error::Error>>(())
/// ```
pub fn unroll(image: &[u8]) -> Result<Vec<u8>, Error> {
    grown(image.len().max(64) * 4, |out| unroll_into(image, out))
}

/// Writes an image as a roll into the front of a slice, and gives the number of its bytes. Bytes past the roll are left as
/// they were; an error leaves all.
///
/// # Errors
///
/// Those of [`check`], then [`Error::ShortBuffer`].
pub fn unroll_into(image: &[u8], out: &mut [u8]) -> Result<usize, Error> {
    length_of(sys::unroll(image, out))
}

/// Merges an older and a newer image: the image of their points, and where both have a point of one key and time, the
/// newer image's. It needs up to 68 KiB of stack, the other functions up to 28 KiB.
///
/// # Errors
///
/// Those of [`check`] for the older image, then for the newer; [`Error::KindClash`]; [`Error::ImageTooLong`].
///
/// ```
/// let older = std::fs::read("../../examples/booleans.tsm")?;
/// let newer = tsm::write(b"\x01a\x02\x01\x14\x01")?; // true at 10
/// let merged = tsm::merge(&older, &newer)?;
/// assert_eq!(tsm::read_block(&merged, b"a", 10)?.values, [1, 1, 0]);
/// # Ok::<(), Box<dyn std::error::Error>>(())
/// ```
pub fn merge(older: &[u8], newer: &[u8]) -> Result<Vec<u8>, Error> {
    grown(IMAGE_MOST, |out| merge_into(older, newer, out))
}

/// Merges an older and a newer image into the front of a slice, and gives the number of bytes of the merged image. Bytes
/// past it are left as they were; an error leaves all.
///
/// # Errors
///
/// Those of [`merge`], then [`Error::ShortBuffer`]. A slice of [`IMAGE_MOST`] bytes is always long enough.
pub fn merge_into(older: &[u8], newer: &[u8], out: &mut [u8]) -> Result<usize, Error> {
    length_of(sys::merge(older, newer, out))
}

/// An answer's number is 0 for a success, or that of an error.
fn accepted(answer: sys::Answer) -> Result<(), Error> {
    match answer.number {
        0 => Ok(()),
        number => {
            Err(Error::from_number(number).expect("the library gives the number of an error"))
        }
    }
}

/// The entry that an act gives.
fn entry_of(entry: sys::Entry) -> Entry {
    Entry {
        kind: Kind::from_byte(entry.kind).expect("the library gives a kind that it carries"),
        min: entry.min,
        max: entry.max,
        offset: entry.offset,
        size: entry.size,
    }
}

/// The number of bytes that an act writes.
fn length_of(written: sys::Written) -> Result<usize, Error> {
    accepted(written.answer)?;
    Ok(written.bytes)
}

/// What an act writes, in a buffer that is doubled until it is long enough.
fn grown(
    mut len: usize,
    act: impl Fn(&mut [u8]) -> Result<usize, Error>,
) -> Result<Vec<u8>, Error> {
    loop {
        let mut out = vec![0; len];
        match act(&mut out) {
            Ok(written) => {
                out.truncate(written);
                out.shrink_to_fit();
                return Ok(out);
            }
            Err(Error::ShortBuffer) => len *= 2,
            Err(error) => return Err(error),
        }
    }
}

#[cfg(test)]
mod tests {
    use super::*;

    /// The C header names the same limits, kinds and errors, with the same numbers and sentences.
    #[test]
    fn header_says_the_same() {
        let header = include_str!("../../../include/tsm.h");
        let has = |line: String| assert!(header.contains(&line), "not in tsm.h: {line}");
        has(format!("#define TSM_IMAGE_LEAST {IMAGE_LEAST}\n"));
        has(format!("#define TSM_IMAGE_MOST {IMAGE_MOST}\n"));
        has(format!("#define TSM_KEY_MOST {KEY_MOST}\n"));
        has(format!("#define TSM_BLOCK_MOST {BLOCK_MOST}\n"));
        has(format!("TSM_INTEGER = {},", Kind::Integer.byte()));
        has(format!("TSM_BOOLEAN = {}\n", Kind::Boolean.byte()));
        for error in Error::ALL {
            has(format!("{} = {}", constant(error.name()), error.number()));
            has(format!(" /* {} */", error.sentence()));
        }
    }

    /// The Makefile installs the version of this crate.
    #[test]
    fn version_is_that_of_the_makefile() {
        let version = concat!("VERSION = ", env!("CARGO_PKG_VERSION"), "\n");
        assert!(include_str!("../../../Makefile").contains(version));
    }

    /// The layout that the C tests assert of the header's structs is that of `sys`, field by field.
    #[test]
    fn layout_is_that_of_the_header() {
        let mut lines = Vec::new();
        for (name, size, fields) in sys::LAYOUT {
            let name = name.to_lowercase();
            lines.push(format!("SIZE(tsm_{name}, {size});"));
            for (field, offset) in *fields {
                lines.push(format!("AT(tsm_{name}, {field}, {offset});"));
            }
        }
        let asserted = include_str!("../../../tests/c/layout.h").lines();
        let asserted = asserted.filter(|line| line.ends_with(");"));
        assert_eq!(asserted.collect::<Vec<_>>(), lines);
    }

    /// The name of a constant of the C header: TSM_NO_POINT of NoPoint.
    fn constant(name: &str) -> String {
        let mut constant = String::from("TSM");
        for letter in name.chars() {
            if letter.is_uppercase() {
                constant.push('_');
            }
            constant.push(letter.to_ascii_uppercase());
        }
        constant
    }
}
