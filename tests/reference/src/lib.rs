//! TSM files and rolls in ordinary Rust, written from the scope document (document 01).
//!
//! The tests compare the verified library with this crate, and the benchmarks measure against it.
//! There is one module for each part of the document:
//!
//! | module | document 01 |
//! |---|---|
//! | [`refusal`] | What is refused |
//! | [`varint`] | Seven-bit numbers |
//! | [`simple8b`] | Packed words |
//! | [`timestamps`], [`integers`], [`booleans`] | the sections of a block |
//! | [`crc32`] | the checksum of a block |
//! | [`block`] | The block |
//! | [`mod@file`], [`index`] | The file |
//! | [`roll`] | The roll |
//! | [`writer`] | our writer's image |
//! | [`mod@merge`] | the merged points of two images |
//! | [`acts`] | The acts |
//! | [`program`] | the program |

#![forbid(unsafe_code)]

pub mod acts;
pub mod block;
pub mod booleans;
pub mod crc32;
pub mod file;
pub mod index;
pub mod integers;
pub mod merge;
pub mod program;
pub mod refusal;
pub mod roll;
pub mod simple8b;
pub mod timestamps;
pub mod varint;
pub mod writer;

mod bytes;

pub use acts::{check, find, merge, read_block, read_point, unroll, write};
pub use acts::{BlockRead, MergeRefusal, PointRead, Side, Totals};
pub use index::{Entry, Kind};
pub use refusal::{Place, Refusal};
