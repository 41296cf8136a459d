//! The file: its limits, header and footer.

use std::ops::Range;

use crate::bytes;
use crate::refusal::Refusal;

/// The first four bytes, then the version.
pub const HEADER: [u8; 5] = [0x16, 0xd1, 0x16, 0xd1, 1];
const VERSION_PLACE: usize = 4;

/// Bytes of the footer, the start of the index.
pub const FOOTER: usize = 8;

const MIN_LENGTH: usize = HEADER.len() + FOOTER;
/// The most bytes of an image.
pub const MAX_LENGTH: usize = 1_048_576;

/// Where the index lies: refusals 1 to 4.
pub fn index_range(image: &[u8]) -> Result<Range<usize>, Refusal> {
    if !(MIN_LENGTH..=MAX_LENGTH).contains(&image.len()) {
        return Err(Refusal::ImageLength(0));
    }
    if image[..VERSION_PLACE] != HEADER[..VERSION_PLACE] {
        return Err(Refusal::Magic(0));
    }
    if image[VERSION_PLACE] != HEADER[VERSION_PLACE] {
        return Err(Refusal::Version(VERSION_PLACE));
    }
    let end = image.len() - FOOTER;
    bytes::u64_at(image, end)
        .and_then(|start| usize::try_from(start).ok())
        .filter(|start| (HEADER.len()..=end).contains(start))
        .map(|start| start..end)
        .ok_or(Refusal::IndexStart(end))
}
