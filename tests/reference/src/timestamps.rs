//! The timestamps section: a byte with form and exponent, the first time, then the differences.
//!
//! Readers of a section answer a place counted from the start of the section, which is the place
//! of every fault except a broken seven-bit number.

use crate::block::MAX_POINTS;
use crate::bytes;
use crate::refusal::Place;
use crate::simple8b;
use crate::varint;

const RAW: u8 = 0;
const PACKED: u8 = 1;
const REPEATED: u8 = 2;

/// Bytes of the form and the first time.
const HEAD: usize = 9;
/// The place of the section itself.
const SECTION: Place = 0;

const MAX_EXPONENT: u8 = 12;

/// The powers of ten by which differences may be divided.
pub const POWERS: [u64; MAX_EXPONENT as usize + 1] = [
    1,
    10,
    100,
    1_000,
    10_000,
    100_000,
    1_000_000,
    10_000_000,
    100_000_000,
    1_000_000_000,
    10_000_000_000,
    100_000_000_000,
    1_000_000_000_000,
];

/// Reads the section into `times` and answers how many there are.
pub fn read(section: &[u8], times: &mut [i64; MAX_POINTS]) -> Result<usize, Place> {
    let head = *section.first().ok_or(SECTION)?;
    let (form, exponent) = (head >> 4, head & 0xf);
    let first = bytes::i64_at(section, 1).ok_or(SECTION)?;
    let scale = *POWERS.get(usize::from(exponent)).ok_or(SECTION)?;
    times[0] = first;
    match form {
        RAW if exponent == 0 => read_raw(&section[HEAD..], times).ok_or(SECTION),
        PACKED => read_packed(&section[HEAD..], scale, times).ok_or(SECTION),
        REPEATED => read_repeated(section, scale, times),
        _ => Err(SECTION),
    }
}

/// The differences, 8 bytes each.
fn read_raw(differences: &[u8], times: &mut [i64]) -> Option<usize> {
    let differences = differences.chunks_exact(8);
    let count = 1 + differences.len();
    if !differences.remainder().is_empty() || count > times.len() {
        return None;
    }
    let mut time = times[0];
    for (slot, difference) in times[1..].iter_mut().zip(differences) {
        time = later(time, bytes::u64_at(difference, 0)?)?;
        *slot = time;
    }
    Some(count)
}

/// Packed words of the divided differences.
fn read_packed(words: &[u8], scale: u64, times: &mut [i64]) -> Option<usize> {
    let count = simple8b::unpack(words, &mut times[1..])?;
    let mut time = times[0];
    for slot in &mut times[1..=count] {
        time = later(time, (*slot as u64).checked_mul(scale)?)?;
        *slot = time;
    }
    Some(1 + count)
}

/// One divided difference, then how many times there are.
fn read_repeated(section: &[u8], scale: u64, times: &mut [i64]) -> Result<usize, Place> {
    let (divided, at) = varint::read(section, HEAD)?;
    if divided == 0 {
        return Err(SECTION);
    }
    let (count, at) = varint::read(section, at)?;
    let count = usize::try_from(count).map_err(|_| SECTION)?;
    if count < 2 || count > times.len() || at != section.len() {
        return Err(SECTION);
    }
    let difference = divided.checked_mul(scale).ok_or(SECTION)?;
    // Where the last time is in range, all are.
    let span = difference.checked_mul(count as u64 - 1);
    span.and_then(|span| later(times[0], span)).ok_or(SECTION)?;
    let mut time = times[0];
    for slot in &mut times[1..count] {
        time = time.wrapping_add_unsigned(difference);
        *slot = time;
    }
    Ok(count)
}

/// The time that many nanoseconds later: at least 1, and not past 2^63 − 1.
#[inline]
fn later(time: i64, difference: u64) -> Option<i64> {
    if difference == 0 {
        return None;
    }
    time.checked_add_unsigned(difference)
}

/// Appends our writer's section of `times`: 1 to [`MAX_POINTS`] of them, ascending. `differences` is
/// working space.
pub fn append(times: &[i64], differences: &mut Vec<u64>, out: &mut Vec<u8>) {
    differences.clear();
    differences.extend(times.windows(2).map(|pair| pair[0].abs_diff(pair[1])));
    let mut head = |form: u8, exponent: u8| {
        out.push(form << 4 | exponent);
        out.extend_from_slice(&times[0].to_be_bytes());
    };
    if all_equal(differences) {
        let exponent = greatest_exponent(&differences[..1]);
        head(REPEATED, exponent);
        varint::append(differences[0] / POWERS[usize::from(exponent)], out);
        varint::append(times.len() as u64, out);
        return;
    }
    let exponent = greatest_exponent(differences);
    let scale = POWERS[usize::from(exponent)];
    let greatest = differences.iter().max().map_or(0, |d| d / scale);
    if greatest <= simple8b::GREATEST {
        head(PACKED, exponent);
        if scale > 1 {
            differences.iter_mut().for_each(|d| *d /= scale);
        }
        simple8b::pack(differences, out);
    } else {
        head(RAW, 0);
        for difference in differences.iter() {
            out.extend_from_slice(&difference.to_be_bytes());
        }
    }
}

/// The largest exponent whose power of ten divides every difference.
fn greatest_exponent(differences: &[u64]) -> u8 {
    let mut exponent = MAX_EXPONENT;
    for difference in differences {
        while difference % POWERS[usize::from(exponent)] != 0 {
            exponent -= 1;
        }
        if exponent == 0 {
            break;
        }
    }
    exponent
}

/// Whether there is a difference and all are that one.
fn all_equal(differences: &[u64]) -> bool {
    !differences.is_empty() && differences.iter().all(|&d| d == differences[0])
}

#[cfg(test)]
mod tests {
    use super::*;

    fn section(times: &[i64]) -> Vec<u8> {
        let mut out = Vec::new();
        append(times, &mut Vec::new(), &mut out);
        let mut back = [0; MAX_POINTS];
        assert_eq!(read(&out, &mut back), Ok(times.len()));
        assert_eq!(&back[..times.len()], times);
        out
    }

    #[test]
    fn worked_pieces() {
        assert_eq!(section(&[0, 10, 20]), [0x21, 0, 0, 0, 0, 0, 0, 0, 0, 1, 3]);
        let mut alone = vec![0x1c];
        alone.extend((-5i64).to_be_bytes());
        assert_eq!(section(&[-5]), alone);
        assert_eq!(
            section(&[1, 2, 4]),
            [0x10, 0, 0, 0, 0, 0, 0, 0, 1, 0xe0, 0, 0, 0, 0x80, 0, 0, 1]
        );
        let mut whole_range = vec![0x20, 0x80, 0, 0, 0, 0, 0, 0, 0];
        whole_range.extend([0xff; 9]);
        whole_range.extend([1, 2]);
        assert_eq!(section(&[i64::MIN, i64::MAX]), whole_range);
    }

    #[test]
    fn differences_above_two_to_the_sixty_less_one_are_raw() {
        assert_eq!(section(&[0, 1, (1 << 60) + 1])[0], 0x00);
        assert_eq!(section(&[0, 1, 1 << 60])[0], 0x10);
        assert_eq!(section(&[0, 1, (1 << 60) - 1])[0], 0x10);
    }

    #[test]
    fn a_broken_number_has_its_own_place() {
        let mut times = [0; MAX_POINTS];
        let mut read = |bytes: &[u8]| read(bytes, &mut times);
        let head = [0x20, 0, 0, 0, 0, 0, 0, 0, 0];
        assert_eq!(read(&[&head[..], &[1, 3]].concat()), Ok(3));
        assert_eq!(read(&[&head[..], &[1]].concat()), Err(10));
        assert_eq!(read(&[&head[..], &[1, 0x83, 0]].concat()), Err(11));
        assert_eq!(read(&[&head[..], &[0, 0x83, 0]].concat()), Err(SECTION));
        assert_eq!(read(&[&head[..], &[1, 3, 0]].concat()), Err(SECTION));
        assert_eq!(read(&[&head[..], &[1, 1]].concat()), Err(SECTION));
    }
}
