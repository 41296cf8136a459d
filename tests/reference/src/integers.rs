//! The integers section: the first value, then wrapped differences, each doubled.

use crate::bytes;
use crate::refusal::Place;
use crate::simple8b;
use crate::varint;

/// The head byte of each form: the form in the high four bits, the low four zero.
const RAW: u8 = 0x00;
const PACKED: u8 = 0x10;
const REPEATED: u8 = 0x20;

/// Bytes of the form and the first stored number.
const HEAD: usize = 9;
/// The place of the section itself.
const SECTION: Place = 0;

/// The doubling rule: 2d when d ≥ 0, else −2d − 1.
#[inline]
pub fn zigzag(number: i64) -> u64 {
    (number << 1 ^ number >> 63) as u64
}

/// The number whose doubling is `stored`.
#[inline]
pub fn unzigzag(stored: u64) -> i64 {
    (stored >> 1) as i64 ^ -((stored & 1) as i64)
}

/// Reads the section into `values`, which must be filled exactly.
pub fn read(section: &[u8], values: &mut [i64]) -> Result<(), Place> {
    let form = *section.first().ok_or(SECTION)?;
    let body = &section[1..];
    match form {
        RAW => read_raw(body, values).ok_or(SECTION),
        PACKED => read_packed(body, values).ok_or(SECTION),
        REPEATED => read_repeated(section, values),
        _ => Err(SECTION),
    }
}

/// All stored numbers, 8 bytes each.
fn read_raw(stored: &[u8], values: &mut [i64]) -> Option<()> {
    if stored.len() != 8 * values.len() {
        return None;
    }
    let mut value = 0i64;
    for (slot, bytes) in values.iter_mut().zip(stored.chunks_exact(8)) {
        value = value.wrapping_add(unzigzag(bytes::u64_at(bytes, 0)?));
        *slot = value;
    }
    Some(())
}

/// The first stored number, then packed words.
fn read_packed(stored: &[u8], values: &mut [i64]) -> Option<()> {
    let (first, rest) = values.split_first_mut()?;
    let mut value = unzigzag(bytes::u64_at(stored, 0)?);
    *first = value;
    if simple8b::unpack(&stored[8..], rest)? != rest.len() {
        return None;
    }
    for slot in rest {
        value = value.wrapping_add(unzigzag(*slot as u64));
        *slot = value;
    }
    Some(())
}

/// The first stored number, the repeated one, and how often it is repeated.
fn read_repeated(section: &[u8], values: &mut [i64]) -> Result<(), Place> {
    let first = bytes::u64_at(section, 1).ok_or(SECTION)?;
    let (repeated, at) = varint::read(section, HEAD)?;
    let (repeats, at) = varint::read(section, at)?;
    if repeats == 0 || repeats != values.len() as u64 - 1 || at != section.len() {
        return Err(SECTION);
    }
    let difference = unzigzag(repeated);
    let mut value = unzigzag(first);
    for slot in values {
        *slot = value;
        value = value.wrapping_add(difference);
    }
    Ok(())
}

/// Appends our writer's section of `values`, at least one. `stored` is working space.
pub fn append(values: &[i64], stored: &mut Vec<u64>, out: &mut Vec<u8>) {
    stored.clear();
    stored.push(zigzag(values[0]));
    let differences = values.windows(2).map(|pair| pair[1].wrapping_sub(pair[0]));
    stored.extend(differences.map(zigzag));
    let (first, rest) = (stored[0], &stored[1..]);
    if rest.len() >= 2 && rest.iter().all(|&number| number == rest[0]) {
        out.push(REPEATED);
        out.extend_from_slice(&first.to_be_bytes());
        varint::append(rest[0], out);
        varint::append(rest.len() as u64, out);
    } else if stored.iter().all(|&number| number <= simple8b::GREATEST) {
        out.push(PACKED);
        out.extend_from_slice(&first.to_be_bytes());
        simple8b::pack(rest, out);
    } else {
        out.push(RAW);
        for number in stored {
            out.extend_from_slice(&number.to_be_bytes());
        }
    }
}

#[cfg(test)]
mod tests {
    use super::*;

    fn section(values: &[i64]) -> Vec<u8> {
        let mut out = Vec::new();
        append(values, &mut Vec::new(), &mut out);
        let mut back = vec![0; values.len()];
        assert_eq!(read(&out, &mut back), Ok(()));
        assert_eq!(back, values);
        out
    }

    #[test]
    fn worked_pieces() {
        assert_eq!(section(&[7, 7, 7]), [0x20, 0, 0, 0, 0, 0, 0, 0, 0x0e, 0, 2]);
        assert_eq!(
            section(&[7, 5]),
            [0x10, 0, 0, 0, 0, 0, 0, 0, 0x0e, 0xf0, 0, 0, 0, 0, 0, 0, 3]
        );
        let mut ends = vec![0x00];
        ends.extend([0xff; 8]);
        ends.extend([0, 0, 0, 0, 0, 0, 0, 1]);
        assert_eq!(section(&[i64::MIN, i64::MAX]), ends);
    }

    #[test]
    fn stored_numbers_above_two_to_the_sixty_less_one_are_raw() {
        // Stored as 2^60 - 1 and as 2^60, as a difference and as the first value.
        let (most, more) = (-(1 << 59), 1 << 59);
        assert_eq!(section(&[0, most])[0], PACKED);
        assert_eq!(section(&[0, more])[0], RAW);
        assert_eq!(section(&[most])[0], PACKED);
        assert_eq!(section(&[more])[0], RAW);
    }

    #[test]
    fn doubling_is_undone() {
        for number in [0, 1, -1, 63, -64, i64::MAX, i64::MIN] {
            assert_eq!(unzigzag(zigzag(number)), number);
        }
        assert_eq!([zigzag(0), zigzag(-1), zigzag(1)], [0, 1, 2]);
    }

    #[test]
    fn the_first_number_counts_for_packing() {
        assert_eq!(section(&[-(1 << 59), 0])[0], RAW);
        assert_eq!(section(&[1 - (1 << 59), 0])[0], PACKED);
    }

    #[test]
    fn a_broken_number_has_its_own_place() {
        let mut values = [0; 3];
        let mut read = |tail: &[u8]| {
            read(
                &[&[0x20, 0, 0, 0, 0, 0, 0, 0, 0], tail].concat(),
                &mut values,
            )
        };
        assert_eq!(read(&[0, 2]), Ok(()));
        assert_eq!(read(&[0, 3]), Err(SECTION));
        assert_eq!(read(&[0]), Err(10));
        assert_eq!(read(&[0x80, 0, 2]), Err(10));
        assert_eq!(read(&[0, 2, 0]), Err(SECTION));
    }
}
