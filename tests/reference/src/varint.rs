//! Seven-bit numbers: low group first, the top bit set on all but the last byte; 64-bit unsigned;
//! shortest form only.

use crate::refusal::Place;

/// The most bytes of a number; the last has one bit.
pub const LONGEST: usize = 10;

/// Reads the number at `at`: its value and the place after it, or the place of the byte that
/// breaks it, which is the end of `bytes` when they run out.
#[inline(always)]
pub fn read(bytes: &[u8], at: usize) -> Result<(u64, usize), Place> {
    let rest = bytes.get(at..).ok_or(at)?;
    match rest.first_chunk::<LONGEST>() {
        // Here the length is known when this is compiled.
        Some(longest) => read_first(longest, at),
        None => read_near_end(rest, at),
    }
}

#[cold]
fn read_near_end(rest: &[u8], at: usize) -> Result<(u64, usize), Place> {
    read_first(rest, at)
}

/// Reads the first number, which stands at `at`.
#[inline(always)]
fn read_first(bytes: &[u8], at: usize) -> Result<(u64, usize), Place> {
    let mut value = 0;
    for (rank, &byte) in bytes.iter().enumerate().take(LONGEST) {
        value |= u64::from(byte & 0x7f) << (7 * rank);
        if byte < 0x80 {
            let not_shortest = rank > 0 && byte == 0;
            let past_64_bits = rank == LONGEST - 1 && byte > 1;
            return match not_shortest || past_64_bits {
                true => Err(at + rank),
                false => Ok((value, at + rank + 1)),
            };
        }
    }
    Err(at + bytes.len().min(LONGEST - 1))
}

/// Appends the number.
pub fn append(value: u64, out: &mut Vec<u8>) {
    let mut cells = [0; LONGEST];
    let length = put(value, &mut cells);
    out.extend_from_slice(&cells[..length]);
}

/// Puts the number in the first cells and answers how many.
#[inline(always)]
pub fn put(mut value: u64, cells: &mut [u8; LONGEST]) -> usize {
    for (rank, cell) in cells.iter_mut().enumerate() {
        *cell = value as u8;
        if value < 0x80 {
            return rank + 1;
        }
        *cell |= 0x80;
        value >>= 7;
    }
    LONGEST
}

#[cfg(test)]
mod tests {
    use super::*;

    fn bytes(value: u64) -> Vec<u8> {
        let mut out = Vec::new();
        append(value, &mut out);
        out
    }

    #[test]
    fn worked_pieces() {
        assert_eq!(bytes(127), [0x7f]);
        assert_eq!(bytes(128), [0x80, 0x01]);
        assert_eq!(read(&[0x80, 0x00], 0), Err(1));
    }

    #[test]
    fn edges_round_trip() {
        for bits in 0..64 {
            for value in [1 << bits, (1 << bits) - 1, u64::MAX >> bits] {
                let bytes = bytes(value);
                assert_eq!(read(&bytes, 0), Ok((value, bytes.len())));
            }
        }
        assert_eq!(bytes(u64::MAX).len(), LONGEST);
    }

    #[test]
    fn broken_numbers_name_the_byte() {
        assert_eq!(read(&[], 0), Err(0));
        assert_eq!(read(&[0xff; 4], 0), Err(4));
        assert_eq!(read(&[0xff; 11], 0), Err(9));
        let mut ten = [0xff; 10];
        ten[9] = 2;
        assert_eq!(read(&ten, 0), Err(9));
        ten[9] = 1;
        assert_eq!(read(&ten, 0), Ok((u64::MAX, 10)));
    }
}
