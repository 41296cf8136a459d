//! The booleans section: one byte, n, then n bits, the first value in the highest bit.

use crate::refusal::Place;
use crate::varint;

const HEAD: u8 = 0x10;
/// The place of the section itself.
const SECTION: Place = 0;

/// Reads the section into `values` as 0 or 1; all must be filled exactly.
pub fn read(section: &[u8], values: &mut [i64]) -> Result<(), Place> {
    if section.first() != Some(&HEAD) {
        return Err(SECTION);
    }
    let (count, at) = varint::read(section, 1)?;
    let bits = &section[at..];
    if count != values.len() as u64 || bits.len() != values.len().div_ceil(8) {
        return Err(SECTION);
    }
    let mut eights = values.chunks_exact_mut(8);
    for (eight, &byte) in (&mut eights).zip(bits) {
        open(byte, eight);
    }
    let rest = eights.into_remainder();
    if let (false, Some(&byte)) = (rest.is_empty(), bits.last()) {
        if byte << rest.len() != 0 {
            return Err(SECTION);
        }
        open(byte, rest);
    }
    Ok(())
}

/// The highest bits of the byte as 0 or 1.
#[inline]
fn open(byte: u8, values: &mut [i64]) {
    for (position, value) in values.iter_mut().enumerate() {
        *value = i64::from(byte >> (7 - position) & 1);
    }
}

/// Appends our writer's section of `values`, each 0 or 1.
pub fn append(values: &[i64], out: &mut Vec<u8>) {
    out.push(HEAD);
    varint::append(values.len() as u64, out);
    let bits = |values: &[i64]| {
        values
            .iter()
            .fold(0, |bits, &value| bits << 1 | value as u8)
    };
    let eights = values.chunks_exact(8);
    let rest = eights.remainder();
    out.extend(eights.map(bits));
    if !rest.is_empty() {
        out.push(bits(rest) << (8 - rest.len()));
    }
}

#[cfg(test)]
mod tests {
    use super::*;

    fn section(values: &[i64]) -> Vec<u8> {
        let mut out = Vec::new();
        append(values, &mut out);
        let mut back = vec![9; values.len()];
        assert_eq!(read(&out, &mut back), Ok(()));
        assert_eq!(back, values);
        out
    }

    #[test]
    fn worked_pieces() {
        assert_eq!(section(&[1, 0, 0]), [0x10, 3, 0x80]);
        assert_eq!(section(&[0, 0, 0, 0, 0, 0, 0, 0, 1]), [0x10, 9, 0, 0x80]);
    }

    #[test]
    fn padding_and_length_are_looked_at() {
        let mut values = [0; 3];
        let mut read = |section: &[u8]| read(section, &mut values);
        assert_eq!(read(&[0x10, 3, 0xe0]), Ok(()));
        assert_eq!(read(&[0x10, 3, 0x90]), Err(SECTION));
        assert_eq!(read(&[0x10, 3]), Err(SECTION));
        assert_eq!(read(&[0x10, 3, 0, 0]), Err(SECTION));
        assert_eq!(read(&[0x10, 4, 0]), Err(SECTION));
        assert_eq!(read(&[0x10]), Err(1));
        assert_eq!(read(&[0x10, 0x83, 0]), Err(2));
        assert_eq!(read(&[0x20, 0x83, 0]), Err(SECTION));
    }
}
