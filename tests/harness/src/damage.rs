//! Faults put into parts, images and rolls.

use tsm_reference::index::MAX_KEY;

use crate::parts::{varint_bytes, Assembled, BlockParts, Field, Parts};
use crate::random::Random;

/// Breaks a rule of some part, so that all else about the image stays right.
pub fn damage_parts(parts: &mut Parts, random: &mut Random) {
    if parts.series.is_empty() {
        return;
    }
    let place = random.below(parts.series.len());
    let series = &mut parts.series[place];
    match random.below(10) {
        0 => series.kind = random.pick(&[0, 1, 2, 3, 4, 5, 255]),
        1 => series.blocks.clear(),
        2 => {
            series.key = random
                .pick(&[&[][..], &[b'k'; MAX_KEY], &[b'k'; MAX_KEY + 1]])
                .to_vec()
        }
        3 => series.blocks.reverse(),
        4 => {
            let other = random.below(parts.series.len());
            parts.series[place].key = parts.series[other].key.clone();
        }
        5 => {
            let other = random.below(parts.series.len());
            parts.series.swap(place, other);
        }
        _ if series.blocks.is_empty() => {}
        _ => {
            let block = random.below(series.blocks.len());
            damage_block(&mut series.blocks[block], random);
        }
    }
}

fn damage_block(block: &mut BlockParts, random: &mut Random) {
    match random.below(8) {
        0 => block.kind = random.pick(&[0, 1, 2, 3]),
        1 => block.min = near(block.min, random),
        2 => block.max = near(block.max, random),
        3 => {
            let length = block.times.len() as u64;
            block.stated_length = Some(match random.below(5) {
                0 => not_shortest(varint_bytes(length)),
                1 => varint_bytes(length + 1),
                2 => varint_bytes(length.saturating_sub(1)),
                3 => varint_bytes(random.pick(&[0, length + block.values.len() as u64, u64::MAX])),
                _ => vec![0xff; random.below(12)],
            });
        }
        4 | 5 => damage_section(&mut block.times, random),
        _ => damage_section(&mut block.values, random),
    }
}

/// A time close by, or one of the ends.
fn near(time: i64, random: &mut Random) -> i64 {
    match random.below(4) {
        0 => time.wrapping_add(1),
        1 => time.wrapping_sub(1),
        2 => i64::MIN,
        _ => i64::MAX,
    }
}

/// The same number with a byte more than it needs.
fn not_shortest(mut number: Vec<u8>) -> Vec<u8> {
    if let Some(last) = number.last_mut() {
        *last |= 0x80;
    }
    number.push(0);
    number
}

/// Changes the bytes of a section.
fn damage_section(section: &mut Vec<u8>, random: &mut Random) {
    let length = section.len();
    match random.below(12) {
        _ if length == 0 => section.push(random.byte()),
        // Form and exponent.
        0 => {
            section[0] = random.pick(&[0x00, 0x01, 0x0d, 0x10, 0x1c, 0x1d, 0x20, 0x2d, 0x30, 0xf0])
        }
        1 => section[0] ^= 1 << random.below(8),
        // The first time or value at an end.
        2 if length >= 9 => {
            let end = random.pick(&[i64::MIN, i64::MAX, i64::MAX - 1, 0, -1]);
            section[1..9].copy_from_slice(&end.to_be_bytes());
        }
        // The repeated difference, or how often it is repeated.
        3 | 4 if length >= 11 && section[0] >> 4 == 2 => damage_repeats(section, random),
        // A word or raw number more, less or other.
        5 => section.extend(random.any().to_be_bytes()),
        6 if length >= 17 => section.truncate(length - 8),
        7 if length >= 17 => {
            let word = 9 + 8 * random.below((length - 9) / 8);
            section[word] ^= 1 << random.below(8);
        }
        // A byte more or less.
        8 => section.push(random.pick(&[0, 0, 1, 0x80, 0xff])),
        9 => section.truncate(length - 1),
        10 => section.truncate(random.below(length)),
        _ => change_byte(section, random),
    }
}

/// Puts other numbers behind the first time or value of a repeated form.
fn damage_repeats(section: &mut Vec<u8>, random: &mut Random) {
    let mut difference = section.split_off(9);
    let last = difference.iter().position(|&byte| byte < 0x80);
    let mut count = difference.split_off(last.map_or(0, |last| last + 1));
    match random.below(4) {
        0 => difference = varint_bytes(random.pick(&[0, 1 << 62, 1 << 63, u64::MAX])),
        1 => difference = not_shortest(difference),
        2 => count = not_shortest(count),
        _ => count = varint_bytes(random.pick(&[0, 1, 2, 3, 999, 1_000, 1_001, u64::MAX])),
    }
    section.extend(difference);
    section.extend(count);
}

/// Changes some bytes of an image in place or moves its end, and makes the checksums good or not.
pub fn damage_image(mut made: Assembled, random: &mut Random) -> Vec<u8> {
    match random.below(8) {
        0..=3 => {
            let field = random.pick(&made.fields);
            change_field(&mut made.image, field, random);
        }
        4 | 5 => change_byte(&mut made.image, random),
        _ => return change_length(made.image, random),
    }
    if random.once_in(4) {
        change_byte(&mut made.image, random);
    }
    if !random.once_in(3) {
        made.repair_checksums();
    }
    made.image
}

/// Sets a fixed-width number to one close by or far off.
fn change_field(image: &mut [u8], field: Field, random: &mut Random) {
    let bytes = &mut image[field.place..field.place + field.width];
    match random.below(6) {
        0 => add_one(bytes),
        1 => {
            // One less is the complement of one more than the complement.
            bytes.iter_mut().for_each(|byte| *byte = !*byte);
            add_one(bytes);
            bytes.iter_mut().for_each(|byte| *byte = !*byte);
        }
        2 => bytes.fill(0),
        3 => bytes.fill(0xff),
        4 => bytes.fill_with(|| random.byte()),
        _ => bytes[random.below(field.width)] ^= 1 << random.below(8),
    }
}

/// Adds one to a number with the high byte first.
fn add_one(bytes: &mut [u8]) {
    for byte in bytes.iter_mut().rev() {
        *byte = byte.wrapping_add(1);
        if *byte != 0 {
            break;
        }
    }
}

fn change_byte(bytes: &mut [u8], random: &mut Random) {
    if bytes.is_empty() {
        return;
    }
    let place = random.below(bytes.len());
    match random.below(3) {
        0 => bytes[place] = random.byte(),
        1 => bytes[place] = random.pick(&[0, 1, 0x7f, 0x80, 0xff]),
        _ => bytes[place] ^= 1 << random.below(8),
    }
}

/// Cuts, adds or takes away bytes.
fn change_length(mut bytes: Vec<u8>, random: &mut Random) -> Vec<u8> {
    let place = random.below(bytes.len() + 1);
    match random.below(4) {
        0 => bytes.truncate(place),
        1 => bytes.push(random.byte()),
        2 => bytes.insert(place, random.byte()),
        _ => drop(bytes.drain(place.saturating_sub(random.below(4))..place)),
    }
    bytes
}

/// Breaks a roll, or makes another of it.
pub fn damage_roll(roll: &mut Vec<u8>, random: &mut Random) {
    for _ in 0..random.between(1, 2) {
        match random.below(3) {
            0 => change_byte(roll, random),
            1 => *roll = change_length(std::mem::take(roll), random),
            _ => {
                // A seven-bit number that has a byte too many, or none that ends.
                let place = random.below(roll.len() + 1);
                let excess = random.pick(&[&[0x80, 0][..], &[0x80], &[0xff; 9], &[0xff; 10]]);
                roll.splice(place..place, excess.iter().copied());
            }
        }
    }
}
