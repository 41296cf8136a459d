//! Packed words: sixteen word plans, by the top four bits of the word.

use crate::bytes;

/// Bytes of a packed word.
const WORD: usize = 8;
/// Bits of a packed word that hold numbers.
const PAYLOAD_BITS: u32 = 60;
/// The greatest number that a word can hold.
pub const GREATEST: u64 = (1 << PAYLOAD_BITS) - 1;

/// How many numbers a word holds, and in how many bits each. With no bits, all are ones.
#[derive(Clone, Copy)]
pub struct Plan {
    pub count: usize,
    pub bits: u32,
}

const fn plan(count: usize, bits: u32) -> Plan {
    Plan { count, bits }
}

/// The plans, in the order of their top four bits.
pub const PLANS: [Plan; 16] = [
    plan(240, 0),
    plan(120, 0),
    plan(60, 1),
    plan(30, 2),
    plan(20, 3),
    plan(15, 4),
    plan(12, 5),
    plan(10, 6),
    plan(8, 7),
    plan(7, 8),
    plan(6, 10),
    plan(5, 12),
    plan(4, 15),
    plan(3, 20),
    plan(2, 30),
    plan(1, 60),
];

impl Plan {
    /// Whether the first numbers of `rest` fill a word of this plan.
    pub fn takes(self, rest: &[u64]) -> bool {
        match rest.get(..self.count) {
            None => false,
            Some(numbers) if self.bits == 0 => numbers.iter().all(|&number| number == 1),
            Some(numbers) => numbers.iter().all(|&number| number >> self.bits == 0),
        }
    }
}

/// Calls the function of the plan: each plan has its own, compiled for its count and bits.
macro_rules! by_plan {
    ($selector:expr, $function:ident, $($argument:expr),+) => {
        match $selector {
            0 => $function::<0>($($argument),+),
            1 => $function::<1>($($argument),+),
            2 => $function::<2>($($argument),+),
            3 => $function::<3>($($argument),+),
            4 => $function::<4>($($argument),+),
            5 => $function::<5>($($argument),+),
            6 => $function::<6>($($argument),+),
            7 => $function::<7>($($argument),+),
            8 => $function::<8>($($argument),+),
            9 => $function::<9>($($argument),+),
            10 => $function::<10>($($argument),+),
            11 => $function::<11>($($argument),+),
            12 => $function::<12>($($argument),+),
            13 => $function::<13>($($argument),+),
            14 => $function::<14>($($argument),+),
            _ => $function::<15>($($argument),+),
        }
    };
}

/// Opens a payload into the first cells and answers how many. `None` if an unused bit is set, or
/// there are fewer cells.
#[inline]
fn open<const SELECTOR: usize>(payload: u64, cells: &mut [i64]) -> Option<usize> {
    let Plan { count, bits } = const { PLANS[SELECTOR] };
    let cells = cells.get_mut(..count)?;
    if bits == 0 {
        cells.fill(1);
    } else {
        for (rank, cell) in cells.iter_mut().enumerate() {
            *cell = (payload >> (rank as u32 * bits) & ((1 << bits) - 1)) as i64;
        }
    }
    (payload >> (count as u32 * bits) == 0).then_some(count)
}

/// The payload that holds the first numbers, the first in the lowest bits.
#[inline]
fn payload<const SELECTOR: usize>(numbers: &[u64]) -> u64 {
    let Plan { count, bits } = const { PLANS[SELECTOR] };
    if bits == 0 {
        return 0;
    }
    let numbers = numbers[..count].iter().enumerate();
    numbers.fold(0, |payload, (rank, number)| {
        payload | number << (rank as u32 * bits)
    })
}

/// Opens the words and answers how many numbers they hold. `None` if a word breaks its rules, is
/// not whole, or there are more numbers than cells.
pub fn unpack(words: &[u8], numbers: &mut [i64]) -> Option<usize> {
    let words = words.chunks_exact(WORD);
    if !words.remainder().is_empty() {
        return None;
    }
    let mut filled = 0;
    for word in words {
        let word = bytes::u64_at(word, 0)?;
        let cells = &mut numbers[filled..];
        filled += by_plan!(word >> PAYLOAD_BITS, open, word & GREATEST, cells)?;
    }
    Some(filled)
}

/// The word of the plan that holds the first of `numbers`, which it takes.
pub fn word(selector: usize, numbers: &[u64]) -> u64 {
    (selector as u64) << PAYLOAD_BITS | by_plan!(selector, payload, numbers)
}

/// Appends the words of `numbers`, none above [`GREATEST`]: for each word the lowest plan whose
/// full count is left and fits.
pub fn pack(numbers: &[u64], out: &mut Vec<u8>) {
    let mut rest = numbers;
    while !rest.is_empty() {
        let selector = lowest_plan(rest);
        out.extend_from_slice(&word(selector, rest).to_be_bytes());
        rest = &rest[PLANS[selector].count..];
    }
}

/// The lowest plan that takes the first of `rest`. With a plan every higher one takes them, which
/// has fewer numbers of more bits, so the plans are tried from the highest down.
fn lowest_plan(rest: &[u64]) -> usize {
    let mut selector = PLANS.len() - 1;
    let mut seen = 0;
    let (mut any_bit, mut not_one) = (0, 0);
    while selector > 0 {
        let Plan { count, bits } = PLANS[selector - 1];
        let Some(more) = rest.get(seen..count) else {
            break;
        };
        for number in more {
            any_bit |= number;
            not_one |= number ^ 1;
        }
        if (if bits == 0 { not_one } else { any_bit >> bits }) != 0 {
            break;
        }
        seen = count;
        selector -= 1;
    }
    selector
}

#[cfg(test)]
mod tests {
    use super::*;

    fn round_trip(numbers: &[u64]) -> Vec<u8> {
        let mut words = Vec::new();
        pack(numbers, &mut words);
        let mut opened = vec![0; numbers.len()];
        assert_eq!(unpack(&words, &mut opened), Some(numbers.len()));
        assert!(numbers.iter().zip(&opened).all(|(&a, &b)| a as i64 == b));
        words
    }

    #[test]
    fn every_plan_round_trips() {
        for (selector, plan) in PLANS.iter().enumerate() {
            let greatest = if plan.bits == 0 {
                1
            } else {
                (1 << plan.bits) - 1
            };
            let words = round_trip(&vec![greatest; plan.count]);
            let first_plan = usize::from(words[0] >> 4);
            assert_eq!((first_plan, words.len()), (selector, WORD));
        }
    }

    #[test]
    fn the_rest_goes_into_higher_plans() {
        assert_eq!(round_trip(&[1; 121]).len(), 2 * WORD);
        assert_eq!(round_trip(&[1; 119]).len(), 5 * WORD);
        assert_eq!(round_trip(&[GREATEST, 1, 2]).len(), 2 * WORD);
    }

    #[test]
    fn the_lowest_plan_is_the_first_that_takes_the_numbers() {
        let mut state = 1u64;
        let mut below = |limit: u64| {
            state = state.wrapping_mul(0x5851_f42d_4c95_7f2d).wrapping_add(1);
            (state >> 33) % limit
        };
        for _ in 0..20_000 {
            let (count, bits) = (1 + below(300), below(61));
            let often_one = below(4) == 0;
            let mut number = || match often_one && below(200) > 0 {
                true => 1,
                false => below(1 << 31) << 29 >> (60 - bits),
            };
            let numbers: Vec<u64> = (0..count).map(|_| number()).collect();
            let first = (0..PLANS.len()).find(|&plan| PLANS[plan].takes(&numbers));
            assert_eq!(Some(lowest_plan(&numbers)), first);
        }
    }

    #[test]
    fn unused_bits_and_half_words_are_refused() {
        let mut numbers = [0; 240];
        let mut set = |word: u64| unpack(&word.to_be_bytes(), &mut numbers);
        assert_eq!(set(0), Some(240));
        assert_eq!(set(1), None);
        assert_eq!(set(8 << 60), Some(8));
        assert_eq!(set(8 << 60 | 1 << 56), None);
        assert_eq!(unpack(&[0x20; 4], &mut numbers), None);
        assert_eq!(unpack(&[0; 8], &mut numbers[1..]), None);
    }
}
