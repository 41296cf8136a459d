//! A booleans section read a byte at a time, as the library reads it, and bit by bit: two functions of the crate
//! `bench_booleans`, proved to answer and to lay the same.

use std::hint::black_box;

use tsm_harness::random::Random;
use tsm_reference::block::MAX_POINTS;
use tsm_reference::booleans;

use crate::measure::{self, Times};

/// Numbers of values that are measured: few, around whole bytes, and up to a full block.
const LENGTHS: [usize; 17] = [
    1, 2, 4, 7, 8, 9, 12, 16, 24, 32, 63, 64, 100, 200, 500, 999, 1_000,
];
/// Calls in one pass, since one is too short to measure.
const CALLS: usize = 1_000;
/// What a cell holds that was not written.
const UNTOUCHED: u64 = 0xa5a5;

/// The section, n and the lent values, each slice as a pointer and a length.
type Read = unsafe extern "C" fn(*const u8, usize, usize, *mut u64, usize) -> u8;

extern "C" {
    fn bench_booleans_bytes(
        section: *const u8,
        section_length: usize,
        n: usize,
        values: *mut u64,
        values_length: usize,
    ) -> u8;
    fn bench_booleans_bits(
        section: *const u8,
        section_length: usize,
        n: usize,
        values: *mut u64,
        values_length: usize,
    ) -> u8;
}

/// 0 where the section is read, 1 where it is refused, 2 where the slice is too short.
fn read(by: Read, section: &[u8], n: usize, values: &mut [u64]) -> u8 {
    let (lent, length) = (values.as_mut_ptr(), values.len());
    // SAFETY: `by` is one of the two functions above, which are proved for all arguments; both pointers and lengths are
    // of slices that live through the call, and a `&mut` slice overlaps nothing.
    unsafe { by(section.as_ptr(), section.len(), n, lent, length) }
}

/// Holes from a seed, and the section that states them.
fn row(length: usize) -> (Vec<i64>, Vec<u8>) {
    let mut random = Random::of_case(8, length as u64);
    let holes: Vec<_> = (0..length).map(|_| i64::from(random.coin())).collect();
    let mut section = Vec::new();
    booleans::append(&holes, &mut section);
    (holes, section)
}

/// Sees that both read every row up to a full block and give its holes, that both refuse it where a byte is missing or
/// left over or the slice is too short, and that both answer as ordinary Rust where one of its bits is turned over.
/// Answers how many sections were read.
pub fn compare() -> usize {
    let cells = MAX_POINTS + 1;
    let refused = |number, cells| (number, vec![UNTOUCHED; cells]);
    let read = |holes: &[i64]| {
        let mut values: Vec<_> = holes.iter().map(|&hole| hole as u64).collect();
        values.resize(cells, UNTOUCHED);
        (0, values)
    };
    for length in 1..=MAX_POINTS {
        let (mut holes, section) = row(length);
        assert_eq!(both(&section, length, cells), read(&holes));
        assert_eq!(both(&section, length, length - 1), refused(2, length - 1));
        let longer = [&section[..], &[0]].concat();
        assert_eq!(both(&longer, length, cells), refused(1, cells));
        let shorter = &section[..section.len() - 1];
        assert_eq!(both(shorter, length, cells), refused(1, cells));

        let mut random = Random::of_case(9, length as u64);
        let mut damaged = section;
        let place = random.below(damaged.len());
        damaged[place] ^= 1 << random.below(8);
        let expected = match booleans::read(&damaged, &mut holes) {
            Ok(()) => read(&holes),
            Err(_) => refused(1, cells),
        };
        assert_eq!(both(&damaged, length, cells), expected);
    }
    5 * MAX_POINTS
}

/// What both answer and leave in a slice of so many cells.
fn both(section: &[u8], n: usize, cells: usize) -> (u8, Vec<u64>) {
    let [bytes, bits] = [bench_booleans_bytes as Read, bench_booleans_bits].map(|by| {
        let mut values = vec![UNTOUCHED; cells];
        (read(by, section, n, &mut values), values)
    });
    assert!(bytes == bits, "a row of {n} values is read the same");
    bytes
}

/// The time of each value, by bytes as the library's and by bits as the reference's, for each length. First sees that
/// both answer the same.
pub fn times(rounds: usize) -> Vec<(usize, Times)> {
    compare();
    let mut values = [0; MAX_POINTS];
    let of_length = |length| {
        let (_, section) = row(length);
        let mut pass = |by: Read| {
            for _ in 0..CALLS {
                let answer = read(by, black_box(&section), length, &mut values);
                assert_eq!(answer, 0, "the row is read");
            }
        };
        let times = measure::in_turn(rounds, CALLS * length, |is_library| match is_library {
            true => pass(bench_booleans_bytes),
            false => pass(bench_booleans_bits),
        });
        (length, times)
    };
    LENGTHS.map(of_length).into()
}
