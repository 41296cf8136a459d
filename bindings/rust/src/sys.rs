//! The structs and functions of include/tsm.h, over slices. All unsafe code of this crate is here.
//!
//! Each function answers a struct by value: number 0 and the result, or the number of an error and 0 in every other
//! field. What a call needs: pointers and lengths that come from slices, and outputs that overlap nothing else. A `&mut`
//! slice is unique, and lives through the call.

use std::mem::{offset_of, size_of};

/// `struct tsm_answer`.
#[repr(C)]
#[derive(Clone, Copy, Debug, Default, PartialEq, Eq)]
pub struct Answer {
    pub number: u8,
}

/// `struct tsm_entry`.
#[repr(C)]
#[derive(Clone, Copy, Debug, Default, PartialEq, Eq)]
pub struct Entry {
    pub kind: u8,
    pub size: u32,
    pub min: i64,
    pub max: i64,
    pub offset: u64,
}

/// `struct tsm_checked`.
#[repr(C)]
#[derive(Clone, Copy, Debug, Default, PartialEq, Eq)]
pub struct Checked {
    pub answer: Answer,
    pub keys: u64,
    pub points: u64,
}

/// `struct tsm_found`.
#[repr(C)]
#[derive(Clone, Copy, Debug, Default, PartialEq, Eq)]
pub struct Found {
    pub answer: Answer,
    pub entry: Entry,
}

/// `struct tsm_block`.
#[repr(C)]
#[derive(Clone, Copy, Debug, Default, PartialEq, Eq)]
pub struct Block {
    pub answer: Answer,
    pub entry: Entry,
    pub count: usize,
}

/// `struct tsm_point`.
#[repr(C)]
#[derive(Clone, Copy, Debug, Default, PartialEq, Eq)]
pub struct Point {
    pub answer: Answer,
    pub entry: Entry,
    pub value: i64,
}

/// `struct tsm_written`.
#[repr(C)]
#[derive(Clone, Copy, Debug, Default, PartialEq, Eq)]
pub struct Written {
    pub answer: Answer,
    pub bytes: usize,
}

/// Asserts the size of structs and the offsets of their fields, and keeps them as a table for the tests.
macro_rules! layout {
    ($($name:ident $size:literal { $($field:ident $offset:literal)* })*) => {
        $(const _: () = {
            assert!(size_of::<$name>() == $size);
            $(assert!(offset_of!($name, $field) == $offset);)*
        };)*

        #[cfg(test)]
        pub const LAYOUT: &[(&str, usize, &[(&str, usize)])] =
            &[$((stringify!($name), $size, &[$((stringify!($field), $offset)),*])),*];
    };
}

// tests/c/layout.h asserts the same of tsm.h.
layout! {
    Answer 1 { number 0 }
    Entry 32 { kind 0 size 4 min 8 max 16 offset 24 }
    Checked 24 { answer 0 keys 8 points 16 }
    Found 40 { answer 0 entry 8 }
    Block 48 { answer 0 entry 8 count 40 }
    Point 48 { answer 0 entry 8 value 40 }
    Written 16 { answer 0 bytes 8 }
}

mod c {
    use super::{Block, Checked, Found, Point, Written};

    extern "C" {
        pub fn tsm_check(image: *const u8, image_len: usize) -> Checked;

        pub fn tsm_find(
            image: *const u8,
            image_len: usize,
            key: *const u8,
            key_len: usize,
            time: i64,
        ) -> Found;

        pub fn tsm_read_block(
            image: *const u8,
            image_len: usize,
            key: *const u8,
            key_len: usize,
            time: i64,
            times: *mut i64,
            times_len: usize,
            values: *mut i64,
            values_len: usize,
        ) -> Block;

        pub fn tsm_read_point(
            image: *const u8,
            image_len: usize,
            key: *const u8,
            key_len: usize,
            time: i64,
        ) -> Point;

        pub fn tsm_write(roll: *const u8, roll_len: usize, out: *mut u8, out_len: usize)
            -> Written;

        pub fn tsm_unroll(
            image: *const u8,
            image_len: usize,
            out: *mut u8,
            out_len: usize,
        ) -> Written;

        pub fn tsm_merge(
            older: *const u8,
            older_len: usize,
            newer: *const u8,
            newer_len: usize,
            out: *mut u8,
            out_len: usize,
        ) -> Written;
    }
}

pub fn check(image: &[u8]) -> Checked {
    // SAFETY: the pointer and length are a slice's.
    unsafe { c::tsm_check(image.as_ptr(), image.len()) }
}

pub fn find(image: &[u8], key: &[u8], time: i64) -> Found {
    // SAFETY: each pointer and length are a slice's.
    unsafe { c::tsm_find(image.as_ptr(), image.len(), key.as_ptr(), key.len(), time) }
}

pub fn read_block(
    image: &[u8],
    key: &[u8],
    time: i64,
    times: &mut [i64],
    values: &mut [i64],
) -> Block {
    // SAFETY: each pointer and length are a slice's, the two that are written unique.
    unsafe {
        c::tsm_read_block(
            image.as_ptr(),
            image.len(),
            key.as_ptr(),
            key.len(),
            time,
            times.as_mut_ptr(),
            times.len(),
            values.as_mut_ptr(),
            values.len(),
        )
    }
}

pub fn read_point(image: &[u8], key: &[u8], time: i64) -> Point {
    // SAFETY: each pointer and length are a slice's.
    unsafe { c::tsm_read_point(image.as_ptr(), image.len(), key.as_ptr(), key.len(), time) }
}

pub fn write(roll: &[u8], out: &mut [u8]) -> Written {
    // SAFETY: each pointer and length are a slice's, the one that is written unique.
    unsafe { c::tsm_write(roll.as_ptr(), roll.len(), out.as_mut_ptr(), out.len()) }
}

pub fn unroll(image: &[u8], out: &mut [u8]) -> Written {
    // SAFETY: as in `write`.
    unsafe { c::tsm_unroll(image.as_ptr(), image.len(), out.as_mut_ptr(), out.len()) }
}

pub fn merge(older: &[u8], newer: &[u8], out: &mut [u8]) -> Written {
    // SAFETY: as in `write`.
    unsafe {
        c::tsm_merge(
            older.as_ptr(),
            older.len(),
            newer.as_ptr(),
            newer.len(),
            out.as_mut_ptr(),
            out.len(),
        )
    }
}
