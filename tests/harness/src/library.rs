//! The static library `libtsm.a` behind the same interface, and memory with guard pages to lend to
//! it. All unsafe code of the tests is here.

use tsm::sys;

use crate::acts::{Acts, Block, Point, Query, Reply, Totals};
use crate::call::Entry;
use crate::lent::{Cell, Lent, Memory};

/// The library.
pub struct Library;

impl Acts for Library {
    fn check(&self, image: &[u8]) -> Reply<Totals> {
        let sys::Checked {
            answer,
            keys,
            points,
        } = sys::check(image);
        reply(answer, Totals { keys, points })
    }

    fn find(&self, query: Query) -> Reply<Entry> {
        let sys::Found { answer, entry } = sys::find(query.image, query.key, query.time);
        reply(answer, entry_of(entry))
    }

    fn read_block(&self, query: Query, times: &mut [i64], values: &mut [i64]) -> Reply<Block> {
        let Query { image, key, time } = query;
        let sys::Block {
            answer,
            entry,
            count,
        } = sys::read_block(image, key, time, times, values);
        let entry = entry_of(entry);
        reply(answer, Block { entry, count })
    }

    fn read_point(&self, query: Query) -> Reply<Point> {
        let sys::Point {
            answer,
            entry,
            value,
        } = sys::read_point(query.image, query.key, query.time);
        let entry = entry_of(entry);
        reply(answer, Point { entry, value })
    }

    fn write(&self, roll: &[u8], out: &mut [u8]) -> Reply<usize> {
        written(sys::write(roll, out))
    }

    fn unroll(&self, image: &[u8], out: &mut [u8]) -> Reply<usize> {
        written(sys::unroll(image, out))
    }

    fn merge(&self, older: &[u8], newer: &[u8], out: &mut [u8]) -> Reply<usize> {
        written(sys::merge(older, newer, out))
    }
}

fn reply<T>(answer: sys::Answer, given: T) -> Reply<T> {
    let sys::Answer { number } = answer;
    Reply { number, given }
}

fn written(written: sys::Written) -> Reply<usize> {
    let sys::Written { answer, bytes } = written;
    reply(answer, bytes)
}

fn entry_of(entry: sys::Entry) -> Entry {
    let sys::Entry {
        kind,
        size,
        min,
        max,
        offset,
    } = entry;
    Entry {
        kind,
        min,
        max,
        offset,
        size,
    }
}

/// Memory in which each lent slice lies against a page that may not be touched: a step over that
/// end, by reading too, ends the test. Canaries stand at the other end. Where there is no `mmap`,
/// it is ordinary memory with canaries.
#[derive(Clone, Copy)]
pub enum Guarded {
    /// The guard comes after the slice.
    After,
    /// The guard comes before the slice.
    Before,
}

impl Memory for Guarded {
    fn bytes(&self) -> Box<dyn Lent<u8>> {
        guarded_cells(*self)
    }

    fn numbers(&self) -> Box<dyn Lent<i64>> {
        guarded_cells(*self)
    }
}

#[cfg(not(target_os = "linux"))]
fn guarded_cells<T: Cell + 'static>(_: Guarded) -> Box<dyn Lent<T>> {
    Box::new(crate::lent::PaddedCells::default())
}

#[cfg(target_os = "linux")]
fn guarded_cells<T: Cell + 'static>(guard: Guarded) -> Box<dyn Lent<T>> {
    Box::new(pages::GuardedCells::new(guard))
}

#[cfg(target_os = "linux")]
mod pages {
    use std::ffi::{c_int, c_void};
    use std::marker::PhantomData;
    use std::{ptr, slice};

    use super::Guarded;
    use crate::lent::{fill, holds_pattern, Cell, Lent, MARGIN};

    extern "C" {
        fn mmap(
            address: *mut c_void,
            length: usize,
            protection: c_int,
            flags: c_int,
            file: c_int,
            offset: i64,
        ) -> *mut c_void;
        fn mprotect(address: *mut c_void, length: usize, protection: c_int) -> c_int;
        fn munmap(address: *mut c_void, length: usize) -> c_int;
    }

    const PROT_NONE: c_int = 0;
    const PROT_READ_WRITE: c_int = 1 | 2;
    const MAP_PRIVATE_ANONYMOUS: c_int = 0x02 | 0x20;
    const MAP_FAILED: *mut c_void = !0 as *mut c_void;

    /// A multiple of every page size in use.
    const GRAIN: usize = 65_536;

    /// Pages that may be read and written, between two that may not be touched.
    struct Pages {
        base: *mut u8,
        /// Bytes between the guards, a multiple of [`GRAIN`].
        inner: usize,
    }

    impl Pages {
        fn new(bytes: usize) -> Pages {
            let inner = bytes.next_multiple_of(GRAIN);
            // SAFETY: the mapping is new, so no other memory is touched; what is made accessible
            // lies inside it.
            unsafe {
                let base = mmap(
                    ptr::null_mut(),
                    inner + 2 * GRAIN,
                    PROT_NONE,
                    MAP_PRIVATE_ANONYMOUS,
                    -1,
                    0,
                );
                assert_ne!(base, MAP_FAILED, "mmap gives memory");
                let base = base.cast::<u8>();
                let opened = mprotect(base.add(GRAIN).cast(), inner, PROT_READ_WRITE);
                assert_eq!(opened, 0, "mprotect opens memory");
                Pages { base, inner }
            }
        }

        /// The first byte that may be touched.
        fn start(&self) -> *mut u8 {
            // SAFETY: the mapping is longer than the guard.
            unsafe { self.base.add(GRAIN) }
        }
    }

    impl Drop for Pages {
        fn drop(&mut self) {
            // SAFETY: this is the whole mapping, and no slice of it outlives its owner.
            unsafe { munmap(self.base.cast(), self.inner + 2 * GRAIN) };
        }
    }

    /// Cells of which the lent ones lie against a guard.
    pub struct GuardedCells<T> {
        guard: Guarded,
        pages: Pages,
        /// How many cells are lent.
        length: usize,
        cells: PhantomData<T>,
    }

    impl<T: Cell> GuardedCells<T> {
        pub fn new(guard: Guarded) -> GuardedCells<T> {
            GuardedCells {
                guard,
                pages: Pages::new(GRAIN),
                length: 0,
                cells: PhantomData,
            }
        }

        /// The canaries and the lent cells, which lie end to end against the guard.
        fn used(&self) -> *mut T {
            let bytes = (self.length + MARGIN) * size_of::<T>();
            match self.guard {
                Guarded::Before => self.pages.start().cast(),
                // SAFETY: the pages have at least that many bytes.
                Guarded::After => unsafe {
                    self.pages.start().add(self.pages.inner - bytes).cast()
                },
            }
        }

        /// Where the lent cells and where the canaries begin in the used cells.
        fn ranks(&self) -> (usize, usize) {
            match self.guard {
                Guarded::Before => (0, self.length),
                Guarded::After => (MARGIN, 0),
            }
        }
    }

    impl<T: Cell> Lent<T> for GuardedCells<T> {
        fn lend(&mut self, length: usize) -> &mut [T] {
            let bytes = (length + MARGIN) * size_of::<T>();
            if bytes > self.pages.inner {
                self.pages = Pages::new(bytes);
            }
            self.length = length;
            let (lent, canaries) = self.ranks();
            // SAFETY: the used cells lie in pages that `self` owns, aligned because the pages are,
            // and mapped memory is initialised. The two slices do not overlap.
            unsafe {
                fill(slice::from_raw_parts_mut(self.used().add(canaries), MARGIN));
                slice::from_raw_parts_mut(self.used().add(lent), length)
            }
        }

        fn canaries_live(&self) -> bool {
            let (_, canaries) = self.ranks();
            // SAFETY: as in `lend`.
            let canaries = unsafe { slice::from_raw_parts(self.used().add(canaries), MARGIN) };
            holds_pattern(canaries, 0)
        }
    }
}
