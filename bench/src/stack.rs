//! Stack that an act uses: the stack below the caller is painted, and what lost its paint was used.

use std::hint::black_box;
use std::ptr;
use std::thread;

const PAINT: u8 = 0xa5;
/// Bytes that are painted, more than any act may use.
const PAINTED: usize = 512 * 1024;
/// Bytes below the painter's local that it may still use itself.
const OWN: usize = 256;

/// Bytes of stack that `act` uses, and some tens more.
pub fn used(act: impl FnOnce() + Send) -> usize {
    thread::scope(|scope| {
        let builder = thread::Builder::new().stack_size(2 * PAINTED);
        let thread = builder.spawn_scoped(scope, || {
            let top = paint();
            below(act);
            unpainted(top)
        });
        let used = thread.expect("a thread starts").join();
        used.expect("the act comes back")
    })
}

/// Runs the act in a frame of its own, below the paint's beginning.
#[inline(never)]
fn below(act: impl FnOnce()) {
    act();
}

/// Sees that a use of known size is told.
pub fn tells_known_use() {
    const KNOWN: usize = 20_000;
    let told = used(|| {
        black_box(&mut [0u8; KNOWN]);
    });
    assert!(
        (KNOWN..KNOWN + 2 * OWN).contains(&told),
        "{told} bytes of stack are told where {KNOWN} are used"
    );
}

/// Paints the stack below its frame, and answers where the paint begins.
#[inline(never)]
fn paint() -> usize {
    let local = 0u8;
    let top = ptr::from_ref(black_box(&local)) as usize - OWN;
    for below in 1..=PAINTED {
        // SAFETY: the thread's stack is twice as long as what is painted, and nothing lives below
        // the frame of this function, which calls none.
        unsafe { ptr::write_volatile((top - below) as *mut u8, PAINT) };
    }
    top
}

/// Bytes from the beginning of the paint to the deepest byte that lost it.
#[inline(never)]
fn unpainted(top: usize) -> usize {
    (1..=PAINTED)
        .rev()
        // SAFETY: as in `paint`, which wrote these bytes.
        .find(|below| unsafe { ptr::read_volatile((top - below) as *const u8) } != PAINT)
        .map_or(0, |deepest| deepest + OWN)
}
