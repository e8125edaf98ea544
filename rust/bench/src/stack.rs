//! How deep a call goes into the stack: the part of a thread's stack below the
//! caller is painted first, and what is no longer painted afterwards was used.

use std::hint::black_box;
use std::thread;

const STACK: usize = 4 << 20;
/// How much of it is painted, and how much below the caller is left out
/// because the painting itself needs some.
const PAINTED: usize = 2 << 20;
const OWN: usize = 4 << 10;
const PAINT: u64 = 0x5ca1_ab1e_0ddc_0ffe;

/// The bytes of stack that a call uses.
pub fn depth(call: impl FnOnce() + Send + 'static) -> usize {
    let measured = thread::Builder::new().stack_size(STACK).spawn(move || {
        let here = 0u64;
        let top = std::ptr::from_ref(black_box(&here)).cast_mut();
        paint(top);
        call();
        used(top)
    });
    let measured = measured.expect("a thread starts");
    measured.join().expect("the call returns")
}

/// The words of the painted part, from the deepest on.
fn words(top: *mut u64) -> impl Iterator<Item = *mut u64> {
    let word = size_of::<u64>();
    let deepest = top.wrapping_sub(PAINTED / word);
    (0..(PAINTED - OWN) / word).map(move |place| deepest.wrapping_add(place))
}

#[inline(never)]
fn paint(top: *mut u64) {
    for word in words(top) {
        // SAFETY: the thread's stack reaches further down than the painted part, and
        // nothing below the caller's frame is in use.
        unsafe { word.write_volatile(PAINT) };
    }
}

#[inline(never)]
fn used(top: *mut u64) -> usize {
    // SAFETY: as in `paint`, which has written these words.
    let unpainted = words(top).position(|word| unsafe { word.read_volatile() } != PAINT);
    unpainted.map_or(OWN, |place| PAINTED - place * size_of::<u64>())
}
