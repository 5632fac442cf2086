// How much of the stack a call writes: what lies below it is painted, and read back after it.
#![allow(unsafe_code)]

const DEPTH: usize = 65_536;
const PAINT: u8 = 0xA5;
// What the painter itself stands on.
const OWN: usize = 128;

#[inline(never)]
fn here() -> usize {
    let mark = 0u8;
    std::hint::black_box(&mark) as *const u8 as usize
}

#[inline(never)]
fn paint(top: usize) {
    for place in top - DEPTH..top - OWN {
        // SAFETY: the place lies below every frame that is in use, on this thread's stack, which is far longer.
        unsafe { (place as *mut u8).write_volatile(PAINT) }
    }
}

#[inline(never)]
fn painted(place: usize) -> bool {
    // SAFETY: as above; what stands there was painted, or written by the call.
    unsafe { (place as *const u8).read_volatile() == PAINT }
}

// The bytes from here down to the deepest one that the call wrote, and what the call hands back.
#[inline(never)]
pub fn written<R>(call: impl FnOnce() -> R) -> (usize, R) {
    let top = here();
    paint(top);
    let told = call();
    let place = (top - DEPTH..top).find(|place| !painted(*place)).unwrap_or(top);
    (top - place, told)
}
