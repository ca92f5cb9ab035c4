//! How deep a call's stack reaches: paints the stack below, calls, and looks for the
//! lowest word that changed. The only code here that touches memory it doesn't own.

use std::thread;

/// Bytes that are painted.
const PAINTED: usize = 16 << 20;
/// Bytes of the thread's stack: room above and below the paint.
const STACK: usize = PAINTED + (2 << 20);
/// Bytes left alone below the caller's frame, where the painting functions run.
pub const GAP: usize = if cfg!(debug_assertions) { 16_384 } else { 1_024 };
/// The paint, mixed with the address so that no copied word passes for it.
const PAINT: usize = 0x5AA5_C33C_9669_F00F;

/// Bytes of stack from the caller's frame to the lowest word that `call` changes; 0 if
/// that lies within the gap.
pub fn depth_of(call: impl Fn() + Sync) -> usize {
    thread::scope(|scope| {
        let builder = thread::Builder::new().stack_size(STACK);
        let measured = builder.spawn_scoped(scope, || {
            // Once before, so that what only the first call does isn't counted.
            call();
            measure(&call)
        });
        measured.expect("a thread").join().expect("the call returns")
    })
}

#[inline(never)]
fn measure(call: &dyn Fn()) -> usize {
    let here = 0usize;
    let top = std::ptr::from_ref(std::hint::black_box(&here)) as usize & !7;
    paint(top - PAINTED, top - GAP);
    call();
    let lowest = lowest_changed(top - PAINTED, top - GAP);
    assert_ne!(lowest, Some(top - PAINTED), "the paint reaches deeper than the call");
    lowest.map_or(0, |lowest| top - lowest)
}

#[inline(never)]
#[allow(unsafe_code)]
fn paint(from: usize, to: usize) {
    let mut address = from;
    while address < to {
        // SAFETY: the words lie in this thread's own stack, at least GAP bytes below the
        // frames in use and above its guard page; nothing live is there.
        unsafe { (address as *mut usize).write_volatile(address ^ PAINT) };
        address += 8;
    }
}

#[inline(never)]
#[allow(unsafe_code)]
fn lowest_changed(from: usize, to: usize) -> Option<usize> {
    // SAFETY: as for `paint`; these words were written there.
    let word = |address: usize| unsafe { (address as *const usize).read_volatile() };
    (from..to).step_by(8).find(|&address| word(address) != address ^ PAINT)
}
