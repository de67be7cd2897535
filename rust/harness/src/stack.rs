//! How much stack a call needs: a thread's stack is painted, and afterwards it is seen how far down the paint is gone.
use std::{hint::black_box, thread};

/// Words painted: more than any call needs.
const WORDS: usize = 1 << 19;
const PAINT: u64 = 0xA5A5_5A5A_A5A5_5A5A;
/// Bytes that the painting itself stands on.
const OWN: usize = 1 << 10;

#[inline(never)]
fn place() -> *mut u64 {
    let here = 0u64;
    black_box(&raw const here as *mut u64)
}

/// Bytes of stack that `call` needs, to a few hundred; 0 where that is below a thousand.
pub fn depth(call: impl FnOnce() + Send) -> usize {
    thread::scope(|scope| {
        let run = move || {
            // SAFETY: the thread's stack is mapped from its guard page up, and nothing below this frame is in use.
            unsafe {
                let bottom = place().byte_sub(OWN).sub(WORDS);
                (0..WORDS).for_each(|i| bottom.add(i).write_volatile(PAINT));
                black_box(call)();
                let kept = (0..WORDS).take_while(|i| bottom.add(*i).read_volatile() == PAINT).count();
                if kept == WORDS { 0 } else { 8 * (WORDS - kept) + OWN }
            }
        };
        thread::Builder::new().stack_size(8 * WORDS + (1 << 20)).spawn_scoped(scope, run).expect("a thread").join().expect("the call returns")
    })
}
