//! How much stack a call takes: what lies below is painted before it and looked at after it.

const PAINTED: usize = 256 * 1024;
const PAINT: u8 = 0xc7;
/// Left alone below the stack pointer: the painting and the looking have frames of their own.
const APART: usize = 1024;

/// The bytes below this function's frame that `work` changed; they are fewer than 256 KiB.
#[inline(never)]
pub fn used(work: impl FnOnce() + Send) -> usize {
    let measured = || {
        let top: usize;
        // SAFETY: reads the stack pointer and changes nothing.
        unsafe { std::arch::asm!("mov {}, rsp", out(reg) top, options(nomem, nostack, preserves_flags)) };
        paint(top - APART);
        work();
        APART + changed(top - APART)
    };
    std::thread::scope(|scope| {
        let thread = std::thread::Builder::new().stack_size(8 * PAINTED).spawn_scoped(scope, measured);
        thread.expect("a thread").join().expect("the work ends")
    })
}

#[inline(never)]
fn paint(top: usize) {
    for n in 1..=PAINTED {
        // SAFETY: the thread's stack is eight times as long, and nothing below this frame is in use.
        unsafe { std::ptr::write_volatile((top - n) as *mut u8, PAINT) };
    }
}

#[inline(never)]
fn changed(top: usize) -> usize {
    // SAFETY: as above.
    (1..=PAINTED).rev().find(|&n| unsafe { std::ptr::read_volatile((top - n) as *const u8) } != PAINT).unwrap_or(0)
}
