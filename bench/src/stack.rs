//! How deep a call goes into the stack: the stack below is painted, and what lost its paint was used.

use crate::list::List;
use crate::measure::Room;
use std::arch::asm;

const DEPTH: usize = 1 << 20;
/// Room that the painting itself may use below the stack pointer.
const GAP: usize = 1 << 10;
const PAINT: u8 = 0xa5;

/// Bytes of stack that grouping a list uses, the pair table of 65,536 bytes included.
pub fn used(list: List) -> usize {
    let painted = move || {
        let mut room = Room::new();
        room.library_once(&list);
        measured(|| room.library_once(&list))
    };
    std::thread::Builder::new().stack_size(4 * DEPTH).spawn(painted).expect("a thread").join().expect("a painted call")
}

#[inline(never)]
fn measured(call: impl FnOnce()) -> usize {
    let top = stack_pointer();
    for place in top - DEPTH..top - GAP {
        // The thread's stack reaches far deeper than DEPTH, and nothing alive stands below the pointer and its red zone.
        unsafe { (place as *mut u8).write_volatile(PAINT) };
    }
    call();
    (top - DEPTH..top - GAP).find(|place| unsafe { (*place as *const u8).read_volatile() } != PAINT).map_or(GAP, |place| top - place)
}

#[inline(always)]
fn stack_pointer() -> usize {
    let pointer;
    #[cfg(target_arch = "x86_64")]
    unsafe {
        asm!("mov {}, rsp", out(reg) pointer, options(nomem, nostack, preserves_flags))
    };
    #[cfg(target_arch = "aarch64")]
    unsafe {
        asm!("mov {}, sp", out(reg) pointer, options(nomem, nostack, preserves_flags))
    };
    pointer
}
