//! What the standard library lacks: to be asked to end, and to sleep until the reader of a pipe is gone. The only unsafe code of `rack`, over
//! functions of the C library that the standard library links anyway.

use std::ffi::{c_int, c_short, c_ulong};
use std::os::fd::{AsRawFd, BorrowedFd};
use std::sync::atomic::{AtomicBool, Ordering};
use std::time::Duration;

const SIGINT: c_int = 2;
const SIGTERM: c_int = 15;
const POLLERR: c_short = 8;
const POLLHUP: c_short = 16;

#[repr(C)]
struct Polled {
    fd: c_int,
    events: c_short,
    revents: c_short,
}

extern "C" {
    fn signal(number: c_int, handler: extern "C" fn(c_int)) -> usize;
    fn siginterrupt(number: c_int, interrupts: c_int) -> c_int;
    fn poll(list: *mut Polled, count: c_ulong, milliseconds: c_int) -> c_int;
}

static ASKED: AtomicBool = AtomicBool::new(false);

extern "C" fn ask(_: c_int) {
    ASKED.store(true, Ordering::Relaxed);
}

/// From now on SIGTERM and SIGINT ask the process to end, and end nothing but a call of the system that waits.
pub fn end_when_asked() {
    for number in [SIGTERM, SIGINT] {
        // SAFETY: the handler stores into an atomic and does nothing else, which a handler may.
        unsafe {
            signal(number, ask);
            siginterrupt(number, 1);
        }
    }
}

pub fn asked_to_end() -> bool {
    ASKED.load(Ordering::Relaxed)
}

/// Sleeps for so long, or until a signal comes or the other end of the pipe is closed; true where it is.
pub fn sleep_until_closed(pipe: BorrowedFd, time: Duration) -> bool {
    let mut polled = Polled { fd: pipe.as_raw_fd(), events: 0, revents: 0 };
    // SAFETY: it is one whole entry, and the descriptor is open while it is borrowed.
    let found = unsafe { poll(&mut polled, 1, time.as_millis() as c_int) };
    found > 0 && polled.revents & (POLLERR | POLLHUP) != 0
}
