//! Whether standard output was open at the start. Rust puts /dev/null in the place of a closed one before `main`, and then every write seems to do well:
//! so it is looked at before that.
use std::{
    ffi::c_int,
    sync::atomic::{AtomicBool, Ordering},
};

static CLOSED: AtomicBool = AtomicBool::new(false);

unsafe extern "C" {
    fn fcntl(file: c_int, command: c_int, ...) -> c_int;
}

extern "C" fn look() {
    const GET_FLAGS: c_int = 1;
    // SAFETY: F_GETFD reads the flags of a descriptor, or fails where it is not open.
    CLOSED.store(unsafe { fcntl(1, GET_FLAGS) } == -1, Ordering::Relaxed);
}

#[used]
#[unsafe(link_section = ".init_array")]
static LOOK: extern "C" fn() = look;

/// Standard output was closed when the command started.
pub fn output() -> bool {
    CLOSED.load(Ordering::Relaxed)
}
