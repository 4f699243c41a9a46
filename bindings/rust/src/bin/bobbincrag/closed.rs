//! Whether standard output was closed before the program began. Rust opens /dev/null in its place before `main`, so it is asked before that.
#![allow(unsafe_code)]
use std::sync::atomic::{AtomicBool, Ordering};

static CLOSED: AtomicBool = AtomicBool::new(false);

pub fn standard_output() -> bool {
    CLOSED.load(Ordering::Relaxed)
}

#[cfg(target_os = "linux")]
mod asked {
    use std::ffi::c_int;

    extern "C" {
        fn fcntl(stream: c_int, command: c_int, ...) -> c_int;
    }

    /// F_GETFD fails for a stream that is not open.
    extern "C" fn ask() {
        const F_GETFD: c_int = 1;
        let open = unsafe { fcntl(1, F_GETFD) } != -1;
        super::CLOSED.store(!open, super::Ordering::Relaxed);
    }

    /// The functions of this section run before `main`.
    #[used]
    #[link_section = ".init_array"]
    static ASK: extern "C" fn() = ask;
}
