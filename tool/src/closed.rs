//! Which of the standard streams were closed when the program began. Before `main` Rust opens /dev/null in the place of a closed stream, so a result
//! would vanish there without an error. The look is taken earlier, by a function that the loader calls.
use std::ffi::c_int;
use std::io::{Error, Result};
use std::sync::atomic::{AtomicBool, Ordering};

static INPUT: AtomicBool = AtomicBool::new(false);
static OUTPUT: AtomicBool = AtomicBool::new(false);

/// Linux's number of the question for a descriptor's flags.
const F_GETFD: c_int = 1;

extern "C" {
    fn fcntl(descriptor: c_int, question: c_int, ...) -> c_int;
}

extern "C" fn look() {
    // SAFETY: the question reads flags and takes any number for a descriptor.
    let closed = |descriptor: c_int| unsafe { fcntl(descriptor, F_GETFD) } == -1;
    INPUT.store(closed(0), Ordering::Relaxed);
    OUTPUT.store(closed(1), Ordering::Relaxed);
}

/// The loader calls what stands in this section before `main`.
#[used]
#[link_section = ".init_array"]
static LOOK: extern "C" fn() = look;

pub fn input_is_open() -> Result<()> {
    open_unless(&INPUT)
}

pub fn output_is_open() -> Result<()> {
    open_unless(&OUTPUT)
}

fn open_unless(closed: &AtomicBool) -> Result<()> {
    if closed.load(Ordering::Relaxed) {
        Err(Error::other("it is closed"))
    } else {
        Ok(())
    }
}
