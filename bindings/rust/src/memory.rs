//! The memory functions that the archive calls, over `malloc`.

use std::ffi::c_void;

unsafe extern "C" {
    fn malloc(size: usize) -> *mut c_void;
    fn realloc(at: *mut c_void, size: usize) -> *mut c_void;
    fn free(at: *mut c_void);
}

#[repr(C)]
struct Tried {
    is_there: bool,
    at: *mut c_void,
}

/// What `at` is where memory was refused: an address that nobody reads or writes.
static NOTHING: u8 = 0;

fn tried(at: *mut c_void) -> Tried {
    if at.is_null() {
        let nothing = (&raw const NOTHING).cast_mut().cast();
        return Tried {
            is_there: false,
            at: nothing,
        };
    }
    Tried { is_there: true, at }
}

#[unsafe(no_mangle)]
extern "C" fn rattle_alloc(size: usize, alignment: usize) -> Tried {
    if is_refused() {
        return tried(std::ptr::null_mut());
    }
    // A block of 0 bytes is a block too, so that `free` gets what `malloc` gave.
    let size = if size == 0 { alignment } else { size };
    // SAFETY: any size may be asked for.
    tried(unsafe { malloc(size) })
}

/// # Safety
///
/// `at` is a block of `rattle_alloc` or `rattle_realloc`.
#[unsafe(no_mangle)]
unsafe extern "C" fn rattle_realloc(
    at: *mut c_void,
    _kept: usize,
    size: usize,
    alignment: usize,
) -> Tried {
    if is_refused() {
        return tried(std::ptr::null_mut());
    }
    let size = if size == 0 { alignment } else { size };
    // SAFETY: the caller gives a block.
    tried(unsafe { realloc(at, size) })
}

/// # Safety
///
/// `at` is a block of `rattle_alloc` or `rattle_realloc`.
#[unsafe(no_mangle)]
unsafe extern "C" fn rattle_dealloc(at: *mut c_void) {
    // SAFETY: the caller gives a block.
    unsafe { free(at) }
}

#[cfg(not(feature = "refuse"))]
fn is_refused() -> bool {
    false
}

#[cfg(feature = "refuse")]
fn is_refused() -> bool {
    refuse::is_refused()
}

/// Refuses requests of the core for memory, for tests.
#[cfg(feature = "refuse")]
pub mod refuse {
    use std::cell::Cell;

    thread_local! {
        static LEFT: Cell<u64> = const { Cell::new(u64::MAX) };
    }

    /// From now on this thread's requests are refused, after `count` that are granted.
    pub fn after(count: u64) {
        LEFT.set(count);
    }

    /// No request is refused any more.
    pub fn never() {
        LEFT.set(u64::MAX);
    }

    pub(super) fn is_refused() -> bool {
        match LEFT.get() {
            u64::MAX => false,
            0 => true,
            left => {
                LEFT.set(left - 1);
                false
            }
        }
    }
}
