// Memory that runs out once: put before a program with LD_PRELOAD, it refuses the allocation whose
// number FAIL_ALLOC has, counted from 1. With FAIL_ALLOC=0 it refuses none, and at the end says on
// standard error how many there were.
use std::ffi::{c_char, c_int, c_void};
use std::sync::atomic::{AtomicU64, Ordering::Relaxed};

extern "C" {
    fn __libc_malloc(size: usize) -> *mut c_void;
    fn __libc_realloc(old: *mut c_void, size: usize) -> *mut c_void;
    fn __libc_memalign(align: usize, size: usize) -> *mut c_void;
    fn getenv(name: *const c_char) -> *const c_char;
    fn strtoull(text: *const c_char, end: *mut *mut c_char, base: c_int) -> u64;
    fn dprintf(file: c_int, format: *const c_char, ...) -> c_int;
}

/// How many allocations there were, and which is refused.
static COUNT: AtomicU64 = AtomicU64::new(0);
static REFUSED: AtomicU64 = AtomicU64::new(u64::MAX);

/// Counts an allocation, and tells whether it is refused. The first asks for the variable.
fn is_refused() -> bool {
    if REFUSED.load(Relaxed) == u64::MAX {
        let text = unsafe { getenv(c"FAIL_ALLOC".as_ptr()) };
        let number =
            if text.is_null() { 0 } else { unsafe { strtoull(text, std::ptr::null_mut(), 10) } };
        REFUSED.store(number, Relaxed);
    }
    COUNT.fetch_add(1, Relaxed) + 1 == REFUSED.load(Relaxed)
}

#[no_mangle]
pub unsafe extern "C" fn malloc(size: usize) -> *mut c_void {
    if is_refused() { std::ptr::null_mut() } else { __libc_malloc(size) }
}

#[no_mangle]
pub unsafe extern "C" fn realloc(old: *mut c_void, size: usize) -> *mut c_void {
    if is_refused() { std::ptr::null_mut() } else { __libc_realloc(old, size) }
}

#[no_mangle]
pub unsafe extern "C" fn aligned_alloc(align: usize, size: usize) -> *mut c_void {
    if is_refused() { std::ptr::null_mut() } else { __libc_memalign(align, size) }
}

extern "C" fn tell() {
    if REFUSED.load(Relaxed) == 0 {
        unsafe { dprintf(2, c"allocations %llu\n".as_ptr(), COUNT.load(Relaxed)) };
    }
}

#[used]
#[link_section = ".fini_array"]
static TELL: extern "C" fn() = tell;
