//! Stands for the crate `memchr`, of which the original crate calls two functions: the C library's. No compiler makes one
//! search for all calls of a loop, since the place of the bytes is hidden from it.
use std::ffi::{c_int, c_void};
use std::hint::black_box;

unsafe extern "C" {
    #[link_name = "memchr"]
    fn c_memchr(start: *const c_void, byte: c_int, len: usize) -> *const c_void;
    #[link_name = "memrchr"]
    fn c_memrchr(start: *const c_void, byte: c_int, len: usize) -> *const c_void;
}

/// Where this byte first stands.
pub fn memchr(byte: u8, bytes: &[u8]) -> Option<usize> {
    let start = black_box(bytes.as_ptr());
    let found = unsafe { c_memchr(start.cast(), c_int::from(byte), bytes.len()) };
    (!found.is_null()).then(|| found as usize - start as usize)
}

/// Where this byte last stands.
pub fn memrchr(byte: u8, bytes: &[u8]) -> Option<usize> {
    let start = black_box(bytes.as_ptr());
    let found = unsafe { c_memrchr(start.cast(), c_int::from(byte), bytes.len()) };
    (!found.is_null()).then(|| found as usize - start as usize)
}
