//! A program may have functions of the names that the library's functions for memory have in C, as the crate
//! encoding_c_mem has, which call this crate.

use encoding_rs::{mem, Encoding};
use std::slice;

/// # Safety
///
/// The slice is what the two say.
#[no_mangle]
pub unsafe extern "C" fn encoding_mem_is_ascii(buffer: *const u8, len: usize) -> bool {
    mem::is_ascii(slice::from_raw_parts(buffer, len))
}

/// # Safety
///
/// As above.
#[no_mangle]
pub unsafe extern "C" fn encoding_utf8_valid_up_to(buffer: *const u8, len: usize) -> usize {
    Encoding::utf8_valid_up_to(slice::from_raw_parts(buffer, len))
}

#[test]
fn names_of_another_crate() {
    let bytes = b"abc\xFF";
    // SAFETY: each slice is what the two say.
    unsafe {
        assert!(encoding_mem_is_ascii(bytes.as_ptr(), 3));
        assert!(!encoding_mem_is_ascii(bytes.as_ptr(), 4));
        assert_eq!(encoding_utf8_valid_up_to(bytes.as_ptr(), 4), 3);
    }
}
