//! The functions of `exports.rt.txt`, which is linked as a static library.

/// A function that only reads.
pub type Reads<T> = unsafe extern "C" fn(*const T, usize) -> usize;

/// A function that writes into a destination.
pub type Converts<T, U> = unsafe extern "C" fn(*const T, usize, *mut U, usize) -> usize;

/// A function that changes its argument.
pub type Mends<T> = unsafe extern "C" fn(*mut T, usize) -> usize;

unsafe extern "C" {
    pub fn ours_is_ascii(src: *const u8, len: usize) -> usize;
    pub fn ours_is_basic_latin(src: *const u16, len: usize) -> usize;
    pub fn ours_ascii_valid_up_to(src: *const u8, len: usize) -> usize;
    pub fn ours_iso_2022_jp_ascii_valid_up_to(src: *const u8, len: usize) -> usize;
    pub fn ours_utf8_valid_up_to(src: *const u8, len: usize) -> usize;
    pub fn ours_utf16_valid_up_to(src: *const u16, len: usize) -> usize;
    pub fn ours_ensure_utf16_validity(units: *mut u16, len: usize) -> usize;
    pub fn ours_is_utf8_latin1(src: *const u8, len: usize) -> usize;
    pub fn ours_is_str_latin1(src: *const u8, len: usize) -> usize;
    pub fn ours_is_utf16_latin1(src: *const u16, len: usize) -> usize;
    pub fn ours_utf8_latin1_up_to(src: *const u8, len: usize) -> usize;
    pub fn ours_str_latin1_up_to(src: *const u8, len: usize) -> usize;
    pub fn ours_is_utf8_bidi(src: *const u8, len: usize) -> usize;
    pub fn ours_is_str_bidi(src: *const u8, len: usize) -> usize;
    pub fn ours_is_utf16_bidi(src: *const u16, len: usize) -> usize;
    pub fn ours_check_utf8_for_latin1_and_bidi(src: *const u8, len: usize) -> usize;
    pub fn ours_check_str_for_latin1_and_bidi(src: *const u8, len: usize) -> usize;
    pub fn ours_check_utf16_for_latin1_and_bidi(src: *const u16, len: usize) -> usize;
    pub fn ours_convert_utf8_to_utf16(
        src: *const u8,
        len: usize,
        dst: *mut u16,
        room: usize,
    ) -> usize;
    pub fn ours_convert_str_to_utf16(
        src: *const u8,
        len: usize,
        dst: *mut u16,
        room: usize,
    ) -> usize;
    pub fn ours_convert_utf8_to_utf16_without_replacement(
        src: *const u8,
        len: usize,
        dst: *mut u16,
        room: usize,
    ) -> usize;
    pub fn ours_convert_utf16_to_utf8(
        src: *const u16,
        len: usize,
        dst: *mut u8,
        room: usize,
    ) -> usize;
    pub fn ours_convert_utf16_to_str(
        src: *const u16,
        len: usize,
        dst: *mut u8,
        room: usize,
    ) -> usize;
    pub fn ours_convert_latin1_to_utf16(
        src: *const u8,
        len: usize,
        dst: *mut u16,
        room: usize,
    ) -> usize;
    pub fn ours_convert_latin1_to_utf8(
        src: *const u8,
        len: usize,
        dst: *mut u8,
        room: usize,
    ) -> usize;
    pub fn ours_convert_latin1_to_str(
        src: *const u8,
        len: usize,
        dst: *mut u8,
        room: usize,
    ) -> usize;
    pub fn ours_convert_utf8_to_latin1_lossy(
        src: *const u8,
        len: usize,
        dst: *mut u8,
        room: usize,
    ) -> usize;
    pub fn ours_convert_utf16_to_latin1_lossy(
        src: *const u16,
        len: usize,
        dst: *mut u8,
        room: usize,
    ) -> usize;
    pub fn ours_copy_ascii_to_ascii(src: *const u8, len: usize, dst: *mut u8, room: usize)
        -> usize;
    pub fn ours_copy_ascii_to_basic_latin(
        src: *const u8,
        len: usize,
        dst: *mut u16,
        room: usize,
    ) -> usize;
    pub fn ours_copy_basic_latin_to_ascii(
        src: *const u16,
        len: usize,
        dst: *mut u8,
        room: usize,
    ) -> usize;
    // An allocator takes no bytes, so that none is passed.
    pub fn ours_decode_latin1(src: *const u8, len: usize) -> usize;
    pub fn ours_encode_latin1_lossy(src: *const u8, len: usize) -> usize;
}
