//! Checks of texts in memory, and conversions between UTF-8, UTF-16 and Latin1.
//!
//! Latin1 has the characters U+0000 to U+00FF, each as the byte of its number; it is not
//! [`WINDOWS_1252`](crate::WINDOWS_1252). UTF-16 is units in the order of the machine. A unit that is a surrogate in
//! no pair is malformed, and so are bytes that are not UTF-8; each conversion says what it does with them. What
//! stands in `dst` after what was written does not change, unless the function says so.
//!
//! Each function is proved, as the function `jillapun_mem_NAME` of the header, if it names no other.

use crate::sys::mem as sys;
use std::borrow::Cow;

/// What a text is, for layout.
#[must_use]
#[derive(Debug, PartialEq, Eq)]
#[repr(C)]
pub enum Latin1Bidi {
    /// Each character is at most U+00FF.
    Latin1 = 0,
    /// Some character is above U+00FF, and none may be written from right to left.
    LeftToRight = 1,
    /// Some character may be written from right to left, or the bytes are not UTF-8.
    Bidi = 2,
}

/// Why a conversion panics.
const SHORT: &str = "the destination is too short for the source";

/// Whether each byte is ASCII: below 80 hex.
pub fn is_ascii(buffer: &[u8]) -> bool {
    sys::is_ascii(buffer)
}

/// Whether each unit of UTF-16 is ASCII: below 80 hex.
pub fn is_basic_latin(buffer: &[u16]) -> bool {
    sys::is_basic_latin(buffer)
}

/// Whether the bytes are UTF-8 with no character above U+00FF.
pub fn is_utf8_latin1(buffer: &[u8]) -> bool {
    sys::is_utf8_latin1(buffer)
}

/// Whether a text has no character above U+00FF.
pub fn is_str_latin1(buffer: &str) -> bool {
    sys::is_str_latin1(buffer)
}

/// Whether each unit of UTF-16 is at most FF hex.
pub fn is_utf16_latin1(buffer: &[u16]) -> bool {
    sys::is_utf16_latin1(buffer)
}

/// Whether [`is_char_bidi`] holds of some character of the bytes, as UTF-8, or they are not UTF-8.
pub fn is_utf8_bidi(buffer: &[u8]) -> bool {
    sys::is_utf8_bidi(buffer)
}

/// Whether [`is_char_bidi`] holds of some character of a text.
pub fn is_str_bidi(buffer: &str) -> bool {
    sys::is_str_bidi(buffer)
}

/// Whether [`is_utf16_code_unit_bidi`] holds of some unit. A high surrogate in no pair counts as if its pair were
/// whole.
pub fn is_utf16_bidi(buffer: &[u16]) -> bool {
    sys::is_utf16_bidi(buffer)
}

/// Whether a character may be written from right to left, or is a control that begins such a run.
///
/// Blocks are taken as a whole, so it holds of some characters that are not: of U+0590 to U+08FF, U+200F, U+202B,
/// U+202E, U+2067, U+FB1D to U+FDFF, U+FE70 to U+FEFE, U+10800 to U+10FFF and U+1E800 to U+1EFFF.
pub fn is_char_bidi(c: char) -> bool {
    sys::is_char_bidi(c)
}

/// Whether a unit of UTF-16 is a character of which [`is_char_bidi`] holds, or a high surrogate with which one above
/// U+FFFF begins: D802, D803, D83A or D83B.
pub fn is_utf16_code_unit_bidi(u: u16) -> bool {
    sys::is_utf16_code_unit_bidi(u)
}

/// [`Latin1`](Latin1Bidi::Latin1) if [`is_utf8_latin1`] holds of the bytes, [`Bidi`](Latin1Bidi::Bidi) if
/// [`is_utf8_bidi`] does, and else [`LeftToRight`](Latin1Bidi::LeftToRight).
pub fn check_utf8_for_latin1_and_bidi(buffer: &[u8]) -> Latin1Bidi {
    sys::check_utf8_for_latin1_and_bidi(buffer)
}

/// [`Latin1`](Latin1Bidi::Latin1) if [`is_str_latin1`] holds of the text, [`Bidi`](Latin1Bidi::Bidi) if
/// [`is_str_bidi`] does, and else [`LeftToRight`](Latin1Bidi::LeftToRight).
pub fn check_str_for_latin1_and_bidi(buffer: &str) -> Latin1Bidi {
    sys::check_str_for_latin1_and_bidi(buffer)
}

/// [`Latin1`](Latin1Bidi::Latin1) if [`is_utf16_latin1`] holds of the units, [`Bidi`](Latin1Bidi::Bidi) if
/// [`is_utf16_bidi`] does, and else [`LeftToRight`](Latin1Bidi::LeftToRight).
pub fn check_utf16_for_latin1_and_bidi(buffer: &[u16]) -> Latin1Bidi {
    sys::check_utf16_for_latin1_and_bidi(buffer)
}

/// Converts UTF-8 to UTF-16, with U+FFFD for each malformed sequence, and returns how many units were written.
///
/// # Panics
///
/// If `dst` has fewer units than `src` has bytes, and one.
pub fn convert_utf8_to_utf16(src: &[u8], dst: &mut [u16]) -> usize {
    sys::convert_utf8_to_utf16(src, dst).expect(SHORT)
}

/// Converts a text to UTF-16, and returns how many units were written.
///
/// # Panics
///
/// If `dst` has fewer units than `src` has bytes.
pub fn convert_str_to_utf16(src: &str, dst: &mut [u16]) -> usize {
    sys::convert_str_to_utf16(src, dst).expect(SHORT)
}

/// Converts UTF-8 to UTF-16, and returns how many units were written; or `None` if something is malformed, and then
/// `dst` begins with what stands before it.
///
/// # Panics
///
/// If `dst` has fewer units than `src` has bytes.
pub fn convert_utf8_to_utf16_without_replacement(src: &[u8], dst: &mut [u16]) -> Option<usize> {
    assert!(dst.len() >= src.len(), "{SHORT}");
    sys::convert_utf8_to_utf16_without_replacement(src, dst)
}

/// Converts the longest start of UTF-16 whose UTF-8 fits, with U+FFFD for each surrogate in no pair, and returns how
/// many units were read and how many bytes were written.
///
/// It is for one text: no pair is split, but a surrogate at the start or the end of `src` is in no pair.
///
/// Proved: `jillapun_mem_convert_utf16_to_utf8_partial`.
pub fn convert_utf16_to_utf8_partial(src: &[u16], dst: &mut [u8]) -> (usize, usize) {
    sys::convert_utf16_to_utf8_partial(src, dst)
}

/// Converts UTF-16 to UTF-8, with U+FFFD for each surrogate in no pair, and returns how many bytes were written.
///
/// # Panics
///
/// If `dst` has fewer than three bytes for each unit of `src`.
pub fn convert_utf16_to_utf8(src: &[u16], dst: &mut [u8]) -> usize {
    sys::convert_utf16_to_utf8(src, dst).expect(SHORT)
}

/// What [`convert_utf16_to_utf8_partial`] does, at the start of a text. If a character of it is overwritten in part,
/// its other bytes become 00.
///
/// Proved: `jillapun_mem_convert_utf16_to_str_partial`.
pub fn convert_utf16_to_str_partial(src: &[u16], dst: &mut str) -> (usize, usize) {
    sys::convert_utf16_to_str_partial(src, dst)
}

/// What [`convert_utf16_to_utf8`] does, at the start of a text. If a character of it is overwritten in part, its
/// other bytes become 00.
///
/// # Panics
///
/// If `dst` has fewer than three bytes for each unit of `src`.
pub fn convert_utf16_to_str(src: &[u16], dst: &mut str) -> usize {
    sys::convert_utf16_to_str(src, dst).expect(SHORT)
}

/// Converts Latin1 to UTF-16, a unit for each byte.
///
/// # Panics
///
/// If `dst` has fewer units than `src` has bytes.
pub fn convert_latin1_to_utf16(src: &[u8], dst: &mut [u16]) {
    sys::convert_latin1_to_utf16(src, dst).expect(SHORT);
}

/// Converts the longest start of Latin1 whose UTF-8 fits, and returns how many bytes were read and how many were
/// written.
///
/// Proved: `jillapun_mem_convert_latin1_to_utf8_partial`.
pub fn convert_latin1_to_utf8_partial(src: &[u8], dst: &mut [u8]) -> (usize, usize) {
    sys::convert_latin1_to_utf8_partial(src, dst)
}

/// Converts Latin1 to UTF-8, and returns how many bytes were written.
///
/// # Panics
///
/// If `dst` has fewer than two bytes for each byte of `src`.
pub fn convert_latin1_to_utf8(src: &[u8], dst: &mut [u8]) -> usize {
    sys::convert_latin1_to_utf8(src, dst).expect(SHORT)
}

/// What [`convert_latin1_to_utf8_partial`] does, at the start of a text. If a character of it is overwritten in part,
/// its other bytes become 00.
///
/// Proved: `jillapun_mem_convert_latin1_to_str_partial`.
pub fn convert_latin1_to_str_partial(src: &[u8], dst: &mut str) -> (usize, usize) {
    sys::convert_latin1_to_str_partial(src, dst)
}

/// What [`convert_latin1_to_utf8`] does, at the start of a text. If a character of it is overwritten in part, its
/// other bytes become 00.
///
/// # Panics
///
/// If `dst` has fewer than two bytes for each byte of `src`.
pub fn convert_latin1_to_str(src: &[u8], dst: &mut str) -> usize {
    sys::convert_latin1_to_str(src, dst).expect(SHORT)
}

/// Converts UTF-8 to Latin1, a byte for each character, and returns how many bytes were written.
///
/// It is for sources of which [`is_utf8_latin1`] holds. Of others the start is converted, to before the first
/// sequence that is malformed or above U+00FF; do not build on this.
///
/// # Panics
///
/// If `dst` is shorter than `src`; and, with debug assertions and without `cfg(fuzzing)`, if the source is not one that
/// it is for.
#[allow(unknown_lints, unexpected_cfgs)] // Cargo does not know the setting of fuzzers.
pub fn convert_utf8_to_latin1_lossy(src: &[u8], dst: &mut [u8]) -> usize {
    assert!(dst.len() >= src.len(), "{SHORT}");
    sys::convert_utf8_to_latin1_lossy(src, dst).unwrap_or_else(|| {
        debug_assert!(cfg!(fuzzing), "the source is not Latin1 in UTF-8");
        let start = &src[..utf8_latin1_up_to(src)];
        sys::convert_utf8_to_latin1_lossy(start, dst).expect(SHORT)
    })
}

/// Converts UTF-16 to Latin1: takes the low eight bits of each unit. It is for sources of which [`is_utf16_latin1`]
/// holds.
///
/// # Panics
///
/// If `dst` has fewer bytes than `src` has units.
pub fn convert_utf16_to_latin1_lossy(src: &[u16], dst: &mut [u8]) {
    sys::convert_utf16_to_latin1_lossy(src, dst).expect(SHORT);
}

/// The text of some bytes in Latin1: borrowed if all are ASCII, else a text of its own.
///
/// Proved: `jillapun_ascii_valid_up_to`, `jillapun_mem_convert_latin1_to_utf8`.
pub fn decode_latin1(bytes: &[u8]) -> Cow<'_, str> {
    match sys::split_ascii(bytes) {
        (text, []) => Cow::Borrowed(text),
        _ => Cow::Owned(sys::text_of_latin1(bytes)),
    }
}

/// The bytes of a text in Latin1: borrowed if all is ASCII, else a vector of their own.
///
/// It is for texts of which [`is_str_latin1`] holds. Of others it is as [`convert_utf8_to_latin1_lossy`].
///
/// # Panics
///
/// With debug assertions and without `cfg(fuzzing)`, if the text is not one that it is for.
///
/// Proved: `jillapun_mem_is_ascii`, `jillapun_mem_convert_utf8_to_latin1_lossy`.
pub fn encode_latin1_lossy(string: &str) -> Cow<'_, [u8]> {
    let text = string.as_bytes();
    if is_ascii(text) {
        return Cow::Borrowed(text);
    }
    let mut bytes = vec![0; text.len()];
    let written = convert_utf8_to_latin1_lossy(text, &mut bytes);
    bytes.truncate(written);
    Cow::Owned(bytes)
}

/// The length in units of the longest start that is well-formed UTF-16: it ends before the first surrogate in no pair.
pub fn utf16_valid_up_to(buffer: &[u16]) -> usize {
    sys::utf16_valid_up_to(buffer)
}

/// The length in bytes of the longest start that is UTF-8 with no character above U+00FF.
pub fn utf8_latin1_up_to(buffer: &[u8]) -> usize {
    sys::utf8_latin1_up_to(buffer)
}

/// The length in bytes of the longest start of a text that has no character above U+00FF.
pub fn str_latin1_up_to(buffer: &str) -> usize {
    sys::str_latin1_up_to(buffer)
}

/// Puts U+FFFD in place of each surrogate in no pair.
pub fn ensure_utf16_validity(buffer: &mut [u16]) {
    sys::ensure_utf16_validity(buffer)
}

/// Copies the longest start that is ASCII, and returns its length in bytes.
///
/// # Panics
///
/// If `dst` is shorter than `src`.
pub fn copy_ascii_to_ascii(src: &[u8], dst: &mut [u8]) -> usize {
    sys::copy_ascii_to_ascii(src, dst).expect(SHORT)
}

/// Copies the longest start that is ASCII, each byte as a unit of UTF-16, and returns its length.
///
/// # Panics
///
/// If `dst` has fewer units than `src` has bytes.
pub fn copy_ascii_to_basic_latin(src: &[u8], dst: &mut [u16]) -> usize {
    sys::copy_ascii_to_basic_latin(src, dst).expect(SHORT)
}

/// Copies the longest start whose units of UTF-16 are ASCII, each as a byte, and returns its length.
///
/// # Panics
///
/// If `dst` has fewer bytes than `src` has units.
pub fn copy_basic_latin_to_ascii(src: &[u16], dst: &mut [u8]) -> usize {
    sys::copy_basic_latin_to_ascii(src, dst).expect(SHORT)
}
