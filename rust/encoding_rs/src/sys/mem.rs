//! The calls from memory to memory, over slices and texts.

use super::{raw, written};
use crate::mem::Latin1Bidi;

/// Calls that look at a buffer.
macro_rules! look {
    ($($name:ident($buffer:ty) -> $answer:ty = $export:ident;)*) => {$(
        pub(crate) fn $name(buffer: $buffer) -> $answer {
            // SAFETY: a slice, or a text, is what the header asks of a pointer and a length.
            unsafe { raw::$export(buffer.as_ptr(), buffer.len()) }
        }
    )*};
}

look! {
    utf8_valid_up_to(&[u8]) -> usize = jillapun_utf8_valid_up_to;
    ascii_valid_up_to(&[u8]) -> usize = jillapun_ascii_valid_up_to;
    iso_2022_jp_ascii_valid_up_to(&[u8]) -> usize = jillapun_iso_2022_jp_ascii_valid_up_to;
    is_ascii(&[u8]) -> bool = jillapun_mem_is_ascii;
    is_basic_latin(&[u16]) -> bool = jillapun_mem_is_basic_latin;
    is_utf8_latin1(&[u8]) -> bool = jillapun_mem_is_utf8_latin1;
    is_str_latin1(&str) -> bool = jillapun_mem_is_str_latin1;
    is_utf16_latin1(&[u16]) -> bool = jillapun_mem_is_utf16_latin1;
    is_utf8_bidi(&[u8]) -> bool = jillapun_mem_is_utf8_bidi;
    is_str_bidi(&str) -> bool = jillapun_mem_is_str_bidi;
    is_utf16_bidi(&[u16]) -> bool = jillapun_mem_is_utf16_bidi;
    utf16_valid_up_to(&[u16]) -> usize = jillapun_mem_utf16_valid_up_to;
    utf8_latin1_up_to(&[u8]) -> usize = jillapun_mem_utf8_latin1_up_to;
    str_latin1_up_to(&str) -> usize = jillapun_mem_str_latin1_up_to;
}

/// Calls that tell what a buffer is, for layout.
macro_rules! check {
    ($($name:ident($buffer:ty) = $export:ident;)*) => {$(
        pub(crate) fn $name(buffer: $buffer) -> Latin1Bidi {
            // SAFETY: a slice, or a text, is what the header asks of a pointer and a length.
            match unsafe { raw::$export(buffer.as_ptr(), buffer.len()) } {
                raw::LATIN1 => Latin1Bidi::Latin1,
                raw::LEFT_TO_RIGHT => Latin1Bidi::LeftToRight,
                _ => Latin1Bidi::Bidi,
            }
        }
    )*};
}

check! {
    check_utf8_for_latin1_and_bidi(&[u8]) = jillapun_mem_check_utf8_for_latin1_and_bidi;
    check_str_for_latin1_and_bidi(&str) = jillapun_mem_check_str_for_latin1_and_bidi;
    check_utf16_for_latin1_and_bidi(&[u16]) = jillapun_mem_check_utf16_for_latin1_and_bidi;
}

/// Calls that convert a whole buffer, and return how much was written: nothing if the room is too small, or if the
/// buffer is not what the call is for.
macro_rules! convert {
    ($($name:ident($src:ty, $unit:ty) = $export:ident;)*) => {$(
        pub(crate) fn $name(src: $src, dst: &mut [$unit]) -> Option<usize> {
            // SAFETY: a slice, or a text, is what the header asks of a pointer and a length; `dst` overlaps nothing.
            written(unsafe { raw::$export(src.as_ptr(), src.len(), dst.as_mut_ptr(), dst.len()) }, dst.len())
        }
    )*};
}

convert! {
    copy_ascii_to_ascii(&[u8], u8) = jillapun_mem_copy_ascii_to_ascii;
    copy_ascii_to_basic_latin(&[u8], u16) = jillapun_mem_copy_ascii_to_basic_latin;
    copy_basic_latin_to_ascii(&[u16], u8) = jillapun_mem_copy_basic_latin_to_ascii;
    convert_utf8_to_utf16(&[u8], u16) = jillapun_mem_convert_utf8_to_utf16;
    convert_utf8_to_utf16_without_replacement(&[u8], u16) = jillapun_mem_convert_utf8_to_utf16_without_replacement;
    convert_str_to_utf16(&str, u16) = jillapun_mem_convert_str_to_utf16;
    convert_utf16_to_utf8(&[u16], u8) = jillapun_mem_convert_utf16_to_utf8;
    convert_latin1_to_utf16(&[u8], u16) = jillapun_mem_convert_latin1_to_utf16;
    convert_latin1_to_utf8(&[u8], u8) = jillapun_mem_convert_latin1_to_utf8;
    convert_utf8_to_latin1_lossy(&[u8], u8) = jillapun_mem_convert_utf8_to_latin1_lossy;
    convert_utf16_to_latin1_lossy(&[u16], u8) = jillapun_mem_convert_utf16_to_latin1_lossy;
}

/// Calls that convert a whole buffer to the start of a text, and return how many bytes were written, if there was
/// room.
macro_rules! convert_to_str {
    ($($name:ident($src:ty) = $export:ident;)*) => {$(
        pub(crate) fn $name(src: $src, dst: &mut str) -> Option<usize> {
            // SAFETY: as of a slice, and the header says that what was UTF-8 is UTF-8 after the call.
            written(unsafe { raw::$export(src.as_ptr(), src.len(), dst.as_mut_ptr(), dst.len()) }, dst.len())
        }
    )*};
}

convert_to_str! {
    convert_utf16_to_str(&[u16]) = jillapun_mem_convert_utf16_to_str;
    convert_latin1_to_str(&[u8]) = jillapun_mem_convert_latin1_to_str;
}

/// Calls that convert what fits, and return how much was read and how much was written.
macro_rules! convert_partial {
    ($($name:ident($src:ty, $dst:ty) = $export:ident;)*) => {$(
        pub(crate) fn $name(src: $src, dst: $dst) -> (usize, usize) {
            let (mut read, mut written) = (0, 0);
            let (at, room) = (dst.as_mut_ptr(), dst.len());
            // SAFETY: a slice is what the header asks of a pointer and a length; what is written to overlaps nothing;
            // and the header says of a text that what was UTF-8 is UTF-8 after the call.
            unsafe { raw::$export(src.as_ptr(), src.len(), at, room, &mut read, &mut written) }
            (read, written)
        }
    )*};
}

convert_partial! {
    convert_utf16_to_utf8_partial(&[u16], &mut [u8]) = jillapun_mem_convert_utf16_to_utf8_partial;
    convert_utf16_to_str_partial(&[u16], &mut str) = jillapun_mem_convert_utf16_to_str_partial;
    convert_latin1_to_utf8_partial(&[u8], &mut [u8]) = jillapun_mem_convert_latin1_to_utf8_partial;
    convert_latin1_to_str_partial(&[u8], &mut str) = jillapun_mem_convert_latin1_to_str_partial;
}

pub(crate) fn is_char_bidi(c: char) -> bool {
    // SAFETY: the call takes any number.
    unsafe { raw::jillapun_mem_is_char_bidi(u32::from(c)) }
}

pub(crate) fn is_utf16_code_unit_bidi(unit: u16) -> bool {
    // SAFETY: the call takes any unit.
    unsafe { raw::jillapun_mem_is_utf16_code_unit_bidi(unit) }
}

pub(crate) fn ensure_utf16_validity(buffer: &mut [u16]) {
    // SAFETY: a slice is what the header asks of a pointer and a length.
    unsafe { raw::jillapun_mem_ensure_utf16_validity(buffer.as_mut_ptr(), buffer.len()) }
}

/// A text from Latin1, with as much memory as that may need.
pub(crate) fn text_of_latin1(bytes: &[u8]) -> String {
    let mut text = vec![0; bytes.len() * 2];
    let written = convert_latin1_to_utf8(bytes, &mut text).expect("the room is enough");
    text.truncate(written);
    // SAFETY: the call writes UTF-8.
    unsafe { String::from_utf8_unchecked(text) }
}

/// The start of some bytes that is UTF-8, and the rest.
pub(crate) fn split_utf8(bytes: &[u8]) -> (&str, &[u8]) {
    // SAFETY: the call returns the length of what is UTF-8.
    unsafe { split(bytes, utf8_valid_up_to(bytes)) }
}

/// The start of some bytes that is ASCII, and the rest.
pub(crate) fn split_ascii(bytes: &[u8]) -> (&str, &[u8]) {
    // SAFETY: the call returns the length of what is ASCII.
    unsafe { split(bytes, ascii_valid_up_to(bytes)) }
}

/// The start of some bytes that ISO-2022-JP reads as ASCII, and the rest.
pub(crate) fn split_iso_2022_jp(bytes: &[u8]) -> (&str, &[u8]) {
    // SAFETY: the call returns the length of what is ASCII, and no escape.
    unsafe { split(bytes, iso_2022_jp_ascii_valid_up_to(bytes)) }
}

/// # Safety
///
/// The first `length` bytes are UTF-8.
unsafe fn split(bytes: &[u8], length: usize) -> (&str, &[u8]) {
    let (start, rest) = bytes.split_at(length);
    (std::str::from_utf8_unchecked(start), rest)
}
