//! The functions of the crate `encoding_rs`, under the signatures of ours.

use encoding_rs::mem::{self, Latin1Bidi};
use encoding_rs::Encoding;
use std::slice::{from_raw_parts, from_raw_parts_mut};
use std::str::{from_utf8_unchecked, from_utf8_unchecked_mut};

macro_rules! reads {
    ($($name:ident($src:ident: $unit:ty) $body:block)*) => { $(
        pub unsafe extern "C" fn $name(src: *const $unit, len: usize) -> usize {
            let $src = from_raw_parts(src, len);
            $body
        }
    )* };
}

macro_rules! converts {
    ($($name:ident($src:ident: $unit:ty, $dst:ident: $out:ty) $body:block)*) => { $(
        pub unsafe extern "C" fn $name(src: *const $unit, len: usize, dst: *mut $out, room: usize) -> usize {
            let $src = from_raw_parts(src, len);
            let $dst = from_raw_parts_mut(dst, room);
            $body
        }
    )* };
}

fn place(kind: Latin1Bidi) -> usize {
    match kind {
        Latin1Bidi::Latin1 => 0,
        Latin1Bidi::LeftToRight => 1,
        Latin1Bidi::Bidi => 2,
    }
}

pub unsafe extern "C" fn ensure_utf16_validity(units: *mut u16, len: usize) -> usize {
    mem::ensure_utf16_validity(from_raw_parts_mut(units, len));
    len
}

reads! {
    is_ascii(src: u8) { mem::is_ascii(src) as usize }
    is_basic_latin(src: u16) { mem::is_basic_latin(src) as usize }
    ascii_valid_up_to(src: u8) { Encoding::ascii_valid_up_to(src) }
    iso_2022_jp_ascii_valid_up_to(src: u8) { Encoding::iso_2022_jp_ascii_valid_up_to(src) }
    utf8_valid_up_to(src: u8) { Encoding::utf8_valid_up_to(src) }
    utf16_valid_up_to(src: u16) { mem::utf16_valid_up_to(src) }
    is_utf8_latin1(src: u8) { mem::is_utf8_latin1(src) as usize }
    is_str_latin1(src: u8) { mem::is_str_latin1(from_utf8_unchecked(src)) as usize }
    is_utf16_latin1(src: u16) { mem::is_utf16_latin1(src) as usize }
    utf8_latin1_up_to(src: u8) { mem::utf8_latin1_up_to(src) }
    str_latin1_up_to(src: u8) { mem::str_latin1_up_to(from_utf8_unchecked(src)) }
    is_utf8_bidi(src: u8) { mem::is_utf8_bidi(src) as usize }
    is_str_bidi(src: u8) { mem::is_str_bidi(from_utf8_unchecked(src)) as usize }
    is_utf16_bidi(src: u16) { mem::is_utf16_bidi(src) as usize }
    check_utf8_for_latin1_and_bidi(src: u8) { place(mem::check_utf8_for_latin1_and_bidi(src)) }
    check_str_for_latin1_and_bidi(src: u8) { place(mem::check_str_for_latin1_and_bidi(from_utf8_unchecked(src))) }
    check_utf16_for_latin1_and_bidi(src: u16) { place(mem::check_utf16_for_latin1_and_bidi(src)) }
    decode_latin1(src: u8) { mem::decode_latin1(src).len() }
    encode_latin1_lossy(src: u8) { mem::encode_latin1_lossy(from_utf8_unchecked(src)).len() }
}

converts! {
    convert_utf8_to_utf16(src: u8, dst: u16) { mem::convert_utf8_to_utf16(src, dst) }
    convert_str_to_utf16(src: u8, dst: u16) { mem::convert_str_to_utf16(from_utf8_unchecked(src), dst) }
    convert_utf8_to_utf16_without_replacement(src: u8, dst: u16) {
        mem::convert_utf8_to_utf16_without_replacement(src, dst).unwrap_or(usize::MAX)
    }
    convert_utf16_to_utf8(src: u16, dst: u8) { mem::convert_utf16_to_utf8(src, dst) }
    convert_utf16_to_str(src: u16, dst: u8) { mem::convert_utf16_to_str(src, from_utf8_unchecked_mut(dst)) }
    convert_latin1_to_utf16(src: u8, dst: u16) { mem::convert_latin1_to_utf16(src, dst); src.len() }
    convert_latin1_to_utf8(src: u8, dst: u8) { mem::convert_latin1_to_utf8(src, dst) }
    convert_latin1_to_str(src: u8, dst: u8) { mem::convert_latin1_to_str(src, from_utf8_unchecked_mut(dst)) }
    convert_utf8_to_latin1_lossy(src: u8, dst: u8) { mem::convert_utf8_to_latin1_lossy(src, dst) }
    convert_utf16_to_latin1_lossy(src: u16, dst: u8) { mem::convert_utf16_to_latin1_lossy(src, dst); src.len() }
    copy_ascii_to_ascii(src: u8, dst: u8) { mem::copy_ascii_to_ascii(src, dst) }
    copy_ascii_to_basic_latin(src: u8, dst: u16) { mem::copy_ascii_to_basic_latin(src, dst) }
    copy_basic_latin_to_ascii(src: u16, dst: u8) { mem::copy_basic_latin_to_ascii(src, dst) }
}
