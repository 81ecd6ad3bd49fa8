//! The exports that the crate calls, with types and numbers as `include/jillapun.h` has them.

use std::ffi::c_void;
use std::ptr;

pub(super) const OK: u8 = 0;
pub(super) const LOSSY: u8 = 1;
pub(super) const BAD_INDEX: u8 = 4;
pub(super) const NO_MEMORY: u8 = 5;
pub(super) const FINISHED: u8 = 8;
pub(super) const ROOM: u8 = 10;

pub(super) const INPUT_EMPTY: u8 = 0;
pub(super) const OUTPUT_FULL: u8 = 1;

pub(super) const LATIN1: u32 = 0;
pub(super) const LEFT_TO_RIGHT: u32 = 1;

pub(super) const NO_ENCODING: u8 = 255;

pub(super) const REFUSED: usize = usize::MAX;

#[repr(C)]
pub(super) struct Bytes {
    pub(super) at: *const u8,
    pub(super) len: usize,
}

#[repr(C)]
#[derive(Clone, Copy)]
pub(super) struct Tables {
    pub(super) private_at: *const c_void,
    pub(super) private_is_open: bool,
}

#[repr(C)]
pub(super) struct IndexFile {
    pub(super) name: Bytes,
    pub(super) text: Bytes,
}

#[repr(C)]
#[derive(Default)]
pub(super) struct IndexFault {
    pub(super) file: usize,
    pub(super) line: usize,
}

#[repr(C)]
#[derive(Default)]
pub(super) struct DecoderWords {
    pub(super) private_is_there: bool,
    pub(super) private_is_finished: bool,
    pub(super) private_encoding: u8,
    pub(super) private_seeks_utf8: bool,
    pub(super) private_seeks_utf16_be: bool,
    pub(super) private_seeks_utf16_le: bool,
    pub(super) private_mode: u8,
    pub(super) private_held_len: u8,
    pub(super) private_held: [u8; 6],
    pub(super) private_pending_len: u8,
    pub(super) private_pending: [u8; 6],
}

#[repr(C)]
#[derive(Default)]
pub(super) struct Decoder {
    pub(super) private_tables: Tables,
    pub(super) private_words: DecoderWords,
}

#[repr(C)]
#[derive(Default)]
pub(super) struct EncoderWords {
    pub(super) private_is_there: bool,
    pub(super) private_encoding: u8,
    pub(super) private_set: u8,
}

#[repr(C)]
#[derive(Default)]
pub(super) struct Encoder {
    pub(super) private_tables: Tables,
    pub(super) private_words: EncoderWords,
}

impl Default for Tables {
    fn default() -> Tables {
        Tables { private_at: ptr::null(), private_is_open: false }
    }
}

#[repr(C)]
#[derive(Default)]
pub(super) struct Progress {
    pub(super) read: usize,
    pub(super) written: usize,
    pub(super) outcome: u8,
    pub(super) malformed_length: u8,
    pub(super) malformed_after: u8,
    pub(super) had_errors: bool,
}

#[repr(C)]
#[derive(Default)]
pub(super) struct Decoded {
    pub(super) written: usize,
    pub(super) mark_len: usize,
    pub(super) encoding: u8,
    pub(super) is_own: bool,
}

#[repr(C)]
#[derive(Default)]
pub(super) struct EncoderProgress {
    pub(super) read: usize,
    pub(super) written: usize,
    pub(super) outcome: u8,
    pub(super) had_unmappable: bool,
    pub(super) scalar: u32,
}

/// The form of the calls that decode, to units of a type.
pub(super) type Decode<Unit> =
    unsafe extern "C" fn(*mut Decoder, *const u8, usize, *mut Unit, usize, bool, *mut Progress) -> u8;

/// The form of the calls that encode, from units of a type.
pub(super) type Encode<Unit> =
    unsafe extern "C" fn(*mut Encoder, *const Unit, usize, *mut u8, usize, bool, *mut EncoderProgress) -> u8;

/// The form of the calls that tell how much room is enough for so many units more.
pub(super) type Room<Handle> = unsafe extern "C" fn(*const Handle, usize, *mut usize) -> u8;

extern "C" {
    pub(super) fn jillapun_for_label(label: *const u8, label_len: usize) -> u8;
    pub(super) fn jillapun_for_label_no_replacement(label: *const u8, label_len: usize) -> u8;
    pub(super) fn jillapun_for_bom(bytes: *const u8, bytes_len: usize, length: *mut usize) -> u8;
    pub(super) fn jillapun_output_encoding(encoding: u8) -> u8;
    pub(super) fn jillapun_is_single_byte(encoding: u8) -> bool;
    pub(super) fn jillapun_is_ascii_compatible(encoding: u8) -> bool;
    pub(super) fn jillapun_can_encode_everything(encoding: u8) -> bool;

    pub(super) fn jillapun_tables_new(
        files: *const IndexFile, files_len: usize, out: *mut Tables, fault: *mut IndexFault,
    ) -> u8;

    pub(super) fn jillapun_decoder_new(tables: Tables, encoding: u8, mark: u8, out: *mut Decoder) -> u8;
    pub(super) fn jillapun_decoder_encoding(decoder: *const Decoder) -> u8;
    pub(super) fn jillapun_decoder_max_utf8_length(decoder: *const Decoder, n: usize, length: *mut usize) -> u8;
    pub(super) fn jillapun_decoder_max_utf8_length_without_replacement(
        decoder: *const Decoder, n: usize, length: *mut usize,
    ) -> u8;
    pub(super) fn jillapun_decoder_max_utf16_length(decoder: *const Decoder, n: usize, length: *mut usize) -> u8;
    pub(super) fn jillapun_decoder_latin1_byte_compatible_up_to(
        decoder: *const Decoder, bytes: *const u8, bytes_len: usize, length: *mut usize,
    ) -> u8;
    pub(super) fn jillapun_decoder_decode_to_utf8(
        decoder: *mut Decoder, src: *const u8, src_len: usize, dst: *mut u8, dst_len: usize, last: bool,
        progress: *mut Progress,
    ) -> u8;
    pub(super) fn jillapun_decoder_decode_to_utf8_without_replacement(
        decoder: *mut Decoder, src: *const u8, src_len: usize, dst: *mut u8, dst_len: usize, last: bool,
        progress: *mut Progress,
    ) -> u8;
    pub(super) fn jillapun_decoder_decode_to_str(
        decoder: *mut Decoder, src: *const u8, src_len: usize, dst: *mut u8, dst_len: usize, last: bool,
        progress: *mut Progress,
    ) -> u8;
    pub(super) fn jillapun_decoder_decode_to_str_without_replacement(
        decoder: *mut Decoder, src: *const u8, src_len: usize, dst: *mut u8, dst_len: usize, last: bool,
        progress: *mut Progress,
    ) -> u8;
    pub(super) fn jillapun_decoder_decode_to_utf16(
        decoder: *mut Decoder, src: *const u8, src_len: usize, dst: *mut u16, dst_len: usize, last: bool,
        progress: *mut Progress,
    ) -> u8;
    pub(super) fn jillapun_decoder_decode_to_utf16_without_replacement(
        decoder: *mut Decoder, src: *const u8, src_len: usize, dst: *mut u16, dst_len: usize, last: bool,
        progress: *mut Progress,
    ) -> u8;

    pub(super) fn jillapun_encoder_new(tables: Tables, encoding: u8, out: *mut Encoder) -> u8;
    pub(super) fn jillapun_encoder_encoding(encoder: *const Encoder) -> u8;
    pub(super) fn jillapun_encoder_has_pending_state(encoder: *const Encoder) -> bool;
    pub(super) fn jillapun_encoder_max_length_from_utf8_if_no_unmappables(
        encoder: *const Encoder, n: usize, length: *mut usize,
    ) -> u8;
    pub(super) fn jillapun_encoder_max_length_from_utf8_without_replacement(
        encoder: *const Encoder, n: usize, length: *mut usize,
    ) -> u8;
    pub(super) fn jillapun_encoder_max_length_from_utf16_if_no_unmappables(
        encoder: *const Encoder, n: usize, length: *mut usize,
    ) -> u8;
    pub(super) fn jillapun_encoder_max_length_from_utf16_without_replacement(
        encoder: *const Encoder, n: usize, length: *mut usize,
    ) -> u8;
    pub(super) fn jillapun_encoder_encode_from_utf8(
        encoder: *mut Encoder, text: *const u8, text_len: usize, dst: *mut u8, dst_len: usize, last: bool,
        progress: *mut EncoderProgress,
    ) -> u8;
    pub(super) fn jillapun_encoder_encode_from_utf8_without_replacement(
        encoder: *mut Encoder, text: *const u8, text_len: usize, dst: *mut u8, dst_len: usize, last: bool,
        progress: *mut EncoderProgress,
    ) -> u8;
    pub(super) fn jillapun_encoder_encode_from_utf16(
        encoder: *mut Encoder, text: *const u16, text_len: usize, dst: *mut u8, dst_len: usize, last: bool,
        progress: *mut EncoderProgress,
    ) -> u8;
    pub(super) fn jillapun_encoder_encode_from_utf16_without_replacement(
        encoder: *mut Encoder, text: *const u16, text_len: usize, dst: *mut u8, dst_len: usize, last: bool,
        progress: *mut EncoderProgress,
    ) -> u8;

    pub(super) fn jillapun_decode(
        tables: Tables, encoding: u8, mark: u8, src: *const u8, src_len: usize, dst: *mut u8, dst_len: usize,
        decoded: *mut Decoded,
    ) -> u8;
    pub(super) fn jillapun_encode(
        tables: Tables, encoding: u8, text: *const u8, text_len: usize, dst: *mut u8, dst_len: usize,
        written: *mut usize,
    ) -> u8;

    pub(super) fn jillapun_utf8_valid_up_to(buffer: *const u8, buffer_len: usize) -> usize;
    pub(super) fn jillapun_ascii_valid_up_to(buffer: *const u8, buffer_len: usize) -> usize;
    pub(super) fn jillapun_iso_2022_jp_ascii_valid_up_to(buffer: *const u8, buffer_len: usize) -> usize;
    pub(super) fn jillapun_mem_is_ascii(buffer: *const u8, buffer_len: usize) -> bool;
    pub(super) fn jillapun_mem_is_basic_latin(buffer: *const u16, buffer_len: usize) -> bool;
    pub(super) fn jillapun_mem_is_utf8_latin1(buffer: *const u8, buffer_len: usize) -> bool;
    pub(super) fn jillapun_mem_is_str_latin1(buffer: *const u8, buffer_len: usize) -> bool;
    pub(super) fn jillapun_mem_is_utf16_latin1(buffer: *const u16, buffer_len: usize) -> bool;
    pub(super) fn jillapun_mem_is_char_bidi(c: u32) -> bool;
    pub(super) fn jillapun_mem_is_utf16_code_unit_bidi(u: u16) -> bool;
    pub(super) fn jillapun_mem_is_utf8_bidi(buffer: *const u8, buffer_len: usize) -> bool;
    pub(super) fn jillapun_mem_is_str_bidi(buffer: *const u8, buffer_len: usize) -> bool;
    pub(super) fn jillapun_mem_is_utf16_bidi(buffer: *const u16, buffer_len: usize) -> bool;
    pub(super) fn jillapun_mem_check_utf8_for_latin1_and_bidi(buffer: *const u8, buffer_len: usize) -> u32;
    pub(super) fn jillapun_mem_check_str_for_latin1_and_bidi(buffer: *const u8, buffer_len: usize) -> u32;
    pub(super) fn jillapun_mem_check_utf16_for_latin1_and_bidi(buffer: *const u16, buffer_len: usize) -> u32;
    pub(super) fn jillapun_mem_utf16_valid_up_to(buffer: *const u16, buffer_len: usize) -> usize;
    pub(super) fn jillapun_mem_utf8_latin1_up_to(buffer: *const u8, buffer_len: usize) -> usize;
    pub(super) fn jillapun_mem_str_latin1_up_to(buffer: *const u8, buffer_len: usize) -> usize;
    pub(super) fn jillapun_mem_ensure_utf16_validity(buffer: *mut u16, buffer_len: usize);
    pub(super) fn jillapun_mem_copy_ascii_to_ascii(
        src: *const u8, src_len: usize, dst: *mut u8, dst_len: usize,
    ) -> usize;
    pub(super) fn jillapun_mem_copy_ascii_to_basic_latin(
        src: *const u8, src_len: usize, dst: *mut u16, dst_len: usize,
    ) -> usize;
    pub(super) fn jillapun_mem_copy_basic_latin_to_ascii(
        src: *const u16, src_len: usize, dst: *mut u8, dst_len: usize,
    ) -> usize;
    pub(super) fn jillapun_mem_convert_utf8_to_utf16(
        src: *const u8, src_len: usize, dst: *mut u16, dst_len: usize,
    ) -> usize;
    pub(super) fn jillapun_mem_convert_utf8_to_utf16_without_replacement(
        src: *const u8, src_len: usize, dst: *mut u16, dst_len: usize,
    ) -> usize;
    pub(super) fn jillapun_mem_convert_str_to_utf16(
        src: *const u8, src_len: usize, dst: *mut u16, dst_len: usize,
    ) -> usize;
    pub(super) fn jillapun_mem_convert_utf16_to_utf8(
        src: *const u16, src_len: usize, dst: *mut u8, dst_len: usize,
    ) -> usize;
    pub(super) fn jillapun_mem_convert_utf16_to_str(
        src: *const u16, src_len: usize, dst: *mut u8, dst_len: usize,
    ) -> usize;
    pub(super) fn jillapun_mem_convert_latin1_to_utf16(
        src: *const u8, src_len: usize, dst: *mut u16, dst_len: usize,
    ) -> usize;
    pub(super) fn jillapun_mem_convert_latin1_to_utf8(
        src: *const u8, src_len: usize, dst: *mut u8, dst_len: usize,
    ) -> usize;
    pub(super) fn jillapun_mem_convert_latin1_to_str(
        src: *const u8, src_len: usize, dst: *mut u8, dst_len: usize,
    ) -> usize;
    pub(super) fn jillapun_mem_convert_utf8_to_latin1_lossy(
        src: *const u8, src_len: usize, dst: *mut u8, dst_len: usize,
    ) -> usize;
    pub(super) fn jillapun_mem_convert_utf16_to_latin1_lossy(
        src: *const u16, src_len: usize, dst: *mut u8, dst_len: usize,
    ) -> usize;
    pub(super) fn jillapun_mem_convert_utf16_to_utf8_partial(
        src: *const u16, src_len: usize, dst: *mut u8, dst_len: usize, read: *mut usize, written: *mut usize,
    );
    pub(super) fn jillapun_mem_convert_utf16_to_str_partial(
        src: *const u16, src_len: usize, dst: *mut u8, dst_len: usize, read: *mut usize, written: *mut usize,
    );
    pub(super) fn jillapun_mem_convert_latin1_to_utf8_partial(
        src: *const u8, src_len: usize, dst: *mut u8, dst_len: usize, read: *mut usize, written: *mut usize,
    );
    pub(super) fn jillapun_mem_convert_latin1_to_str_partial(
        src: *const u8, src_len: usize, dst: *mut u8, dst_len: usize, read: *mut usize, written: *mut usize,
    );
}
