//! A decoder of the library, with its handle.

use super::{length, raw, Tables};
use crate::DecoderResult;

/// What becomes of a byte order mark at the start.
#[derive(Clone, Copy)]
pub(crate) enum Mark {
    Sniff = 0,
    Remove = 1,
    Keep = 2,
}

/// Whether a call writes U+FFFD for a malformed sequence, or ends there.
#[derive(Clone, Copy)]
pub(crate) enum OnMalformed {
    Replace,
    Report,
}

/// What a call did.
pub(crate) struct Decoded {
    pub(crate) result: DecoderResult,
    pub(crate) read: usize,
    pub(crate) written: usize,
    pub(crate) had_errors: bool,
}

/// A decoder: words that the library reads and writes, and nothing to free. Its queries write nothing, so that threads
/// may ask at once.
pub(crate) struct Decoder(raw::Decoder);

// SAFETY: the header lets threads use a handle one after the other, and lets it be moved; the tables that it has the
// address of never change, and any number of threads may use them.
unsafe impl Send for raw::Decoder {}
// SAFETY: the header lets any number of threads make calls at once that take a `const` handle, and no others are made
// through a shared reference.
unsafe impl Sync for raw::Decoder {}

impl Decoder {
    /// A decoder of a new stream, in the encoding with a number, of which the tables have the indexes.
    pub(crate) fn new(tables: Tables, encoding: u8, mark: Mark) -> Decoder {
        let mut handle = raw::Decoder::default();
        // SAFETY: the handle begins empty.
        made(unsafe { raw::jillapun_decoder_new(tables.0, encoding, mark as u8, &mut handle) });
        Decoder(handle)
    }

    /// The number of the encoding in force.
    pub(crate) fn encoding(&self) -> u8 {
        // SAFETY: the handle is open.
        unsafe { raw::jillapun_decoder_encoding(&self.0) }
    }

    pub(crate) fn max_utf8_length(&self, bytes: usize) -> Option<usize> {
        self.room(raw::jillapun_decoder_max_utf8_length, bytes)
    }

    pub(crate) fn max_utf8_length_without_replacement(&self, bytes: usize) -> Option<usize> {
        self.room(raw::jillapun_decoder_max_utf8_length_without_replacement, bytes)
    }

    pub(crate) fn max_utf16_length(&self, bytes: usize) -> Option<usize> {
        self.room(raw::jillapun_decoder_max_utf16_length, bytes)
    }

    pub(crate) fn latin1_byte_compatible_up_to(&self, bytes: &[u8]) -> Option<usize> {
        let (at, len, mut known) = (bytes.as_ptr(), bytes.len(), 0);
        // SAFETY: the handle is open; a slice is what the header asks of a pointer and a length, and `known` is a place
        // of its own.
        answered(unsafe { raw::jillapun_decoder_latin1_byte_compatible_up_to(&self.0, at, len, &mut known) });
        length(known)
    }

    pub(crate) fn decode_to_utf8(&mut self, src: &[u8], dst: &mut [u8], last: bool, at_error: OnMalformed) -> Decoded {
        // SAFETY: `dst` is what the two say.
        unsafe { self.decode(to_utf8(at_error), src, dst.as_mut_ptr(), dst.len(), last) }
    }

    pub(crate) fn decode_to_utf16(
        &mut self, src: &[u8], dst: &mut [u16], last: bool, at_error: OnMalformed,
    ) -> Decoded {
        let export: raw::Decode<u16> = match at_error {
            OnMalformed::Replace => raw::jillapun_decoder_decode_to_utf16,
            OnMalformed::Report => raw::jillapun_decoder_decode_to_utf16_without_replacement,
        };
        // SAFETY: `dst` is what the two say.
        unsafe { self.decode(export, src, dst.as_mut_ptr(), dst.len(), last) }
    }

    /// Decodes to the start of a text. What is left of a character that was overwritten in part becomes 00.
    pub(crate) fn decode_to_str(&mut self, src: &[u8], dst: &mut str, last: bool, at_error: OnMalformed) -> Decoded {
        let export: raw::Decode<u8> = match at_error {
            OnMalformed::Replace => raw::jillapun_decoder_decode_to_str,
            OnMalformed::Report => raw::jillapun_decoder_decode_to_str_without_replacement,
        };
        // SAFETY: `dst` is what the two say, and the header says that what was UTF-8 is UTF-8 after the call.
        unsafe { self.decode(export, src, dst.as_mut_ptr(), dst.len(), last) }
    }

    /// Decodes to the end of a text, as far as its capacity reaches.
    pub(crate) fn decode_to_string(
        &mut self, src: &[u8], dst: &mut String, last: bool, at_error: OnMalformed,
    ) -> Decoded {
        // SAFETY: the spare capacity is what the two say, and need not be initialised. What was written are
        // characters of UTF-8, which then belong to the text. If `decode` panics, the text is as it was, since no
        // more than its spare capacity was lent.
        unsafe {
            let bytes = dst.as_mut_vec();
            let spare = bytes.spare_capacity_mut();
            let decoded = self.decode(to_utf8(at_error), src, spare.as_mut_ptr().cast(), spare.len(), last);
            bytes.set_len(bytes.len() + decoded.written);
            decoded
        }
    }

    /// # Safety
    ///
    /// `dst` has room for `room` units, and nothing else uses that memory.
    unsafe fn decode<Unit>(
        &mut self, export: raw::Decode<Unit>, src: &[u8], dst: *mut Unit, room: usize, last: bool,
    ) -> Decoded {
        let mut progress = raw::Progress::default();
        answered(export(&mut self.0, src.as_ptr(), src.len(), dst, room, last, &mut progress));
        let result = match progress.outcome {
            raw::INPUT_EMPTY => DecoderResult::InputEmpty,
            raw::OUTPUT_FULL => DecoderResult::OutputFull,
            _ => DecoderResult::Malformed(progress.malformed_length, progress.malformed_after),
        };
        Decoded { result, read: progress.read, written: progress.written, had_errors: progress.had_errors }
    }

    fn room(&self, export: raw::Room<raw::Decoder>, bytes: usize) -> Option<usize> {
        let mut enough = 0;
        // SAFETY: the handle is open, and `enough` is a place of its own.
        answered(unsafe { export(&self.0, bytes, &mut enough) });
        length(enough)
    }
}

fn to_utf8(at_error: OnMalformed) -> raw::Decode<u8> {
    match at_error {
        OnMalformed::Replace => raw::jillapun_decoder_decode_to_utf8,
        OnMalformed::Report => raw::jillapun_decoder_decode_to_utf8_without_replacement,
    }
}

/// Panics unless a decoder did what it was called for.
fn answered(status: u8) {
    match status {
        raw::OK => {}
        raw::FINISHED => panic!("a decoder was used after the end of its stream"),
        _ => panic!("the library does not decode: status {status}"),
    }
}

/// Panics unless a decoder or an encoder was made: so it is if the tables have the indexes of its encoding.
pub(super) fn made(status: u8) {
    assert!(status == raw::OK, "the library makes no decoder or encoder: status {status}");
}
