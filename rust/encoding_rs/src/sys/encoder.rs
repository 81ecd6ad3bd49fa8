//! An encoder of the library, with its handle.

use super::decoder::made;
use super::{length, raw, Tables};
use crate::EncoderResult;

/// Whether a call writes a decimal reference for a character that has no bytes, or ends there.
#[derive(Clone, Copy)]
pub(crate) enum OnUnmappable {
    Replace,
    Report,
}

/// What a call did.
pub(crate) struct Encoded {
    pub(crate) result: EncoderResult,
    pub(crate) read: usize,
    pub(crate) written: usize,
    pub(crate) had_unmappable: bool,
}

/// An encoder: words that the library reads and writes, and nothing to free. Its queries write nothing, so that threads
/// may ask at once.
pub(crate) struct Encoder(raw::Encoder);

// SAFETY: the header lets threads use a handle one after the other, and lets it be moved; the tables that it has the
// address of never change, and any number of threads may use them.
unsafe impl Send for raw::Encoder {}
// SAFETY: the header lets any number of threads make calls at once that take a `const` handle, and no others are made
// through a shared reference.
unsafe impl Sync for raw::Encoder {}

impl Encoder {
    /// An encoder of a new text, into the output encoding of that with a number, of which the tables have the indexes.
    pub(crate) fn new(tables: Tables, encoding: u8) -> Encoder {
        let mut handle = raw::Encoder::default();
        // SAFETY: the handle begins empty.
        made(unsafe { raw::jillapun_encoder_new(tables.0, encoding, &mut handle) });
        Encoder(handle)
    }

    /// The number of the output encoding.
    pub(crate) fn encoding(&self) -> u8 {
        // SAFETY: the handle is open.
        unsafe { raw::jillapun_encoder_encoding(&self.0) }
    }

    pub(crate) fn has_pending_state(&self) -> bool {
        // SAFETY: the handle is open.
        unsafe { raw::jillapun_encoder_has_pending_state(&self.0) }
    }

    pub(crate) fn max_length_from_utf8_if_no_unmappables(&self, bytes: usize) -> Option<usize> {
        self.room(raw::jillapun_encoder_max_length_from_utf8_if_no_unmappables, bytes)
    }

    pub(crate) fn max_length_from_utf8_without_replacement(&self, bytes: usize) -> Option<usize> {
        self.room(raw::jillapun_encoder_max_length_from_utf8_without_replacement, bytes)
    }

    pub(crate) fn max_length_from_utf16_if_no_unmappables(&self, units: usize) -> Option<usize> {
        self.room(raw::jillapun_encoder_max_length_from_utf16_if_no_unmappables, units)
    }

    pub(crate) fn max_length_from_utf16_without_replacement(&self, units: usize) -> Option<usize> {
        self.room(raw::jillapun_encoder_max_length_from_utf16_without_replacement, units)
    }

    pub(crate) fn encode_from_utf8(&mut self, src: &str, dst: &mut [u8], last: bool, lost: OnUnmappable) -> Encoded {
        // SAFETY: `dst` is what the two say.
        unsafe { self.encode(from_utf8(lost), src.as_bytes(), dst.as_mut_ptr(), dst.len(), last) }
    }

    pub(crate) fn encode_from_utf16(&mut self, src: &[u16], dst: &mut [u8], last: bool, lost: OnUnmappable) -> Encoded {
        let export: raw::Encode<u16> = match lost {
            OnUnmappable::Replace => raw::jillapun_encoder_encode_from_utf16,
            OnUnmappable::Report => raw::jillapun_encoder_encode_from_utf16_without_replacement,
        };
        // SAFETY: `dst` is what the two say.
        unsafe { self.encode(export, src, dst.as_mut_ptr(), dst.len(), last) }
    }

    /// Encodes to the end of a vector, as far as its capacity reaches.
    pub(crate) fn encode_from_utf8_to_vec(
        &mut self, src: &str, dst: &mut Vec<u8>, last: bool, lost: OnUnmappable,
    ) -> Encoded {
        let spare = dst.spare_capacity_mut();
        // SAFETY: the spare capacity is what the two say, and need not be initialised; what was written then belongs
        // to the vector.
        unsafe {
            let encoded = self.encode(from_utf8(lost), src.as_bytes(), spare.as_mut_ptr().cast(), spare.len(), last);
            dst.set_len(dst.len() + encoded.written);
            encoded
        }
    }

    /// # Safety
    ///
    /// `dst` has room for `room` bytes, and nothing else uses that memory.
    unsafe fn encode<Unit>(
        &mut self, export: raw::Encode<Unit>, src: &[Unit], dst: *mut u8, room: usize, last: bool,
    ) -> Encoded {
        let mut progress = raw::EncoderProgress::default();
        let status = export(&mut self.0, src.as_ptr(), src.len(), dst, room, last, &mut progress);
        assert!(status == raw::OK, "the library does not encode: status {status}");
        let result = match progress.outcome {
            raw::INPUT_EMPTY => EncoderResult::InputEmpty,
            raw::OUTPUT_FULL => EncoderResult::OutputFull,
            _ => EncoderResult::Unmappable(char::from_u32(progress.scalar).expect("what has no bytes is a character")),
        };
        Encoded { result, read: progress.read, written: progress.written, had_unmappable: progress.had_unmappable }
    }

    fn room(&self, export: raw::Room<raw::Encoder>, units: usize) -> Option<usize> {
        let mut enough = 0;
        // SAFETY: the handle is open, and `enough` is a place of its own.
        let status = unsafe { export(&self.0, units, &mut enough) };
        assert!(status == raw::OK, "the library does not answer: status {status}");
        length(enough)
    }
}

fn from_utf8(lost: OnUnmappable) -> raw::Encode<u8> {
    match lost {
        OnUnmappable::Replace => raw::jillapun_encoder_encode_from_utf8,
        OnUnmappable::Report => raw::jillapun_encoder_encode_from_utf8_without_replacement,
    }
}
