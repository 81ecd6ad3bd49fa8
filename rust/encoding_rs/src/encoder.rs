//! Encoders of streams.

use crate::encodings::by_number;
use crate::sys::{self, OnUnmappable};
use crate::{CoderResult, EncoderResult, Encoding};
use std::fmt;

/// An encoder of one text, which is handed in part by part, cut between characters.
///
/// [`Encoding::new_encoder`] makes one. A call reads from the start of `src` and writes at the start of `dst`, as far
/// as both reach, and reports how many bytes of UTF-8 or units of UTF-16 were read, how many bytes were written, and
/// why it ended:
///
/// - `InputEmpty`: all of `src` is read. Call again with what follows; or, if `last` was true, all is written.
/// - `OutputFull`: something is left to do. Call again with more room and with what of `src` was not read, with
///   `last` as it was, even if nothing is left. Room for 14 bytes is always enough to get on, and for 4 without
///   replacement.
/// - `Unmappable`, of calls named `.._without_replacement`: see [`EncoderResult::Unmappable`]. The other calls write
///   the decimal reference of each character that has no bytes (`&#8364;`), go on, and report at their end whether
///   they did. Unless they write UTF-8, they keep the last ten bytes of `dst` for a reference.
///
/// `last` says that the text ends with `src`. In ISO-2022-JP an escape to ASCII is then written, if another set is in
/// force; after it the encoder is as a new one. What stands in `dst` after what was written does not change.
///
/// ```
/// use encoding_rs::{CoderResult, ISO_2022_JP};
///
/// let mut encoder = ISO_2022_JP.new_encoder();
/// let mut bytes = Vec::with_capacity(64);
/// for (part, last) in [("A日", false), ("", true)] {
///     let (result, read, had_unmappable) = encoder.encode_from_utf8_to_vec(part, &mut bytes, last);
///     assert_eq!((result, read, had_unmappable), (CoderResult::InputEmpty, part.len(), false));
/// }
/// assert_eq!(bytes, b"A\x1B$BF|\x1B(B");
/// ```
///
/// # Proved
///
/// The outputs of all calls, joined, are what the definitions of the standard give for the text, however it is cut and
/// however much room each call has. The functions of the header are `jillapun_encoder_encode_from_utf8`,
/// `jillapun_encoder_encode_from_utf16` and those with `_without_replacement`.
pub struct Encoder(sys::Encoder);

impl Encoder {
    pub(crate) fn new(encoding: &'static Encoding) -> Encoder {
        Encoder(sys::Encoder::new((encoding.tables)(), encoding.number))
    }

    /// The output encoding, in which the encoder writes.
    ///
    /// Proved: `jillapun_encoder_encoding`.
    pub fn encoding(&self) -> &'static Encoding {
        by_number(self.0.encoding())
    }

    /// Whether an escape to ASCII is still to be written at the end of the text: so only in ISO-2022-JP, if another
    /// set is in force.
    ///
    /// Proved: `jillapun_encoder_has_pending_state`.
    pub fn has_pending_state(&self) -> bool {
        self.0.has_pending_state()
    }

    /// How many bytes are room enough for what so many bytes of UTF-8 are encoded to with references, if each
    /// character has bytes; `None` if the number passes a `usize`.
    ///
    /// Proved: `jillapun_encoder_max_length_from_utf8_if_no_unmappables`.
    pub fn max_buffer_length_from_utf8_if_no_unmappables(&self, byte_length: usize) -> Option<usize> {
        self.0.max_length_from_utf8_if_no_unmappables(byte_length)
    }

    /// How many bytes are room enough for what so many bytes of UTF-8 are encoded to without replacement, and for the
    /// last escape; `None` if the number passes a `usize`.
    ///
    /// Proved: `jillapun_encoder_max_length_from_utf8_without_replacement`.
    pub fn max_buffer_length_from_utf8_without_replacement(&self, byte_length: usize) -> Option<usize> {
        self.0.max_length_from_utf8_without_replacement(byte_length)
    }

    /// How many bytes are room enough for what so many units of UTF-16 are encoded to with references, if each
    /// character has bytes; `None` if the number passes a `usize`.
    ///
    /// Proved: `jillapun_encoder_max_length_from_utf16_if_no_unmappables`.
    pub fn max_buffer_length_from_utf16_if_no_unmappables(&self, u16_length: usize) -> Option<usize> {
        self.0.max_length_from_utf16_if_no_unmappables(u16_length)
    }

    /// How many bytes are room enough for what so many units of UTF-16 are encoded to without replacement, and for
    /// the last escape; `None` if the number passes a `usize`.
    ///
    /// Proved: `jillapun_encoder_max_length_from_utf16_without_replacement`.
    pub fn max_buffer_length_from_utf16_without_replacement(&self, u16_length: usize) -> Option<usize> {
        self.0.max_length_from_utf16_without_replacement(u16_length)
    }

    /// Encodes from UTF-8, with the decimal reference of each character that has no bytes.
    ///
    /// Returns why it ended, how many bytes were read, how many were written, and whether a reference was written.
    pub fn encode_from_utf8(&mut self, src: &str, dst: &mut [u8], last: bool) -> (CoderResult, usize, usize, bool) {
        let encoded = self.0.encode_from_utf8(src, dst, last, OnUnmappable::Replace);
        (replaced(encoded.result), encoded.read, encoded.written, encoded.had_unmappable)
    }

    /// Encodes from UTF-8 to the end of a vector, with the decimal reference of each character that has no bytes.
    ///
    /// The room is what is left of the vector's capacity, which does not grow. Returns why it ended, how many bytes
    /// were read, and whether a reference was written.
    pub fn encode_from_utf8_to_vec(&mut self, src: &str, dst: &mut Vec<u8>, last: bool) -> (CoderResult, usize, bool) {
        let encoded = self.0.encode_from_utf8_to_vec(src, dst, last, OnUnmappable::Replace);
        (replaced(encoded.result), encoded.read, encoded.had_unmappable)
    }

    /// Encodes from UTF-8, up to the first character that has no bytes.
    ///
    /// Returns why it ended, how many bytes were read, and how many were written.
    pub fn encode_from_utf8_without_replacement(
        &mut self, src: &str, dst: &mut [u8], last: bool,
    ) -> (EncoderResult, usize, usize) {
        let encoded = self.0.encode_from_utf8(src, dst, last, OnUnmappable::Report);
        (encoded.result, encoded.read, encoded.written)
    }

    /// Encodes from UTF-8 to the end of a vector, up to the first character that has no bytes.
    ///
    /// The room is what is left of the vector's capacity, which does not grow. Returns why it ended, and how many
    /// bytes were read.
    pub fn encode_from_utf8_to_vec_without_replacement(
        &mut self, src: &str, dst: &mut Vec<u8>, last: bool,
    ) -> (EncoderResult, usize) {
        let encoded = self.0.encode_from_utf8_to_vec(src, dst, last, OnUnmappable::Report);
        (encoded.result, encoded.read)
    }

    /// Encodes from UTF-16, with the decimal reference of each character that has no bytes. A surrogate in no pair
    /// counts as U+FFFD.
    ///
    /// Returns why it ended, how many units were read, how many bytes were written, and whether a reference was
    /// written.
    pub fn encode_from_utf16(&mut self, src: &[u16], dst: &mut [u8], last: bool) -> (CoderResult, usize, usize, bool) {
        let encoded = self.0.encode_from_utf16(src, dst, last, OnUnmappable::Replace);
        (replaced(encoded.result), encoded.read, encoded.written, encoded.had_unmappable)
    }

    /// Encodes from UTF-16, up to the first character that has no bytes. A surrogate in no pair counts as U+FFFD.
    ///
    /// Returns why it ended, how many units were read, and how many bytes were written.
    pub fn encode_from_utf16_without_replacement(
        &mut self, src: &[u16], dst: &mut [u8], last: bool,
    ) -> (EncoderResult, usize, usize) {
        let encoded = self.0.encode_from_utf16(src, dst, last, OnUnmappable::Report);
        (encoded.result, encoded.read, encoded.written)
    }
}

/// The result of a call that writes references.
fn replaced(result: EncoderResult) -> CoderResult {
    match result {
        EncoderResult::OutputFull => CoderResult::OutputFull,
        _ => CoderResult::InputEmpty,
    }
}

impl fmt::Debug for Encoder {
    fn fmt(&self, f: &mut fmt::Formatter) -> fmt::Result {
        f.debug_struct("Encoder").field("encoding", self.encoding()).finish_non_exhaustive()
    }
}
