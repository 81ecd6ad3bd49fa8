//! Decoders of streams.

use crate::encodings::by_number;
use crate::sys::{self, Mark, OnMalformed};
use crate::{CoderResult, DecoderResult, Encoding};
use std::fmt;

/// A decoder of one stream, which is handed in part by part, wherever it is cut.
///
/// [`Encoding::new_decoder`] and its kin make one. A call reads from the start of `src` and writes at the start of
/// `dst`, as far as both reach, and reports how many bytes were read, how many bytes of UTF-8 or units of UTF-16 were
/// written, and why it ended:
///
/// - `InputEmpty`: all of `src` is read. Call again with what follows; or, if `last` was true, the stream has ended.
/// - `OutputFull`: fewer than 4 bytes, or 2 units, are free. Call again with more room and with what of `src` was not
///   read, with `last` as it was, even if nothing is left. It does not come if `dst` is as long as a call named
///   `max_..` says.
/// - `Malformed`, of calls named `.._without_replacement`: see [`DecoderResult::Malformed`]. The other calls write
///   U+FFFD for each malformed sequence, go on, and report at their end whether they did.
///
/// `last` says that the stream ends with `src`. A character is never split between two calls. What stands in `dst`
/// after what was written does not change, unless a call says so. With a `dst` of fewer than 4 bytes, or 2 units, a call
/// may not get on.
///
/// ```
/// use encoding_rs::{CoderResult, EUC_KR};
///
/// let mut decoder = EUC_KR.new_decoder();
/// let mut text = String::with_capacity(64);
/// for (part, last) in [(&b"\xB0"[..], false), (b"\xA1!", true)] {
///     let (result, read, had_errors) = decoder.decode_to_string(part, &mut text, last);
///     assert_eq!((result, read, had_errors), (CoderResult::InputEmpty, part.len(), false));
/// }
/// assert_eq!(text, "가!");
/// ```
///
/// # Panics
///
/// After the end of the stream each call panics, but [`encoding`](Self::encoding).
///
/// # Proved
///
/// The outputs of all calls, joined, are the text of the stream as the definitions of the standard give it, however
/// the stream is cut and however much room each call has. The functions of the header are
/// `jillapun_decoder_decode_to_utf8`, `jillapun_decoder_decode_to_str`, `jillapun_decoder_decode_to_utf16` and those
/// with `_without_replacement`.
pub struct Decoder(sys::Decoder);

impl Decoder {
    pub(crate) fn new(encoding: &'static Encoding, mark: Mark) -> Decoder {
        Decoder(sys::Decoder::new((encoding.tables)(), encoding.number, mark))
    }

    /// The encoding in force: the one that the decoder was made for, or that of the byte order mark once all of it
    /// was read.
    ///
    /// Proved: `jillapun_decoder_encoding`.
    pub fn encoding(&self) -> &'static Encoding {
        by_number(self.0.encoding())
    }

    /// How many bytes of UTF-8 are room enough for the text of so many more bytes, with U+FFFD for each malformed
    /// sequence; `None` if the number passes a `usize`.
    ///
    /// Proved: `jillapun_decoder_max_utf8_length`.
    pub fn max_utf8_buffer_length(&self, byte_length: usize) -> Option<usize> {
        self.0.max_utf8_length(byte_length)
    }

    /// How many bytes of UTF-8 are room enough for the text of so many more bytes up to the first malformed sequence;
    /// `None` if the number passes a `usize`.
    ///
    /// Proved: `jillapun_decoder_max_utf8_length_without_replacement`.
    pub fn max_utf8_buffer_length_without_replacement(&self, byte_length: usize) -> Option<usize> {
        self.0.max_utf8_length_without_replacement(byte_length)
    }

    /// How many units of UTF-16 are room enough for the text of so many more bytes, with or without replacement;
    /// `None` if the number passes a `usize`.
    ///
    /// Proved: `jillapun_decoder_max_utf16_length`.
    pub fn max_utf16_buffer_length(&self, byte_length: usize) -> Option<usize> {
        self.0.max_utf16_length(byte_length)
    }

    /// Decodes to UTF-8, with U+FFFD for each malformed sequence.
    ///
    /// Returns why it ended, how many bytes were read, how many were written, and whether U+FFFD was written for
    /// something malformed.
    pub fn decode_to_utf8(&mut self, src: &[u8], dst: &mut [u8], last: bool) -> (CoderResult, usize, usize, bool) {
        let decoded = self.0.decode_to_utf8(src, dst, last, OnMalformed::Replace);
        (replaced(decoded.result), decoded.read, decoded.written, decoded.had_errors)
    }

    /// Decodes to UTF-8 at the start of a text, with U+FFFD for each malformed sequence.
    ///
    /// What is returned is as of [`decode_to_utf8`](Self::decode_to_utf8). If a character of `dst` is overwritten in
    /// part, its other bytes become 00.
    pub fn decode_to_str(&mut self, src: &[u8], dst: &mut str, last: bool) -> (CoderResult, usize, usize, bool) {
        let decoded = self.0.decode_to_str(src, dst, last, OnMalformed::Replace);
        (replaced(decoded.result), decoded.read, decoded.written, decoded.had_errors)
    }

    /// Decodes to the end of a text, with U+FFFD for each malformed sequence.
    ///
    /// The room is what is left of the text's capacity, which does not grow. Returns why it ended, how many bytes
    /// were read, and whether U+FFFD was written for something malformed.
    pub fn decode_to_string(&mut self, src: &[u8], dst: &mut String, last: bool) -> (CoderResult, usize, bool) {
        let decoded = self.0.decode_to_string(src, dst, last, OnMalformed::Replace);
        (replaced(decoded.result), decoded.read, decoded.had_errors)
    }

    /// Decodes to UTF-8, up to the first malformed sequence.
    ///
    /// Returns why it ended, how many bytes were read, and how many were written.
    pub fn decode_to_utf8_without_replacement(
        &mut self, src: &[u8], dst: &mut [u8], last: bool,
    ) -> (DecoderResult, usize, usize) {
        let decoded = self.0.decode_to_utf8(src, dst, last, OnMalformed::Report);
        (decoded.result, decoded.read, decoded.written)
    }

    /// Decodes to UTF-8 at the start of a text, up to the first malformed sequence.
    ///
    /// Returns why it ended, how many bytes were read, and how many were written. If a character of `dst` is
    /// overwritten in part, its other bytes become 00.
    pub fn decode_to_str_without_replacement(
        &mut self, src: &[u8], dst: &mut str, last: bool,
    ) -> (DecoderResult, usize, usize) {
        let decoded = self.0.decode_to_str(src, dst, last, OnMalformed::Report);
        (decoded.result, decoded.read, decoded.written)
    }

    /// Decodes to the end of a text, up to the first malformed sequence.
    ///
    /// The room is what is left of the text's capacity, which does not grow. Returns why it ended, and how many bytes
    /// were read.
    pub fn decode_to_string_without_replacement(
        &mut self, src: &[u8], dst: &mut String, last: bool,
    ) -> (DecoderResult, usize) {
        let decoded = self.0.decode_to_string(src, dst, last, OnMalformed::Report);
        (decoded.result, decoded.read)
    }

    /// Decodes to UTF-16, with U+FFFD for each malformed sequence.
    ///
    /// Returns why it ended, how many bytes were read, how many units were written, and whether U+FFFD was written for
    /// something malformed.
    pub fn decode_to_utf16(&mut self, src: &[u8], dst: &mut [u16], last: bool) -> (CoderResult, usize, usize, bool) {
        let decoded = self.0.decode_to_utf16(src, dst, last, OnMalformed::Replace);
        (replaced(decoded.result), decoded.read, decoded.written, decoded.had_errors)
    }

    /// Decodes to UTF-16, up to the first malformed sequence.
    ///
    /// Returns why it ended, how many bytes were read, and how many units were written.
    pub fn decode_to_utf16_without_replacement(
        &mut self, src: &[u8], dst: &mut [u16], last: bool,
    ) -> (DecoderResult, usize, usize) {
        let decoded = self.0.decode_to_utf16(src, dst, last, OnMalformed::Report);
        (decoded.result, decoded.read, decoded.written)
    }

    /// How many of some bytes, if they come next, stand for the characters of their own numbers, as in Latin1: a
    /// caller that keeps texts in Latin1 may copy these, and hand in the rest.
    ///
    /// In a single-byte encoding the index decides. In the others it ends before the first byte that is not ASCII, in
    /// ISO-2022-JP also before the first 0E, 0F or 1B. `None` if it is not known: a byte order mark may still come,
    /// bytes are pending, ISO-2022-JP is in another mode than ASCII, or the encoding is UTF-16BE, UTF-16LE or
    /// replacement.
    ///
    /// Proved: `jillapun_decoder_latin1_byte_compatible_up_to`.
    pub fn latin1_byte_compatible_up_to(&self, bytes: &[u8]) -> Option<usize> {
        self.0.latin1_byte_compatible_up_to(bytes)
    }
}

/// The result of a call that replaces what is malformed.
fn replaced(result: DecoderResult) -> CoderResult {
    match result {
        DecoderResult::OutputFull => CoderResult::OutputFull,
        _ => CoderResult::InputEmpty,
    }
}

impl fmt::Debug for Decoder {
    fn fmt(&self, f: &mut fmt::Formatter) -> fmt::Result {
        f.debug_struct("Decoder").field("encoding", self.encoding()).finish_non_exhaustive()
    }
}
