//! What an encoding tells of itself, and the calls for whole inputs and whole texts.

use crate::encodings::{by_number, UTF_8};
use crate::sys::{self, Mark, Tables};
use crate::{CoderResult, Decoder, DecoderResult, Encoder};
use std::borrow::Cow;
use std::fmt;
use std::hash::{Hash, Hasher};
use std::ptr;

/// Why a call panics that is handed an input of nearly 2^64 bytes.
const TOO_LONG: &str = "the room for this input passes a usize";

/// How long an input may be, in bytes, that is decoded or encoded in one call: room for all that it may become is taken at
/// first, and the library makes the bytes of a text beside that room, and copies them.
const SHORT: usize = 256;

/// How an encoding writes ASCII.
#[derive(Clone, Copy, PartialEq, Eq)]
pub(crate) enum Family {
    /// Each byte is a character, and the bytes of ASCII are those of ASCII.
    SingleByte,
    /// The bytes of ASCII are those of ASCII, at the start of a character.
    MultiByte,
    /// As in ASCII up to the first escape or shift.
    Iso2022Jp,
    Utf8,
    /// In other bytes, or not at all: UTF-16 and replacement.
    Wide,
}

/// An encoding of the [Encoding Standard](https://encoding.spec.whatwg.org/).
///
/// There is one value of this type for each of the 40 encodings, behind a `static` that has the encoding's name, as
/// [`UTF_8`] or [`WINDOWS_1252`](crate::WINDOWS_1252). Encodings are handed around as `&'static Encoding`, and two
/// are equal if they have one address.
///
/// ```
/// use encoding_rs::{Encoding, UTF_8, WINDOWS_1252};
///
/// assert_eq!(Encoding::for_label(b" ISO-8859-1 "), Some(WINDOWS_1252));
/// assert_ne!(UTF_8, WINDOWS_1252);
/// ```
pub struct Encoding {
    pub(crate) name: &'static str,
    pub(crate) number: u8,
    pub(crate) family: Family,
    /// The tables of its indexes, which the first call loads.
    pub(crate) tables: fn() -> Tables,
}

impl Encoding {
    /// The encoding that has a label, if one has ("get an encoding", section 4.2 of the standard).
    ///
    /// White space at both ends (09, 0A, 0C, 0D and 20) and the case of ASCII letters do not matter. A label is
    /// bytes, since it often stands in what is not decoded yet.
    ///
    /// Whoever refuses what has no label may want [`for_label_no_replacement`](Self::for_label_no_replacement);
    /// whoever reads it in another encoding must not.
    ///
    /// ```
    /// use encoding_rs::{Encoding, SHIFT_JIS, REPLACEMENT};
    ///
    /// assert_eq!(Encoding::for_label(b"MS_Kanji"), Some(SHIFT_JIS));
    /// assert_eq!(Encoding::for_label(b"iso-2022-kr"), Some(REPLACEMENT));
    /// assert_eq!(Encoding::for_label(b"shift jis"), None);
    /// ```
    ///
    /// Proved: `jillapun_for_label`.
    pub fn for_label(label: &[u8]) -> Option<&'static Encoding> {
        sys::for_label(label).map(by_number)
    }

    /// What [`for_label`](Self::for_label) returns, but `None` in place of [`REPLACEMENT`](crate::REPLACEMENT).
    ///
    /// It is for callers that end with an error where no encoding has the label: to them the unsafe encodings, which
    /// replacement stands for, are one, too.
    ///
    /// Proved: `jillapun_for_label_no_replacement`.
    pub fn for_label_no_replacement(label: &[u8]) -> Option<&'static Encoding> {
        sys::for_label_no_replacement(label).map(by_number)
    }

    /// The encoding whose byte order mark stands at the start of the bytes, and the length of the mark in bytes ("BOM
    /// sniff", section 6 of the standard).
    ///
    /// EF BB BF is the mark of UTF-8, FE FF of UTF-16BE and FF FE of UTF-16LE. Hand in at least the first three bytes
    /// of the input, or all of it.
    ///
    /// Proved: `jillapun_for_bom`.
    pub fn for_bom(buffer: &[u8]) -> Option<(&'static Encoding, usize)> {
        sys::for_bom(buffer).map(|(number, length)| (by_number(number), length))
    }

    /// The name, as the standard writes it: `Shift_JIS`. It is what `document.characterSet` returns.
    pub fn name(&'static self) -> &'static str {
        self.name
    }

    /// Whether text that is written in this encoding becomes UTF-8, so that each character has bytes.
    ///
    /// It is false of gb18030, too, which has none for U+E5E5.
    ///
    /// Proved: `jillapun_can_encode_everything`.
    pub fn can_encode_everything(&'static self) -> bool {
        sys::can_encode_everything(self.number)
    }

    /// Whether the bytes 00 to 7F, at the start of a character, are those of ASCII, and no others are: in all
    /// encodings but UTF-16BE, UTF-16LE, replacement and ISO-2022-JP.
    ///
    /// Proved: `jillapun_is_ascii_compatible`.
    pub fn is_ascii_compatible(&'static self) -> bool {
        sys::is_ascii_compatible(self.number)
    }

    /// Whether each byte is one character, of one unit of UTF-16: in the encodings of section 9 of the standard, and
    /// in x-user-defined.
    ///
    /// Proved: `jillapun_is_single_byte`.
    pub fn is_single_byte(&'static self) -> bool {
        sys::is_single_byte(self.number)
    }

    /// The encoding in which text is written that is asked for in this one ("get an output encoding", section 4.3 of
    /// the standard): UTF-8 for UTF-16BE, UTF-16LE and replacement, and the encoding itself for all others.
    ///
    /// Proved: `jillapun_output_encoding`.
    pub fn output_encoding(&'static self) -> &'static Encoding {
        by_number(sys::output_encoding(self.number))
    }

    /// Decodes a whole input, in this encoding or in that of its byte order mark, with U+FFFD for each malformed
    /// sequence ("decode", section 6 of the standard).
    ///
    /// Returns the text, without the mark; the encoding that was used; and whether something was malformed. Of a part
    /// of an input, use [`new_decoder`](Self::new_decoder).
    ///
    /// The text is borrowed from the input if that is its own text in UTF-8: in UTF-8, if nothing is malformed; in
    /// encodings that are [compatible with ASCII](Self::is_ascii_compatible), if all is ASCII; in ISO-2022-JP, if all
    /// is ASCII without an escape or a shift. Else it is a text of its own.
    ///
    /// ```
    /// use encoding_rs::{UTF_16LE, WINDOWS_1252};
    ///
    /// let (text, encoding, had_errors) = WINDOWS_1252.decode(b"\xFF\xFEA\0");
    /// assert_eq!((&*text, encoding, had_errors), ("A", UTF_16LE, false));
    /// ```
    ///
    /// # Panics
    ///
    /// If the room that the text may need passes a `usize`, or the library is refused memory. If the text itself is
    /// refused memory, the program aborts, as with each `String`.
    ///
    /// Proved: `jillapun_for_bom`, `jillapun_decode`, `jillapun_decoder_decode_to_utf8`, `jillapun_utf8_valid_up_to`
    /// and its kin.
    pub fn decode<'a>(&'static self, bytes: &'a [u8]) -> (Cow<'a, str>, &'static Encoding, bool) {
        let (encoding, length) = Encoding::for_bom(bytes).unwrap_or((self, 0));
        let (text, had_errors) = encoding.decode_without_bom_handling(&bytes[length..]);
        (text, encoding, had_errors)
    }

    /// Decodes a whole input in this encoding, without the byte order mark of this encoding at its start, and with
    /// U+FFFD for each malformed sequence. Of [`UTF_8`] it is "UTF-8 decode" (section 6 of the standard).
    ///
    /// The mark of another encoding is read as text. What is returned, what is borrowed and what panics is as of
    /// [`decode`](Self::decode). Of a part of an input, use
    /// [`new_decoder_with_bom_removal`](Self::new_decoder_with_bom_removal).
    ///
    /// Proved: as [`decode`](Self::decode).
    pub fn decode_with_bom_removal<'a>(&'static self, bytes: &'a [u8]) -> (Cow<'a, str>, bool) {
        let length = match Encoding::for_bom(bytes) {
            Some((encoding, length)) if encoding == self => length,
            _ => 0,
        };
        self.decode_without_bom_handling(&bytes[length..])
    }

    /// Decodes a whole input in this encoding, with U+FFFD for each malformed sequence. A byte order mark is read as
    /// text. Of [`UTF_8`] it is "UTF-8 decode without BOM" (section 6 of the standard).
    ///
    /// What is returned, what is borrowed and what panics is as of [`decode`](Self::decode). Of a part of an input,
    /// use [`new_decoder_without_bom_handling`](Self::new_decoder_without_bom_handling).
    ///
    /// Proved: `jillapun_decode`, `jillapun_decoder_decode_to_utf8`, `jillapun_utf8_valid_up_to` and its kin.
    pub fn decode_without_bom_handling<'a>(&'static self, bytes: &'a [u8]) -> (Cow<'a, str>, bool) {
        let (start, rest) = match self.borrowed(bytes) {
            Ok(text) => return (Cow::Borrowed(text), false),
            Err(parts) => parts,
        };
        let (text, had_errors) = match rest.len() {
            0..=SHORT => self.decode_short(start, rest),
            _ => self.decode_long(start, rest),
        };
        (Cow::Owned(text), had_errors)
    }

    /// The text of a start, which is its own, and of a short input behind it; and whether something was malformed.
    fn decode_short(&self, start: &str, rest: &[u8]) -> (String, bool) {
        let mut text = begun(start, self.text_room(rest.len()));
        let had_errors = sys::decode_to_string((self.tables)(), self.number, rest, &mut text);
        (text, had_errors)
    }

    /// The same of any input.
    fn decode_long(&'static self, start: &str, mut rest: &[u8]) -> (String, bool) {
        let mut decoder = self.new_decoder_without_bom_handling();
        let mut text = begun(start, decoder.max_utf8_buffer_length_without_replacement(rest.len()));
        let mut had_errors = false;
        loop {
            let (result, read, errors) = decoder.decode_to_string(rest, &mut text, true);
            rest = &rest[read..];
            had_errors |= errors;
            if result == CoderResult::InputEmpty {
                return (text, had_errors);
            }
            text.reserve(decoder.max_utf8_buffer_length(rest.len()).expect(TOO_LONG));
        }
    }

    /// Decodes a whole input in this encoding, if nothing is malformed: else returns `None`. A byte order mark is
    /// read as text. Of [`UTF_8`] it is "UTF-8 decode without BOM or fail" (section 6 of the standard).
    ///
    /// What is borrowed and what panics is as of [`decode`](Self::decode).
    ///
    /// Proved: `jillapun_decoder_decode_to_utf8_without_replacement`, `jillapun_utf8_valid_up_to` and its kin.
    pub fn decode_without_bom_handling_and_without_replacement<'a>(
        &'static self, bytes: &'a [u8],
    ) -> Option<Cow<'a, str>> {
        let (start, rest) = match self.borrowed(bytes) {
            Ok(text) => return Some(Cow::Borrowed(text)),
            Err(_) if self == UTF_8 => return None,
            Err(parts) => parts,
        };
        let mut decoder = self.new_decoder_without_bom_handling();
        let mut text = begun(start, decoder.max_utf8_buffer_length_without_replacement(rest.len()));
        let (result, _) = decoder.decode_to_string_without_replacement(rest, &mut text, true);
        (result == DecoderResult::InputEmpty).then_some(Cow::Owned(text))
    }

    /// Encodes a whole text into the [output encoding](Self::output_encoding), with the decimal reference (`&#8364;`)
    /// of each character that has no bytes ("encode", section 6 of the standard).
    ///
    /// Returns the bytes; the output encoding; and whether a reference was written. Of a part of a text, use
    /// [`new_encoder`](Self::new_encoder).
    ///
    /// The bytes are borrowed from the text if they are its own: if the output encoding is UTF-8; if all of the text
    /// is ASCII; in ISO-2022-JP, if it is ASCII without U+000E, U+000F and U+001B. Else they are a vector of their
    /// own.
    ///
    /// ```
    /// use encoding_rs::{UTF_16LE, UTF_8, WINDOWS_1251};
    ///
    /// let (bytes, encoding, had_unmappable) = WINDOWS_1251.encode("Да €");
    /// assert_eq!((&*bytes, encoding, had_unmappable), (&b"\xC4\xE0 \x88"[..], WINDOWS_1251, false));
    /// assert_eq!(UTF_16LE.encode("é").1, UTF_8);
    /// ```
    ///
    /// # Panics
    ///
    /// If the room that the bytes may need passes a `usize`, or the library is refused memory. If the bytes themselves
    /// are refused memory, the program aborts, as with each `Vec`.
    ///
    /// Proved: `jillapun_encode`, `jillapun_encoder_encode_from_utf8`, `jillapun_ascii_valid_up_to` and its kin.
    pub fn encode<'a>(&'static self, string: &'a str) -> (Cow<'a, [u8]>, &'static Encoding, bool) {
        let output = self.output_encoding();
        if output == UTF_8 {
            return (Cow::Borrowed(string.as_bytes()), output, false);
        }
        let start = match output.borrowed(string.as_bytes()) {
            Ok(text) => return (Cow::Borrowed(text.as_bytes()), output, false),
            Err((start, _)) => start,
        };
        let rest = &string[start.len()..];
        let (bytes, had_unmappable) = match rest.len() {
            0..=SHORT => output.encode_short(start, rest),
            _ => output.encode_long(start, rest),
        };
        (Cow::Owned(bytes), output, had_unmappable)
    }

    /// The bytes of a start, which are its own, and of a short text behind it; and whether a reference was written.
    fn encode_short(&self, start: &str, rest: &str) -> (Vec<u8>, bool) {
        let mut bytes = Vec::with_capacity(start.len() + 2 * rest.len());
        bytes.extend_from_slice(start.as_bytes());
        loop {
            match sys::encode_to_vec((self.tables)(), self.number, rest, &mut bytes) {
                Ok(had_unmappable) => return (bytes, had_unmappable),
                Err(wanted) => bytes.reserve(wanted),
            }
        }
    }

    /// The same of any text.
    fn encode_long(&'static self, start: &str, mut rest: &str) -> (Vec<u8>, bool) {
        let mut encoder = self.new_encoder();
        let mut bytes = Vec::with_capacity(capacity(start, room(&encoder, rest)));
        bytes.extend_from_slice(start.as_bytes());
        let mut had_unmappable = false;
        loop {
            let (result, read, unmappable) = encoder.encode_from_utf8_to_vec(rest, &mut bytes, true);
            rest = &rest[read..];
            had_unmappable |= unmappable;
            if result == CoderResult::InputEmpty {
                return (bytes, had_unmappable);
            }
            bytes.reserve(room(&encoder, rest).expect(TOO_LONG));
        }
    }

    /// A decoder of a new stream, which the byte order mark of UTF-8, UTF-16BE or UTF-16LE at its start turns into
    /// one of that encoding. The mark is left out.
    ///
    /// # Panics
    ///
    /// If memory is refused for the indexes of its encoding, which the first call loads.
    ///
    /// Proved: `jillapun_decoder_new`.
    pub fn new_decoder(&'static self) -> Decoder {
        Decoder::new(self, Mark::Sniff)
    }

    /// A decoder of a new stream in this encoding, which leaves the byte order mark of this encoding at its start
    /// out. That of another is read as text.
    ///
    /// # Panics
    ///
    /// As [`new_decoder`](Self::new_decoder).
    ///
    /// Proved: `jillapun_decoder_new`.
    pub fn new_decoder_with_bom_removal(&'static self) -> Decoder {
        Decoder::new(self, Mark::Remove)
    }

    /// A decoder of a new stream in this encoding, which reads a byte order mark as text.
    ///
    /// If the caller has looked for the mark and left it in the input, it wants
    /// [`new_decoder_with_bom_removal`](Self::new_decoder_with_bom_removal).
    ///
    /// # Panics
    ///
    /// As [`new_decoder`](Self::new_decoder).
    ///
    /// Proved: `jillapun_decoder_new`.
    pub fn new_decoder_without_bom_handling(&'static self) -> Decoder {
        Decoder::new(self, Mark::Keep)
    }

    /// An encoder of a new text into the [output encoding](Self::output_encoding): of UTF-16BE, UTF-16LE and
    /// replacement it writes UTF-8.
    ///
    /// # Panics
    ///
    /// As [`new_decoder`](Self::new_decoder).
    ///
    /// Proved: `jillapun_encoder_new`.
    pub fn new_encoder(&'static self) -> Encoder {
        Encoder::new(self)
    }

    /// The length in bytes of the longest start that is UTF-8: it ends before the first byte of the first malformed
    /// sequence.
    ///
    /// Proved: `jillapun_utf8_valid_up_to`.
    pub fn utf8_valid_up_to(bytes: &[u8]) -> usize {
        sys::mem::utf8_valid_up_to(bytes)
    }

    /// The length in bytes of the longest start that is ASCII: it ends before the first byte from 80 hex on.
    ///
    /// Proved: `jillapun_ascii_valid_up_to`.
    pub fn ascii_valid_up_to(bytes: &[u8]) -> usize {
        sys::mem::ascii_valid_up_to(bytes)
    }

    /// The length in bytes of the longest start that ISO-2022-JP, at the start of an input, reads as ASCII: it ends
    /// before the first 0E, 0F, 1B or byte from 80 hex on.
    ///
    /// Proved: `jillapun_iso_2022_jp_ascii_valid_up_to`.
    pub fn iso_2022_jp_ascii_valid_up_to(bytes: &[u8]) -> usize {
        sys::mem::iso_2022_jp_ascii_valid_up_to(bytes)
    }

    /// How many bytes are room enough for the text of so many, with U+FFFD for each malformed sequence: at least what
    /// a new decoder tells, three for each byte or each pair of bytes, and three at most beside.
    fn text_room(&self, length: usize) -> Option<usize> {
        let most = match self.family {
            Family::Wide => length / 2 + 1,
            _ => length,
        };
        most.checked_add(1)?.checked_mul(3)
    }

    /// The bytes as their own text, if all of them are; else the start that is, and the rest.
    fn borrowed<'a>(&self, bytes: &'a [u8]) -> Result<&'a str, (&'a str, &'a [u8])> {
        let (start, rest) = match self.family {
            Family::SingleByte | Family::MultiByte => sys::mem::split_ascii(bytes),
            Family::Iso2022Jp => sys::mem::split_iso_2022_jp(bytes),
            Family::Utf8 => sys::mem::split_utf8(bytes),
            Family::Wide => return Err(("", bytes)),
        };
        if rest.is_empty() {
            Ok(start)
        } else {
            Err((start, rest))
        }
    }
}

/// A text with its start, and with room for more.
fn begun(start: &str, room: Option<usize>) -> String {
    let mut text = String::with_capacity(capacity(start, room));
    text.push_str(start);
    text
}

/// The capacity for a start, and for as much more.
fn capacity(start: &str, room: Option<usize>) -> usize {
    room.and_then(|room| room.checked_add(start.len())).expect(TOO_LONG)
}

/// How many bytes are room enough for a text, if nothing is lost.
fn room(encoder: &Encoder, text: &str) -> Option<usize> {
    encoder.max_buffer_length_from_utf8_if_no_unmappables(text.len())
}

impl PartialEq for Encoding {
    fn eq(&self, other: &Encoding) -> bool {
        ptr::eq(self, other)
    }
}

impl Eq for Encoding {}

impl Hash for Encoding {
    fn hash<H: Hasher>(&self, state: &mut H) {
        ptr::hash(self, state);
    }
}

impl fmt::Debug for Encoding {
    fn fmt(&self, f: &mut fmt::Formatter) -> fmt::Result {
        f.debug_struct("Encoding").field("name", &self.name).finish_non_exhaustive()
    }
}
