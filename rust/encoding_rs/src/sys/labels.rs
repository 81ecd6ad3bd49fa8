//! Encodings by their numbers: found by a label or by a mark.

use super::raw;

/// The number of the encoding that has a label.
pub(crate) fn for_label(label: &[u8]) -> Option<u8> {
    // SAFETY: a slice is what the header asks of a pointer and a length.
    number(unsafe { raw::jillapun_for_label(label.as_ptr(), label.len()) })
}

/// The same, but none in place of replacement.
pub(crate) fn for_label_no_replacement(label: &[u8]) -> Option<u8> {
    // SAFETY: a slice is what the header asks of a pointer and a length.
    number(unsafe { raw::jillapun_for_label_no_replacement(label.as_ptr(), label.len()) })
}

/// The number of the encoding whose byte order mark stands at the start, and the length of the mark.
pub(crate) fn for_bom(bytes: &[u8]) -> Option<(u8, usize)> {
    let mut length = 0;
    // SAFETY: a slice is what the header asks of a pointer and a length, and `length` is a place of its own.
    let found = unsafe { raw::jillapun_for_bom(bytes.as_ptr(), bytes.len(), &mut length) };
    number(found).map(|number| (number, length))
}

/// The number of the encoding in which text is written that is asked for in another.
pub(crate) fn output_encoding(encoding: u8) -> u8 {
    // SAFETY: the call takes any number.
    unsafe { raw::jillapun_output_encoding(encoding) }
}

/// Whether each character is one byte.
pub(crate) fn is_single_byte(encoding: u8) -> bool {
    // SAFETY: the call takes any number.
    unsafe { raw::jillapun_is_single_byte(encoding) }
}

/// Whether the bytes below 80 are those of ASCII.
pub(crate) fn is_ascii_compatible(encoding: u8) -> bool {
    // SAFETY: the call takes any number.
    unsafe { raw::jillapun_is_ascii_compatible(encoding) }
}

/// Whether each character has bytes in the output encoding.
pub(crate) fn can_encode_everything(encoding: u8) -> bool {
    // SAFETY: the call takes any number.
    unsafe { raw::jillapun_can_encode_everything(encoding) }
}

fn number(returned: u8) -> Option<u8> {
    (returned != raw::NO_ENCODING).then_some(returned)
}
