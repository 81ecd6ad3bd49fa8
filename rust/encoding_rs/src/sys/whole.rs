//! Whole inputs and whole texts, each in one call of the library.

use super::decoder::Mark;
use super::{raw, Tables};

/// Decodes a whole input to the end of a text, in the encoding with a number. A byte order mark is read as text.
///
/// Returns whether U+FFFD was written for something malformed. The room is what is left of the text's capacity: panics if
/// the input's text is longer.
pub(crate) fn decode_to_string(tables: Tables, encoding: u8, src: &[u8], dst: &mut String) -> bool {
    let mut decoded = raw::Decoded::default();
    // SAFETY: the spare capacity is what the two say, and need not be initialised. What was written are characters of
    // UTF-8, which then belong to the text; nothing panics between.
    let status = unsafe {
        let bytes = dst.as_mut_vec();
        let room = bytes.spare_capacity_mut();
        let (at, len) = (room.as_mut_ptr().cast(), room.len());
        let mark = Mark::Keep as u8;
        let status = raw::jillapun_decode(tables.0, encoding, mark, src.as_ptr(), src.len(), at, len, &mut decoded);
        if let raw::OK | raw::LOSSY = status {
            bytes.set_len(bytes.len() + decoded.written);
        }
        status
    };
    match status {
        raw::OK => false,
        raw::LOSSY => true,
        _ => panic!("the library does not decode: status {status}"),
    }
}

/// Encodes a whole text to the end of a vector, into the output encoding of that with a number, with the decimal
/// reference of each character that has no bytes.
///
/// Returns whether a reference was written. The room is what is left of the vector's capacity: if it is too little,
/// returns how much is wanted, and the vector stays as it is.
pub(crate) fn encode_to_vec(tables: Tables, encoding: u8, text: &str, dst: &mut Vec<u8>) -> Result<bool, usize> {
    let mut written = 0;
    let room = dst.spare_capacity_mut();
    let (at, len) = (room.as_mut_ptr().cast(), room.len());
    // SAFETY: the spare capacity is what the two say, and need not be initialised; what was written then belongs to
    // the vector.
    let status = unsafe {
        let status = raw::jillapun_encode(tables.0, encoding, text.as_ptr(), text.len(), at, len, &mut written);
        if let raw::OK | raw::LOSSY = status {
            dst.set_len(dst.len() + written);
        }
        status
    };
    match status {
        raw::OK => Ok(false),
        raw::LOSSY => Ok(true),
        raw::ROOM => Err(written),
        _ => panic!("the library does not encode: status {status}"),
    }
}
