//! The border to libjillapun: its calls, and small safe wrappers around them. No other module calls it, holds a
//! handle or has unsafe code.

mod decoder;
mod encoder;
mod labels;
pub(crate) mod mem;
mod raw;
mod tables;
mod whole;

pub(crate) use decoder::{Decoder, Mark, OnMalformed};
pub(crate) use encoder::{Encoder, OnUnmappable};
pub(crate) use labels::{
    can_encode_everything, for_bom, for_label, for_label_no_replacement, is_ascii_compatible, is_single_byte,
    output_encoding,
};
pub(crate) use tables::Tables;
pub(crate) use whole::{decode_to_string, encode_to_vec};

/// A length that the library tells, if it tells one.
fn length(told: usize) -> Option<usize> {
    (told != raw::REFUSED).then_some(told)
}

/// How much the library says that it wrote into so much room, if it wrote.
fn written(returned: usize, room: usize) -> Option<usize> {
    (returned <= room).then_some(returned)
}
