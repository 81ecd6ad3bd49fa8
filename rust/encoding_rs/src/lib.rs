//! Text encodings of the web, with the interface of the crate encoding_rs 0.8.44 over libjillapun, whose codecs are
//! proved.
//!
//! An [`Encoding`] is one of the 40 encodings of the [Encoding Standard](https://encoding.spec.whatwg.org/), as
//! [`UTF_8`] or [`SHIFT_JIS`]. [`Encoding::for_label`] finds one by a label, as a protocol or a file has it.
//!
//! ```
//! use encoding_rs::{Encoding, SHIFT_JIS};
//!
//! // A whole input: the text, the encoding that a byte order mark chose, and whether something was malformed.
//! let (text, encoding, had_errors) = SHIFT_JIS.decode(b"A\x83\x6E\xFF");
//! assert_eq!((&*text, encoding, had_errors), ("Aハ\u{FFFD}", SHIFT_JIS, true));
//!
//! // A whole text: its bytes, and whether a reference was written for a character that has none.
//! let latin = Encoding::for_label(b"latin1").unwrap();
//! let (bytes, _, had_unmappable) = latin.encode("é 日");
//! assert_eq!((&*bytes, had_unmappable), (&b"\xE9 &#26085;"[..], true));
//! ```
//!
//! | For | Use |
//! |---|---|
//! | a whole input, to a text | [`Encoding::decode`] and its kin |
//! | a whole text, to bytes | [`Encoding::encode`] |
//! | an input that comes in parts | a [`Decoder`], of [`Encoding::new_decoder`] |
//! | a text that is written in parts | an [`Encoder`], of [`Encoding::new_encoder`] |
//! | checks of texts, and conversions between UTF-8, UTF-16 and Latin1 | the module [`mem`] |
//!
//! # What is proved
//!
//! Each function of the library's header, `include/jillapun.h`, is proved to meet its contract: for all arguments it
//! is safe, it returns, and it does what the definitions of the standard say. The items here name the functions that
//! they call. The crate itself, Rust between these functions and the caller, is tested and not proved. All unsafe
//! code stands in one module.
//!
//! # Limits
//!
//! - The library is code for x86-64 with SSE4.2 on Linux with glibc, and the crate wants `std`.
//! - The first call that decodes or encodes in an encoding loads the indexes that the encoding needs, in a few
//!   milliseconds, and keeps them as long as the process. If the library is refused memory, the call panics.
//! - The features `alloc` and `std`, and those for speed, change nothing. `serde` is as in encoding_rs.
//! - All names of the library begin with `jillapun_`, and those of its heap with `rattle_`, so a program may have the
//!   crates encoding_c and encoding_c_mem, too.

#![deny(missing_docs, unsafe_code)]

mod decoder;
mod encoder;
mod encoding;
mod encodings;
mod indexes;
pub mod mem;
mod results;
#[cfg(feature = "serde")]
mod serialize;
#[allow(unsafe_code)]
mod sys;

pub use decoder::Decoder;
pub use encoder::Encoder;
pub use encoding::Encoding;
pub use encodings::*;
pub use results::{CoderResult, DecoderResult, EncoderResult};
