//! What the calls of decoders and encoders end with.

/// Why a call that replaces what it can't convert has ended.
#[must_use]
#[derive(Debug, PartialEq, Eq)]
pub enum CoderResult {
    /// All of the input is read. With `last` the stream has ended; else call again with what follows.
    InputEmpty,
    /// There is no room for what comes next. Call again with more room, and with what of the input was not read.
    OutputFull,
}

/// Why a call of a decoder that replaces nothing has ended.
#[must_use]
#[derive(Debug, PartialEq, Eq)]
pub enum DecoderResult {
    /// All of the input is read. With `last` the stream has ended; else call again with what follows.
    InputEmpty,
    /// There is no room for what comes next. Call again with more room, and with what of the input was not read.
    OutputFull,
    /// A malformed sequence was read, and nothing was written for it.
    ///
    /// The first number is the length of the sequence in bytes, 1 to 4; the second is how many of the bytes that were
    /// read follow it, 0 to 3. Some of these bytes may have been read by earlier calls. There is room for U+FFFD:
    /// write it or not, and call again with what of the input was not read; or give up.
    Malformed(u8, u8),
}

/// Why a call of an encoder that replaces nothing has ended.
#[must_use]
#[derive(Debug, PartialEq, Eq)]
pub enum EncoderResult {
    /// All of the text is read. With `last` all is written; else call again with what follows.
    InputEmpty,
    /// There is no room for what comes next. Call again with more room, and with what of the text was not read.
    OutputFull,
    /// This character was read, the encoding has no bytes for it, and nothing was written for it.
    ///
    /// U+FFFD stands for a surrogate in no pair, and for U+000E, U+000F and U+001B in ISO-2022-JP. Write something
    /// else, in printable ASCII other than backslash and tilde, and call again with what of the text was not read; or
    /// give up.
    Unmappable(char),
}
