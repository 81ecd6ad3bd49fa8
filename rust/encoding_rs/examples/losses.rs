//! Reads lines in any encoding from standard input, and prints them as UTF-8. Each malformed sequence is told on
//! standard error, by the offset of its first byte: `cargo run --example losses shift_jis < old.txt`

use encoding_rs::{DecoderResult, Encoding};
use std::io::{self, BufRead, Write};

fn main() -> io::Result<()> {
    let label = std::env::args().nth(1).unwrap_or_else(|| "utf-8".into());
    let Some(encoding) = Encoding::for_label_no_replacement(label.as_bytes()) else {
        return Err(io::Error::new(io::ErrorKind::InvalidInput, format!("no encoding has the label {label}")));
    };
    let (mut input, mut output) = (io::stdin().lock(), io::stdout().lock());
    let mut decoder = encoding.new_decoder();
    let mut text = String::with_capacity(1 << 14);
    let mut offset = 0;
    loop {
        let bytes = input.fill_buf()?;
        let last = bytes.is_empty();
        let (result, read) = decoder.decode_to_string_without_replacement(bytes, &mut text, last);
        input.consume(read);
        offset += read;
        if let DecoderResult::Malformed(length, after) = result {
            let start = offset - usize::from(length) - usize::from(after);
            eprintln!("malformed: {length} from offset {start} on");
            text.push('\u{FFFD}');
        }
        // Whole lines, or, if a line is as long as the room, what there is of it.
        let lines = if last || result == DecoderResult::OutputFull {
            text.len()
        } else {
            text.rfind('\n').map_or(0, |at| at + 1)
        };
        output.write_all(&text.as_bytes()[..lines])?;
        text.drain(..lines);
        if last && result == DecoderResult::InputEmpty {
            return output.flush();
        }
    }
}
