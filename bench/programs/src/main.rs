//! A transcoder over encoding_rs, to measure `recode` beside: FROM TO [BYTES] < in > out. Each buffer has so many bytes,
//! 4096 if none are named.
//! It logs malformed sequences and lost characters as `recode` does, and takes no byte order mark.

use encoding_rs::{Decoder, DecoderResult, Encoder, EncoderResult, Encoding};
use std::fs::File;
use std::io::{BufWriter, Read, Stderr, Write};
use std::os::fd::FromRawFd;

const BUFFER: usize = 4096;

struct Writer {
    encoder: Encoder,
    buffer: Vec<u8>,
    output: File,
    log: BufWriter<Stderr>,
    // How many characters were read.
    index: u64,
}

impl Writer {
    fn encode(&mut self, mut text: &str, last: bool) -> std::io::Result<()> {
        loop {
            let (result, read, written) = self
                .encoder
                .encode_from_utf8_without_replacement(text, &mut self.buffer, last);
            self.output.write_all(&self.buffer[..written])?;
            self.index += text[..read].chars().count() as u64;
            text = &text[read..];
            match result {
                EncoderResult::InputEmpty => return Ok(()),
                EncoderResult::OutputFull => {}
                EncoderResult::Unmappable(c) => {
                    writeln!(self.log, "lost {} {}", self.index - 1, c as u32)?;
                    write!(self.output, "&#{};", c as u32)?;
                }
            }
        }
    }
}

fn convert(mut decoder: Decoder, mut writer: Writer, mut input: File) -> std::io::Result<()> {
    let (mut bytes, mut pivot) = (writer.buffer.clone(), writer.buffer.clone());
    let mut place = 0;
    loop {
        let count = input.read(&mut bytes)?;
        let last = count == 0;
        let mut rest = &bytes[..count];
        loop {
            let (result, read, written) =
                decoder.decode_to_utf8_without_replacement(rest, &mut pivot, last);
            place += read as u64;
            rest = &rest[read..];
            let ends = last && matches!(result, DecoderResult::InputEmpty);
            if written > 0 || ends {
                // The decoder writes whole characters.
                let text = unsafe { std::str::from_utf8_unchecked(&pivot[..written]) };
                writer.encode(text, ends)?;
            }
            match result {
                DecoderResult::InputEmpty => break,
                DecoderResult::OutputFull => {}
                DecoderResult::Malformed(length, behind) => {
                    let start = place - u64::from(length) - u64::from(behind);
                    writeln!(writer.log, "bad {start} {length}")?;
                    writer.encode("\u{FFFD}", false)?;
                }
            }
        }
        if last {
            return writer.log.flush();
        }
    }
}

fn main() -> std::io::Result<()> {
    let words: Vec<String> = std::env::args().skip(1).collect();
    let encoding = |label: &str| Encoding::for_label(label.as_bytes()).expect("a label");
    let size = words.get(2).map_or(BUFFER, |size| size.parse().expect("a number"));
    let writer = Writer {
        encoder: encoding(&words[1]).new_encoder(),
        buffer: vec![0; size],
        output: unsafe { File::from_raw_fd(1) },
        log: BufWriter::new(std::io::stderr()),
        index: 0,
    };
    let decoder = encoding(&words[0]).new_decoder_without_bom_handling();
    convert(decoder, writer, unsafe { File::from_raw_fd(0) })
}
