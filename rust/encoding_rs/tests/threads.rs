//! Threads: at the first use of an encoding, at the queries of one decoder, and a decoder that is handed on.

use encoding_rs::*;
use std::panic::{RefUnwindSafe, UnwindSafe};
use std::sync::Barrier;
use std::thread;

fn is_shared<T: Send + Sync + Unpin + UnwindSafe + RefUnwindSafe>() {}

#[test]
fn types() {
    is_shared::<Encoding>();
    is_shared::<&'static Encoding>();
    is_shared::<Decoder>();
    is_shared::<Encoder>();
    is_shared::<CoderResult>();
    is_shared::<DecoderResult>();
    is_shared::<EncoderResult>();
}

/// Eight threads load the indexes of some encodings at once. The bytes are those of Python 3.11's codecs.
#[test]
fn first_use() {
    let start = Barrier::new(8);
    thread::scope(|scope| {
        for turn in 0..8 {
            let start = &start;
            scope.spawn(move || {
                let mut texts: [(&'static Encoding, &str, &[u8]); 4] = [
                    (GB18030, "中文", b"\xD6\xD0\xCE\xC4"),
                    (BIG5, "中文", b"\xA4\xA4\xA4\xE5"),
                    (EUC_KR, "한글", b"\xC7\xD1\xB1\xDB"),
                    (SHIFT_JIS, "日本", b"\x93\xFA\x96\x7B"),
                ];
                texts.rotate_left(turn % 4);
                start.wait();
                for (encoding, text, bytes) in texts {
                    assert_eq!(encoding.decode(bytes), (text.into(), encoding, false));
                    assert_eq!(encoding.encode(text), (bytes.into(), encoding, false));
                }
            });
        }
    });
}

#[test]
fn queries_at_once() {
    let (decoder, encoder) = (ISO_2022_JP.new_decoder_without_bom_handling(), EUC_JP.new_encoder());
    let wanted = (decoder.max_utf8_buffer_length(100), encoder.max_buffer_length_from_utf16_if_no_unmappables(100));
    thread::scope(|scope| {
        for _ in 0..8 {
            scope.spawn(|| {
                for _ in 0..10_000 {
                    assert_eq!(decoder.encoding(), ISO_2022_JP);
                    assert_eq!(decoder.latin1_byte_compatible_up_to(b"ab\x1B"), Some(2));
                    let found = decoder.max_utf8_buffer_length(100);
                    assert_eq!((found, encoder.max_buffer_length_from_utf16_if_no_unmappables(100)), wanted);
                    assert!(!encoder.has_pending_state());
                }
            });
        }
    });
}

/// Each byte of a text is decoded by another thread, and each character encoded.
#[test]
fn handed_on() {
    let mut decoder = GB18030.new_decoder();
    let mut text = String::with_capacity(100);
    // 😀 and 中, as Python 3.11 writes them.
    let bytes = b"\x94\x39\xFC\x36\xD6\xD0";
    for (at, byte) in bytes.iter().enumerate() {
        (decoder, text) = thread::spawn(move || {
            let last = at + 1 == bytes.len();
            let (result, read, had_errors) = decoder.decode_to_string(&[*byte], &mut text, last);
            assert_eq!((result, read, had_errors), (CoderResult::InputEmpty, 1, false));
            (decoder, text)
        })
        .join()
        .unwrap();
    }
    assert_eq!(text, "😀中");
    let mut encoder = ISO_2022_JP.new_encoder();
    let mut output = Vec::with_capacity(100);
    for (part, last) in [("日", false), ("本", false), ("a", true)] {
        (encoder, output) = thread::spawn(move || {
            let (result, _, _) = encoder.encode_from_utf8_to_vec(part, &mut output, last);
            assert_eq!(result, CoderResult::InputEmpty);
            (encoder, output)
        })
        .join()
        .unwrap();
    }
    assert_eq!(output, b"\x1B$BF|K\\\x1B(Ba");
}
