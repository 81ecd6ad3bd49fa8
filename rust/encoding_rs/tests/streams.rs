//! Decoders and encoders: by random cuts and rooms against the calls for whole inputs and texts, and what each call
//! tells.

mod common;

use common::{all, Chance};
use encoding_rs::*;

/// How a stream is decoded.
#[derive(Clone, Copy, Debug, PartialEq)]
enum To {
    Utf8,
    Str,
    String,
    Utf16,
}

const TO: [To; 4] = [To::Utf8, To::Str, To::String, To::Utf16];

/// What came of a stream: the text, whether something was malformed, and the offset and length of each malformed
/// sequence, if the calls report them.
#[derive(Debug, PartialEq)]
struct Found {
    text: String,
    had_errors: bool,
    malformed: Vec<(usize, usize)>,
}

/// One call of a decoder: the result, how much was read, the text that was written, and whether something was
/// replaced.
fn decode_once(
    decoder: &mut Decoder, to: To, replaces: bool, part: &[u8], room: usize, last: bool,
) -> (DecoderResult, usize, String, bool) {
    let plain = |result| match result {
        CoderResult::InputEmpty => DecoderResult::InputEmpty,
        CoderResult::OutputFull => DecoderResult::OutputFull,
    };
    match to {
        To::Utf8 => {
            let mut dst = vec![0xAA; room];
            let (result, read, written, errors) = if replaces {
                let (result, read, written, errors) = decoder.decode_to_utf8(part, &mut dst, last);
                (plain(result), read, written, errors)
            } else {
                let (result, read, written) = decoder.decode_to_utf8_without_replacement(part, &mut dst, last);
                (result, read, written, false)
            };
            assert!(dst[written..].iter().all(|byte| *byte == 0xAA));
            dst.truncate(written);
            (result, read, String::from_utf8(dst).unwrap(), errors)
        }
        To::Str => {
            // A text in which each character may be overwritten in part.
            let mut dst = "日é".repeat(room / 5 + 1);
            let mut cut = room;
            while !dst.is_char_boundary(cut) {
                cut += 1;
            }
            dst.truncate(cut);
            let (result, read, written, errors) = if replaces {
                let (result, read, written, errors) = decoder.decode_to_str(part, &mut dst, last);
                (plain(result), read, written, errors)
            } else {
                let (result, read, written) = decoder.decode_to_str_without_replacement(part, &mut dst, last);
                (result, read, written, false)
            };
            std::str::from_utf8(dst.as_bytes()).unwrap();
            (result, read, dst[..written].to_string(), errors)
        }
        To::String => {
            let mut dst = String::with_capacity(room + 2);
            dst.push_str("ab");
            let capacity = dst.capacity();
            let (result, read, errors) = if replaces {
                let (result, read, errors) = decoder.decode_to_string(part, &mut dst, last);
                (plain(result), read, errors)
            } else {
                let (result, read) = decoder.decode_to_string_without_replacement(part, &mut dst, last);
                (result, read, false)
            };
            assert_eq!((dst.capacity(), &dst[..2]), (capacity, "ab"));
            (result, read, dst[2..].to_string(), errors)
        }
        To::Utf16 => {
            let mut dst = vec![0xAAAA; room];
            let (result, read, written, errors) = if replaces {
                let (result, read, written, errors) = decoder.decode_to_utf16(part, &mut dst, last);
                (plain(result), read, written, errors)
            } else {
                let (result, read, written) = decoder.decode_to_utf16_without_replacement(part, &mut dst, last);
                (result, read, written, false)
            };
            assert!(dst[written..].iter().all(|unit| *unit == 0xAAAA));
            (result, read, String::from_utf16(&dst[..written]).unwrap(), errors)
        }
    }
}

/// Decodes a stream by parts and rooms at random.
fn decode(mut decoder: Decoder, to: To, replaces: bool, input: &[u8], chance: &mut Chance) -> Found {
    let mut found = Found { text: String::new(), had_errors: false, malformed: Vec::new() };
    let (mut at, mut end) = (0, 0);
    loop {
        if at == end {
            let most = chance.one_of(&[2, 30, 30]);
            end += chance.below(most).min(input.len() - end);
        }
        let last = end == input.len() && chance.below(4) > 0;
        let asked = match (to, replaces) {
            (To::Utf16, _) => decoder.max_utf16_buffer_length(end - at),
            (_, true) => decoder.max_utf8_buffer_length(end - at),
            (_, false) => decoder.max_utf8_buffer_length_without_replacement(end - at),
        };
        let is_asked = chance.below(2) == 0;
        let room = if is_asked { asked.unwrap() } else { 4 + chance.below(20) };
        let (result, read, text, errors) = decode_once(&mut decoder, to, replaces, &input[at..end], room, last);
        at += read;
        found.text += &text;
        found.had_errors |= errors;
        match result {
            DecoderResult::InputEmpty => {
                assert_eq!(at, end);
                if last {
                    return found;
                }
            }
            DecoderResult::OutputFull => assert!(!is_asked, "{to:?} {replaces}"),
            DecoderResult::Malformed(length, after) => {
                assert!(!replaces && (1..=4).contains(&length) && after <= 3);
                found.had_errors = true;
                found.malformed.push((at - usize::from(after) - usize::from(length), length.into()));
                found.text.push('\u{FFFD}');
            }
        }
    }
}

/// Bytes at random: those of texts, some that begin or end sequences, escapes and marks.
fn input(encoding: &'static Encoding, chance: &mut Chance) -> Vec<u8> {
    let marks: [&[u8]; 6] = [b"\xEF\xBB\xBF", b"\xFF\xFE", b"\xFE\xFF", b"\xEF\xBB", b"\xEF", b""];
    let mut bytes = chance.one_of(&marks).to_vec();
    let escapes: [&[u8]; 5] = [b"\x1B(B", b"\x1B$B", b"\x1B(J", b"\x1B(I", b"\x1B"];
    for _ in 0..chance.below(12) {
        match chance.below(6) {
            0 => bytes.extend((0..chance.below(40)).map(|at| b'a' + at as u8 % 26)),
            1 => bytes
                .extend(&*encoding.encode(chance.one_of(&["日本語", "é€ß", "한글", "中文", "Привет", "😀", "ｱ¥−"])).0),
            2 => bytes.extend("日é€😀".encode_utf16().flat_map(u16::to_le_bytes)),
            3 => bytes.extend(chance.one_of(&escapes)),
            4 => bytes.extend((0..chance.below(8)).map(|_| chance.below(0x100) as u8)),
            _ => bytes.extend(
                (0..chance.below(4)).map(|_| chance.one_of(b"\x30\x41\x5C\x7E\x80\x81\x8E\x8F\xA1\xD8\xDC\xFE\xFF")),
            ),
        }
    }
    bytes
}

#[test]
fn decoders_by_cuts_and_rooms() {
    let mut chance = Chance::new(5);
    for (encoding, name, _) in all() {
        for round in 0..300 {
            let input = input(encoding, &mut chance);
            let make = || match round % 3 {
                0 => encoding.new_decoder(),
                1 => encoding.new_decoder_with_bom_removal(),
                _ => encoding.new_decoder_without_bom_handling(),
            };
            let (text, had_errors) = match round % 3 {
                0 => {
                    let (text, _, had_errors) = encoding.decode(&input);
                    (text, had_errors)
                }
                1 => encoding.decode_with_bom_removal(&input),
                _ => encoding.decode_without_bom_handling(&input),
            };
            let to = TO[round % 4];
            let replaced = decode(make(), to, true, &input, &mut chance);
            let wanted = Found { text: text.into_owned(), had_errors, malformed: Vec::new() };
            assert_eq!(replaced, wanted, "{name} {to:?} {input:X?}");
            let reported = decode(make(), to, false, &input, &mut chance);
            assert_eq!((&reported.text, reported.had_errors), (&wanted.text, had_errors), "{name} {to:?} {input:X?}");
            let again = decode(make(), TO[round % 3], false, &input, &mut chance);
            assert_eq!(again, reported, "{name} {input:X?}");
        }
    }
}

/// Encodes a text by parts and rooms at random: the bytes, and whether a reference was written, or the characters
/// that have no bytes.
fn encode(encoding: &'static Encoding, way: usize, text: &str, chance: &mut Chance) -> (Vec<u8>, bool, Vec<char>) {
    let mut encoder = encoding.new_encoder();
    let (mut bytes, mut had_unmappable, mut lost) = (Vec::new(), false, Vec::new());
    let units: Vec<u16> = text.encode_utf16().collect();
    let length = if way < 4 { text.len() } else { units.len() };
    let is_cut = |at: usize| {
        if way < 4 {
            text.is_char_boundary(at)
        } else {
            at == units.len() || !(0xDC00..0xE000).contains(&units[at])
        }
    };
    let (mut at, mut end) = (0, 0);
    loop {
        if at == end {
            end += chance.below(12).min(length - end);
            while !is_cut(end) {
                end += 1;
            }
        }
        let last = end == length && chance.below(4) > 0;
        let asked = match way {
            0 | 1 => encoder.max_buffer_length_from_utf8_if_no_unmappables(end - at),
            2 | 3 => encoder.max_buffer_length_from_utf8_without_replacement(end - at),
            4 => encoder.max_buffer_length_from_utf16_if_no_unmappables(end - at),
            _ => encoder.max_buffer_length_from_utf16_without_replacement(end - at),
        };
        let is_asked = chance.below(2) == 0;
        let room = if is_asked { asked.unwrap() } else { 14 + chance.below(20) };
        let mut dst = vec![0xAA; room];
        let mut grown = Vec::with_capacity(room + 1);
        grown.push(1);
        let plain = |result| match result {
            CoderResult::InputEmpty => EncoderResult::InputEmpty,
            CoderResult::OutputFull => EncoderResult::OutputFull,
        };
        let (result, read, written, unmappable) = match way {
            0 => {
                let (result, read, written, unmappable) = encoder.encode_from_utf8(&text[at..end], &mut dst, last);
                (plain(result), read, written, unmappable)
            }
            1 => {
                let (result, read, unmappable) = encoder.encode_from_utf8_to_vec(&text[at..end], &mut grown, last);
                (plain(result), read, grown.len() - 1, unmappable)
            }
            2 => {
                let part = &text[at..end];
                let (result, read, written) = encoder.encode_from_utf8_without_replacement(part, &mut dst, last);
                (result, read, written, false)
            }
            3 => {
                let part = &text[at..end];
                let (result, read) = encoder.encode_from_utf8_to_vec_without_replacement(part, &mut grown, last);
                (result, read, grown.len() - 1, false)
            }
            4 => {
                let (result, read, written, unmappable) = encoder.encode_from_utf16(&units[at..end], &mut dst, last);
                (plain(result), read, written, unmappable)
            }
            _ => {
                let part = &units[at..end];
                let (result, read, written) = encoder.encode_from_utf16_without_replacement(part, &mut dst, last);
                (result, read, written, false)
            }
        };
        if matches!(way, 1 | 3) {
            assert_eq!(grown[0], 1);
            bytes.extend_from_slice(&grown[1..]);
        } else {
            assert!(dst[written..].iter().all(|byte| *byte == 0xAA));
            bytes.extend_from_slice(&dst[..written]);
        }
        at += read;
        had_unmappable |= unmappable;
        match result {
            EncoderResult::InputEmpty => {
                assert_eq!(at, end);
                if last {
                    assert!(!encoder.has_pending_state());
                    return (bytes, had_unmappable, lost);
                }
            }
            // With references, the room that was asked for is enough if each character has bytes.
            EncoderResult::OutputFull => assert!(!is_asked || had_unmappable),
            EncoderResult::Unmappable(character) => {
                lost.push(character);
                bytes.extend(format!("&#{};", u32::from(character)).bytes());
            }
        }
    }
}

#[test]
fn encoders_by_cuts_and_rooms() {
    let mut chance = Chance::new(6);
    let pieces = [
        "abc",
        "日本語",
        "é€ß",
        "한글",
        "中文",
        "Привет",
        "😀",
        "ｱ¥−‾\\~",
        "\u{E5E5}",
        "\u{1B}\u{E}\u{F}",
        "שלום",
        "\u{FFFD}",
    ];
    for (encoding, name, _) in all() {
        for round in 0..300 {
            let text: String = (0..chance.below(12)).map(|_| chance.one_of(&pieces)).collect();
            let (wanted, _, had_unmappable) = encoding.encode(&text);
            let way = round % 6;
            let (bytes, replaced, lost) = encode(encoding, way, &text, &mut chance);
            assert_eq!(bytes, *wanted, "{name} {way} {text:?}");
            assert_eq!(replaced || !lost.is_empty(), had_unmappable, "{name} {way} {text:?}");
        }
    }
}

/// What each call tells, worked by hand from section 12.3.1.
#[test]
fn calls_of_a_decoder() {
    let mut decoder = SHIFT_JIS.new_decoder();
    let mut dst = [0; 8];
    assert_eq!(decoder.decode_to_utf8(b"a\x83", &mut dst, false), (CoderResult::InputEmpty, 2, 1, false));
    // A lead byte is pending, so the first of these is a second byte.
    assert_eq!(decoder.latin1_byte_compatible_up_to(b"ab"), None);
    assert_eq!(decoder.decode_to_utf8(b"\x6E\xFF", &mut dst, false), (CoderResult::InputEmpty, 2, 6, true));
    assert_eq!(dst[..6], *"ハ\u{FFFD}".as_bytes());
    assert_eq!(decoder.latin1_byte_compatible_up_to(b"ab\x83"), Some(2));
    let malformed = (DecoderResult::Malformed(1, 0), 3, 2);
    assert_eq!(decoder.decode_to_utf8_without_replacement(b"ab\xFFc", &mut dst, true), malformed);
    assert_eq!(decoder.decode_to_utf8(b"c", &mut [], true), (CoderResult::OutputFull, 0, 0, false));
    assert_eq!(decoder.decode_to_utf8(b"c", &mut dst, true), (CoderResult::InputEmpty, 1, 1, false));
    assert_eq!(format!("{decoder:?}"), "Decoder { encoding: Encoding { name: \"Shift_JIS\", .. }, .. }");
}

/// Decoders and encoders go on where they are moved to, within a character or an escape.
#[test]
fn coders_are_moved() {
    let mut decoders: Vec<_> = (0..2).map(|_| SHIFT_JIS.new_decoder()).collect();
    let mut dst = [0; 8];
    for decoder in &mut decoders {
        assert_eq!(decoder.decode_to_utf8(b"a\x83", &mut dst, false), (CoderResult::InputEmpty, 2, 1, false));
    }
    for mut decoder in decoders.into_iter().rev().map(Box::new) {
        assert_eq!(decoder.decode_to_utf8(b"\x6E", &mut dst, true), (CoderResult::InputEmpty, 1, 3, false));
        assert_eq!(dst[..3], *"ハ".as_bytes());
    }
    let mut encoder = ISO_2022_JP.new_encoder();
    assert_eq!(encoder.encode_from_utf8("日", &mut dst, false), (CoderResult::OutputFull, 0, 0, false));
    let (mut encoder, mut dst) = (Box::new(encoder), [0; 20]);
    assert_eq!(encoder.encode_from_utf8("日", &mut dst, false), (CoderResult::InputEmpty, 3, 5, false));
    let mut encoder = *encoder;
    assert_eq!(encoder.encode_from_utf8("", &mut dst, true), (CoderResult::InputEmpty, 0, 3, false));
    assert_eq!(dst[..3], *b"\x1B(B");
}

#[test]
fn marks_of_a_decoder() {
    let mut dst = [0; 8];
    let mut decoder = WINDOWS_1252.new_decoder();
    assert_eq!(decoder.latin1_byte_compatible_up_to(b"a"), None);
    assert_eq!(decoder.decode_to_utf16(b"\xFF", &mut dst, false), (CoderResult::InputEmpty, 1, 0, false));
    assert_eq!(decoder.encoding(), WINDOWS_1252);
    assert_eq!(decoder.decode_to_utf16(b"\xFEa", &mut dst, false), (CoderResult::InputEmpty, 2, 0, false));
    assert_eq!(decoder.encoding(), UTF_16LE);
    assert_eq!(decoder.decode_to_utf16(b"\0", &mut dst, true), (CoderResult::InputEmpty, 1, 1, false));
    assert_eq!(dst[0], 0x61);
    let decoder = WINDOWS_1252.new_decoder_without_bom_handling();
    // 80 is U+20AC, and A0 is U+00A0.
    assert_eq!(decoder.latin1_byte_compatible_up_to(b"a\xA0\x80"), Some(2));
    assert_eq!(UTF_16LE.new_decoder_without_bom_handling().latin1_byte_compatible_up_to(b"a"), None);
}

#[test]
fn calls_of_an_encoder() {
    let mut encoder = ISO_2022_JP.new_encoder();
    let mut dst = [0; 40];
    assert_eq!(encoder.encode_from_utf8("日", &mut dst, false), (CoderResult::InputEmpty, 3, 5, false));
    assert!(encoder.has_pending_state());
    assert_eq!(encoder.encode_from_utf8("", &mut dst[..9], true), (CoderResult::OutputFull, 0, 0, false));
    assert_eq!(encoder.encode_from_utf8("", &mut dst, true), (CoderResult::InputEmpty, 0, 3, false));
    assert!(!encoder.has_pending_state());
    let unmappable = (EncoderResult::Unmappable('😀'), 2, 1);
    let units: Vec<u16> = "a😀".encode_utf16().collect();
    assert_eq!(encoder.encode_from_utf16_without_replacement(&units[..1], &mut dst, false).1, 1);
    assert_eq!(KOI8_R.new_encoder().encode_from_utf16_without_replacement(&units[1..], &mut dst, true).0, unmappable.0);
    let lone = encoder.encode_from_utf16_without_replacement(&[0xD800], &mut dst, true);
    assert_eq!(lone, (EncoderResult::Unmappable('\u{FFFD}'), 1, 0));
    let mut utf_8 = UTF_16BE.new_encoder();
    assert_eq!(utf_8.encode_from_utf16(&[0xDC00, 0x61], &mut dst, true), (CoderResult::InputEmpty, 2, 4, false));
    assert_eq!(dst[..4], *"\u{FFFD}a".as_bytes());
    assert_eq!(format!("{encoder:?}"), "Encoder { encoding: Encoding { name: \"ISO-2022-JP\", .. }, .. }");
}

#[test]
fn rooms_that_pass_a_usize() {
    for (encoding, name, _) in all() {
        let (decoder, encoder) = (encoding.new_decoder(), encoding.new_encoder());
        assert_eq!(decoder.max_utf8_buffer_length(usize::MAX), None, "{name}");
        assert_eq!(decoder.max_utf8_buffer_length_without_replacement(usize::MAX), None, "{name}");
        if !encoding.can_encode_everything() {
            assert_eq!(encoder.max_buffer_length_from_utf8_if_no_unmappables(usize::MAX), None, "{name}");
            assert_eq!(encoder.max_buffer_length_from_utf16_if_no_unmappables(usize::MAX), None, "{name}");
        }
        assert!(decoder.max_utf16_buffer_length(0).is_some(), "{name}");
        assert!(encoder.max_buffer_length_from_utf8_without_replacement(0).is_some(), "{name}");
        assert!(encoder.max_buffer_length_from_utf16_without_replacement(0).is_some(), "{name}");
    }
}

/// After the end of its stream a decoder tells its encoding, and else panics.
#[test]
fn ended() {
    type Use = fn(&mut Decoder);
    let uses: [Use; 12] = [
        |decoder| drop(decoder.decode_to_utf8(b"a", &mut [0; 9], true)),
        |decoder| drop(decoder.decode_to_utf8_without_replacement(b"a", &mut [0; 9], true)),
        |decoder| drop(decoder.decode_to_utf16(b"a", &mut [0; 9], false)),
        |decoder| drop(decoder.decode_to_utf16_without_replacement(b"", &mut [0; 9], true)),
        |decoder| drop(decoder.decode_to_str(b"a", String::from("abcdefgh").as_mut_str(), true)),
        |decoder| drop(decoder.decode_to_str_without_replacement(b"a", String::from("abcdefgh").as_mut_str(), true)),
        |decoder| drop(decoder.decode_to_string(b"a", &mut String::with_capacity(9), true)),
        |decoder| drop(decoder.decode_to_string_without_replacement(b"a", &mut String::with_capacity(9), true)),
        |decoder| assert_ne!(decoder.max_utf8_buffer_length(1), None),
        |decoder| assert_ne!(decoder.max_utf8_buffer_length_without_replacement(1), None),
        |decoder| assert_ne!(decoder.max_utf16_buffer_length(1), None),
        |decoder| assert_ne!(decoder.latin1_byte_compatible_up_to(b"a"), None),
    ];
    for (number, call) in uses.into_iter().enumerate() {
        let mut decoder = BIG5.new_decoder();
        assert_eq!(decoder.decode_to_utf8(b"ab", &mut [0; 9], true).0, CoderResult::InputEmpty);
        let used = std::panic::catch_unwind(std::panic::AssertUnwindSafe(|| call(&mut decoder)));
        assert!(used.is_err(), "{number}");
        assert_eq!(decoder.encoding(), BIG5);
    }
}
