//! The functions of `mem`, beside Rust's own `str`, `char` and `String`, on texts that are whole, cut and damaged.

mod common;

use common::Chance;
use encoding_rs::mem::*;

/// Units of UTF-16 with U+FFFD for each surrogate in no pair.
fn repaired(units: &[u16]) -> Vec<u16> {
    String::from_utf16_lossy(units).encode_utf16().collect()
}

/// The characters of a text as bytes of their numbers, if each is at most U+00FF.
fn latin1(text: &str) -> Option<Vec<u8>> {
    text.chars().map(|c| u8::try_from(u32::from(c)).ok()).collect()
}

/// The start of a text whose characters are at most U+00FF.
fn latin1_start(text: &str) -> usize {
    text.chars().take_while(|c| *c <= '\u{FF}').map(char::len_utf8).sum()
}

fn is_right_to_left(c: char) -> bool {
    let blocks = [(0x590, 0x8FF), (0xFB1D, 0xFDFF), (0xFE70, 0xFEFE), (0x10800, 0x10FFF), (0x1E800, 0x1EFFF)];
    let controls = [0x200F, 0x202B, 0x202E, 0x2067];
    let scalar = u32::from(c);
    blocks.iter().any(|(first, last)| (*first..=*last).contains(&scalar)) || controls.contains(&scalar)
}

/// How much of a text fits into so many bytes: in units of UTF-16, and in bytes.
fn fitting(text: &str, room: usize) -> (usize, usize) {
    let mut fit = (0, 0);
    for c in text.chars() {
        if fit.1 + c.len_utf8() > room {
            break;
        }
        fit = (fit.0 + c.len_utf16(), fit.1 + c.len_utf8());
    }
    fit
}

/// Texts of some kinds and lengths.
fn texts() -> Vec<String> {
    let mut chance = Chance::new(1);
    let kinds = [
        "abc xyz 012",
        "aéÿ ¡",
        "aé日本語ハ",
        "a日😀𝄞",
        "aאבשלום",
        "مرحبا a",
        "\u{FEFF}\u{FFFD}\u{FFFF}\u{10FFFF}\u{80}",
    ];
    let mut found: Vec<String> = vec![String::new()];
    for round in 0..700 {
        let letters: Vec<char> = kinds[round % kinds.len()].chars().collect();
        let length = chance.below([3, 20, 80, 300][round % 4]);
        let mut text: String = (0..length).map(|_| chance.one_of(&letters)).collect();
        if round % 5 == 0 {
            text = "0123456789abcdef".repeat(chance.below(6)) + &text;
        }
        found.push(text);
    }
    found
}

/// Bytes and units: those of texts, and these damaged.
fn damaged() -> (Vec<Vec<u8>>, Vec<Vec<u16>>) {
    let mut chance = Chance::new(2);
    let (mut bytes, mut units): (Vec<Vec<u8>>, Vec<Vec<u16>>) = (Vec::new(), Vec::new());
    for text in texts() {
        let (mut some, mut others) = (text.clone().into_bytes(), text.encode_utf16().collect::<Vec<_>>());
        for _ in 0..chance.below(4) {
            if !text.is_empty() {
                let (at, byte) = (chance.below(some.len()), chance.one_of(&[0x80, 0xC2, 0xE0, 0xED, 0xF4, 0xFF, b'a']));
                some[at] = byte;
                let (at, unit) = (chance.below(others.len()), chance.one_of(&[0xD800, 0xDBFF, 0xDC00, 0xDFFF, 0xD83A]));
                others[at] = unit;
            }
        }
        some.truncate(some.len() - chance.below(2).min(some.len()));
        bytes.extend([text.clone().into_bytes(), some]);
        units.extend([text.encode_utf16().collect(), others]);
    }
    (bytes, units)
}

#[test]
fn checks_of_texts() {
    for text in texts() {
        let is_latin1 = latin1(&text).is_some();
        let is_bidi = text.chars().any(is_right_to_left);
        assert_eq!(is_str_latin1(&text), is_latin1, "{text:?}");
        assert_eq!(str_latin1_up_to(&text), latin1_start(&text), "{text:?}");
        assert_eq!(is_str_bidi(&text), is_bidi, "{text:?}");
        let kind = [Latin1Bidi::LeftToRight, Latin1Bidi::Bidi, Latin1Bidi::Latin1];
        assert_eq!(
            check_str_for_latin1_and_bidi(&text),
            kind[if is_latin1 { 2 } else { usize::from(is_bidi) }],
            "{text:?}"
        );
    }
}

#[test]
fn checks_of_bytes() {
    for bytes in damaged().0 {
        let text = std::str::from_utf8(&bytes);
        let start = text.map_or_else(|fault| fault.valid_up_to(), str::len);
        let start = latin1_start(std::str::from_utf8(&bytes[..start]).unwrap());
        let is_latin1 = text.is_ok_and(|text| latin1(text).is_some());
        let is_bidi = text.map_or(true, |text| text.chars().any(is_right_to_left));
        assert_eq!(is_ascii(&bytes), bytes.is_ascii(), "{bytes:X?}");
        assert_eq!(is_utf8_latin1(&bytes), is_latin1, "{bytes:X?}");
        assert_eq!(utf8_latin1_up_to(&bytes), start, "{bytes:X?}");
        assert_eq!(is_utf8_bidi(&bytes), is_bidi, "{bytes:X?}");
        let kind = [Latin1Bidi::LeftToRight, Latin1Bidi::Bidi, Latin1Bidi::Latin1];
        assert_eq!(
            check_utf8_for_latin1_and_bidi(&bytes),
            kind[if is_latin1 { 2 } else { usize::from(is_bidi) }],
            "{bytes:X?}"
        );
    }
}

#[test]
fn checks_of_units() {
    for units in damaged().1 {
        let begins_bidi = |unit: &u16| {
            let alone = char::from_u32(u32::from(*unit)).is_some_and(is_right_to_left);
            // The high surrogates of U+10800 to U+10FFF and of U+1E800 to U+1EFFF.
            alone || [0xD802, 0xD803, 0xD83A, 0xD83B].contains(unit)
        };
        let is_bidi = units.iter().any(begins_bidi);
        let is_latin1 = units.iter().all(|unit| *unit <= 0xFF);
        assert_eq!(is_basic_latin(&units), units.iter().all(|unit| *unit < 0x80), "{units:X?}");
        assert_eq!(is_utf16_latin1(&units), is_latin1, "{units:X?}");
        assert_eq!(is_utf16_bidi(&units), is_bidi, "{units:X?}");
        let kind = [Latin1Bidi::LeftToRight, Latin1Bidi::Bidi, Latin1Bidi::Latin1];
        assert_eq!(
            check_utf16_for_latin1_and_bidi(&units),
            kind[if is_latin1 { 2 } else { usize::from(is_bidi) }],
            "{units:X?}"
        );
        let valid: usize = char::decode_utf16(units.iter().copied()).map_while(|c| c.ok()).map(char::len_utf16).sum();
        assert_eq!(utf16_valid_up_to(&units), valid, "{units:X?}");
        let mut changed = units.clone();
        ensure_utf16_validity(&mut changed);
        assert_eq!(changed, repaired(&units), "{units:X?}");
    }
}

#[test]
fn every_character() {
    for c in '\0'..=char::MAX {
        assert_eq!(is_char_bidi(c), is_right_to_left(c), "{c:?}");
    }
    for unit in 0..=u16::MAX {
        let alone = char::from_u32(u32::from(unit)).is_some_and(is_right_to_left);
        assert_eq!(
            is_utf16_code_unit_bidi(unit),
            alone || [0xD802, 0xD803, 0xD83A, 0xD83B].contains(&unit),
            "{unit:X}"
        );
    }
}

#[test]
fn utf8_to_utf16() {
    for bytes in damaged().0 {
        let wanted: Vec<u16> = String::from_utf8_lossy(&bytes).encode_utf16().collect();
        let mut units = vec![0xAAAA; bytes.len() + 1];
        let written = convert_utf8_to_utf16(&bytes, &mut units);
        assert_eq!(units[..written], wanted, "{bytes:X?}");
        assert!(units[written..].iter().all(|unit| *unit == 0xAAAA));
        let mut units = vec![0xAAAA; bytes.len()];
        let written = convert_utf8_to_utf16_without_replacement(&bytes, &mut units);
        match std::str::from_utf8(&bytes) {
            Ok(text) => {
                assert_eq!(units[..written.unwrap()], wanted, "{bytes:X?}");
                units.fill(0);
                assert_eq!(convert_str_to_utf16(text, &mut units), wanted.len());
                assert_eq!(units[..wanted.len()], wanted, "{bytes:X?}");
            }
            Err(_) => assert_eq!(written, None, "{bytes:X?}"),
        }
    }
}

#[test]
fn utf16_to_utf8() {
    let mut chance = Chance::new(3);
    for units in damaged().1 {
        let wanted = String::from_utf16_lossy(&units);
        let mut bytes = vec![0xAA; units.len() * 3];
        let written = convert_utf16_to_utf8(&units, &mut bytes);
        assert_eq!(bytes[..written], *wanted.as_bytes(), "{units:X?}");
        assert!(bytes[written..].iter().all(|byte| *byte == 0xAA));
        let mut text = "é日😀".repeat(units.len());
        let written = convert_utf16_to_str(&units, &mut text);
        assert_eq!(text[..written], wanted, "{units:X?}");
        std::str::from_utf8(text.as_bytes()).unwrap();
        let mut bytes = vec![0xAA; chance.below(wanted.len() + 5)];
        let fit = fitting(&wanted, bytes.len());
        assert_eq!(convert_utf16_to_utf8_partial(&units, &mut bytes), fit, "{units:X?}");
        assert_eq!(bytes[..fit.1], wanted.as_bytes()[..fit.1]);
        assert!(bytes[fit.1..].iter().all(|byte| *byte == 0xAA));
        let mut text = "日é".repeat(chance.below(units.len() + 2));
        let fit = fitting(&wanted, text.len());
        assert_eq!(convert_utf16_to_str_partial(&units, &mut text), fit, "{units:X?}");
        assert_eq!(text[..fit.1], wanted[..fit.1]);
        std::str::from_utf8(text.as_bytes()).unwrap();
    }
}

#[test]
fn from_latin1() {
    let mut chance = Chance::new(4);
    for bytes in damaged().0 {
        let wanted: String = bytes.iter().copied().map(char::from).collect();
        let mut units = vec![0xAAAA; bytes.len() + 2];
        convert_latin1_to_utf16(&bytes, &mut units);
        assert!(units[..bytes.len()].iter().copied().eq(bytes.iter().copied().map(u16::from)));
        assert_eq!(units[bytes.len()..], [0xAAAA; 2]);
        let mut converted = vec![0xAA; bytes.len() * 2];
        let written = convert_latin1_to_utf8(&bytes, &mut converted);
        assert_eq!(converted[..written], *wanted.as_bytes());
        let mut text = "日".repeat(bytes.len());
        let written = convert_latin1_to_str(&bytes, &mut text);
        assert_eq!(text[..written], wanted);
        std::str::from_utf8(text.as_bytes()).unwrap();
        let mut converted = vec![0xAA; chance.below(wanted.len() + 3)];
        let (read, written) = convert_latin1_to_utf8_partial(&bytes, &mut converted);
        assert_eq!((read, written), fitting(&wanted, converted.len()));
        assert_eq!(converted[..written], wanted.as_bytes()[..written]);
        assert!(converted[written..].iter().all(|byte| *byte == 0xAA));
        let mut text = "日é".repeat(chance.below(bytes.len() + 2));
        let fit = fitting(&wanted, text.len());
        assert_eq!(convert_latin1_to_str_partial(&bytes, &mut text), fit);
        assert_eq!(text[..fit.1], wanted[..fit.1]);
        std::str::from_utf8(text.as_bytes()).unwrap();
        let decoded = decode_latin1(&bytes);
        assert_eq!(decoded, wanted);
        assert_eq!(matches!(decoded, std::borrow::Cow::Borrowed(_)), bytes.is_ascii());
    }
}

#[test]
fn to_latin1() {
    for text in texts() {
        let Some(wanted) = latin1(&text) else { continue };
        let mut bytes = vec![0xAA; text.len()];
        let written = convert_utf8_to_latin1_lossy(text.as_bytes(), &mut bytes);
        assert_eq!(bytes[..written], wanted);
        let units: Vec<u16> = text.encode_utf16().collect();
        let mut bytes = vec![0xAA; units.len() + 2];
        convert_utf16_to_latin1_lossy(&units, &mut bytes);
        assert_eq!(bytes[..units.len()], wanted);
        let encoded = encode_latin1_lossy(&text);
        assert_eq!(*encoded, wanted);
        assert_eq!(matches!(encoded, std::borrow::Cow::Borrowed(_)), text.is_ascii());
    }
    let mut bytes = [0; 2];
    convert_utf16_to_latin1_lossy(&[0x1234, 0x80], &mut bytes);
    assert_eq!(bytes, [0x34, 0x80]);
}

#[test]
fn copies_of_ascii() {
    for text in texts() {
        let start = text.bytes().take_while(u8::is_ascii).count();
        let mut bytes = vec![0xAA; text.len()];
        assert_eq!(copy_ascii_to_ascii(text.as_bytes(), &mut bytes), start);
        assert_eq!(bytes[..start], text.as_bytes()[..start]);
        let mut units = vec![0xAAAA; text.len()];
        assert_eq!(copy_ascii_to_basic_latin(text.as_bytes(), &mut units), start);
        assert!(units[..start].iter().copied().eq(text.bytes().take(start).map(u16::from)));
        let units: Vec<u16> = text.encode_utf16().collect();
        bytes.fill(0xAA);
        assert_eq!(copy_basic_latin_to_ascii(&units, &mut bytes), start);
        assert_eq!(bytes[..start], text.as_bytes()[..start]);
    }
}

/// Each function that wants room panics if there is one element less.
#[test]
#[allow(unknown_lints, unexpected_cfgs)] // Cargo does not know the setting of fuzzers.
fn panics() {
    let (mut bytes, mut units) = ([0; 5], [0; 5]);
    let mut text = *b"abcde";
    macro_rules! panic {
        ($($call:expr;)*) => {$(
            let call = std::panic::AssertUnwindSafe(|| { let _ = $call; });
            assert!(std::panic::catch_unwind(call).is_err(), stringify!($call));
        )*};
    }
    panic! {
        convert_utf8_to_utf16(b"abcde", &mut units);
        convert_str_to_utf16("abcdef", &mut units);
        convert_utf8_to_utf16_without_replacement(b"abcdef", &mut units);
        convert_utf16_to_utf8(&[0x61; 2], &mut bytes);
        convert_utf16_to_str(&[0x61; 2], std::str::from_utf8_mut(&mut text).unwrap());
        convert_latin1_to_utf16(b"abcdef", &mut units);
        convert_latin1_to_utf8(b"abc", &mut bytes);
        convert_latin1_to_str(b"abc", std::str::from_utf8_mut(&mut text).unwrap());
        convert_utf8_to_latin1_lossy(b"abcdef", &mut bytes);
        convert_utf16_to_latin1_lossy(&[0x61; 6], &mut bytes);
        copy_ascii_to_ascii(b"abcdef", &mut bytes);
        copy_ascii_to_basic_latin(b"abcdef", &mut units);
        copy_basic_latin_to_ascii(&[0x61; 6], &mut bytes);
    }
    assert_eq!((bytes, units, &text), ([0; 5], [0; 5], b"abcde"));
    if cfg!(all(debug_assertions, not(fuzzing))) {
        panic! {
            convert_utf8_to_latin1_lossy("日".as_bytes(), &mut bytes);
            convert_utf8_to_latin1_lossy(b"a\xFF", &mut bytes);
            encode_latin1_lossy("a日");
        }
    } else {
        assert_eq!(convert_utf8_to_latin1_lossy("aé日".as_bytes(), &mut [0; 9]), 2);
        assert_eq!(*encode_latin1_lossy("aé日"), *b"a\xE9");
    }
}
