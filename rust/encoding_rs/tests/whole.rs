//! Whole inputs and whole texts: what is returned, what is borrowed, and what becomes of byte order marks.

mod common;

use common::all;
use encoding_rs::*;
use std::borrow::Cow;

/// Texts and their bytes, as Python 3.11's codecs of the encodings write them.
const TEXTS: [(&str, &str, &[u8]); 36] = [
    ("windows-1250", "Příliš žluťoučký kůň €", b"P\xF8\xEDli\x9A \x9Elu\x9Dou\xE8k\xFD k\xF9\xF2 \x80"),
    (
        "windows-1251",
        "Съешь ещё этих булок №",
        b"\xD1\xFA\xE5\xF8\xFC \xE5\xF9\xB8 \xFD\xF2\xE8\xF5 \xE1\xF3\xEB\xEE\xEA \xB9",
    ),
    ("windows-1252", "Voilà œuvre – 5 €", b"Voil\xE0 \x9Cuvre \x96 5 \x80"),
    ("windows-1253", "Ξεσκεπάζω €", b"\xCE\xE5\xF3\xEA\xE5\xF0\xDC\xE6\xF9 \x80"),
    ("windows-1254", "Pijamalı hasta İş", b"Pijamal\xFD hasta \xDD\xFE"),
    ("windows-1255", "שלום ₪", b"\xF9\xEC\xE5\xED \xA4"),
    ("windows-1256", "صباح الخير €", b"\xD5\xC8\xC7\xCD \xC7\xE1\xCE\xED\xD1 \x80"),
    ("windows-1257", "Įlinkdama ž €", b"\xC1linkdama \xFE \x80"),
    ("windows-1258", "Tiê\u{301}ng Viê\u{323}t ₫", b"Ti\xEA\xECng Vi\xEA\xF2t \xFE"),
    ("windows-874", "สวัสดี €", b"\xCA\xC7\xD1\xCA\xB4\xD5 \x80"),
    ("iso-8859-2", "Zażółć gęślą", b"Za\xBF\xF3\xB3\xE6 g\xEA\xB6l\xB1"),
    ("iso-8859-3", "Ĥaŭ ĝis ħ", b"\xA6a\xFD \xF8is \xB1"),
    ("iso-8859-4", "Ąžuolas ķ", b"\xA1\xBEuolas \xF3"),
    ("iso-8859-5", "Привет №", b"\xBF\xE0\xD8\xD2\xD5\xE2 \xF0"),
    ("iso-8859-6", "مرحبا", b"\xE5\xD1\xCD\xC8\xC7"),
    ("iso-8859-7", "Καλημέρα €", b"\xCA\xE1\xEB\xE7\xEC\xDD\xF1\xE1 \xA4"),
    ("iso-8859-8", "שלום ×", b"\xF9\xEC\xE5\xED \xAA"),
    ("iso-8859-10", "Þetta ŋ", b"\xDEetta \xBF"),
    ("iso-8859-13", "Šķūnis „x”", b"\xD0\xED\xFBnis \xA5x\xA1"),
    ("iso-8859-14", "Ŵyth Ṫ", b"\xD0yth \xD7"),
    ("iso-8859-15", "Œuvre €", b"\xBCuvre \xA4"),
    ("iso-8859-16", "Știință €", b"\xAAtiin\xFE\xE3 \xA4"),
    ("koi8-r", "Привет ─║", b"\xF0\xD2\xC9\xD7\xC5\xD4 \x80\xA1"),
    ("koi8-u", "Їжак ґ", b"\xB7\xD6\xC1\xCB \xAD"),
    ("macintosh", "Café ﬁn Ω €", b"Caf\x8E \xDEn \xBD \xDB"),
    ("ibm866", "Привет ░▒", b"\x8F\xE0\xA8\xA2\xA5\xE2 \xB0\xB1"),
    ("big5", "繁體中文，測試", b"\xC1c\xC5\xE9\xA4\xA4\xA4\xE5\xA1A\xB4\xFA\xB8\xD5"),
    ("euc-kr", "한국어 똠방각하", b"\xC7\xD1\xB1\xB9\xBE\xEE \x8Cc\xB9\xE6\xB0\xA2\xC7\xCF"),
    ("euc-jp", "日本語テスト、ｶﾅ", b"\xC6\xFC\xCB\xDC\xB8\xEC\xA5\xC6\xA5\xB9\xA5\xC8\xA1\xA2\x8E\xB6\x8E\xC5"),
    ("shift_jis", "日本語テスト、ｶﾅ ①", b"\x93\xFA\x96{\x8C\xEA\x83e\x83X\x83g\x81A\xB6\xC5 \x87@"),
    ("iso-2022-jp", "A日本語B、テスト", b"A\x1B$BF|K\x5C8l\x1B(BB\x1B$B!\x22%F%9%H\x1B(B"),
    ("gbk", "简体中文，测试", b"\xBC\xF2\xCC\xE5\xD6\xD0\xCE\xC4\xA3\xAC\xB2\xE2\xCA\xD4"),
    ("gb18030", "中文😀ſ€", b"\xD6\xD0\xCE\xC4\x949\xFC6\x810\x977\xA2\xE3"),
    ("utf-16le", "a😀", b"a\x00=\xD8\x00\xDE"),
    ("utf-16be", "a😀", b"\x00a\xD8=\xDE\x00"),
    ("utf-8", "aé日😀", b"a\xC3\xA9\xE6\x97\xA5\xF0\x9F\x98\x80"),
];

/// Whether a result is borrowed. A result is a `Cow`, of a text or of bytes.
macro_rules! is_borrowed {
    ($result:expr) => {
        matches!($result, Cow::Borrowed(_))
    };
}

#[test]
fn texts_of_python() {
    for (label, text, bytes) in TEXTS {
        let encoding = Encoding::for_label(label.as_bytes()).unwrap();
        let (decoded, used, had_errors) = encoding.decode(bytes);
        assert_eq!((&*decoded, used, had_errors), (text, encoding, false), "{label}");
        assert_eq!(encoding.decode_with_bom_removal(bytes), (text.into(), false));
        assert_eq!(encoding.decode_without_bom_handling(bytes), (text.into(), false));
        assert_eq!(encoding.decode_without_bom_handling_and_without_replacement(bytes), Some(text.into()));
        let wanted = if encoding.can_encode_everything() { text.as_bytes() } else { bytes };
        let (encoded, used, had_unmappable) = encoding.encode(text);
        assert_eq!((&*encoded, used, had_unmappable), (wanted, encoding.output_encoding(), false), "{label}");
    }
}

#[test]
fn what_is_borrowed() {
    for (encoding, name, _) in all() {
        let is_borrowing = encoding.is_ascii_compatible() || encoding == ISO_2022_JP;
        for ascii in ["", "only ASCII, of some length: 0123456789 abcdefghijklmnopqrstuvwxyz ~"] {
            let (text, _, had_errors) = encoding.decode(ascii.as_bytes());
            assert_eq!(is_borrowed!(text), is_borrowing, "{name}");
            if is_borrowing {
                assert_eq!((&*text, had_errors), (ascii, false), "{name}");
                assert_eq!(text.as_ptr(), ascii.as_ptr(), "{name}");
            }
            assert_eq!(is_borrowed!(encoding.decode_with_bom_removal(ascii.as_bytes()).0), is_borrowing, "{name}");
            assert_eq!(is_borrowed!(encoding.decode_without_bom_handling(ascii.as_bytes()).0), is_borrowing, "{name}");
            if let Some(text) = encoding.decode_without_bom_handling_and_without_replacement(ascii.as_bytes()) {
                assert_eq!(is_borrowed!(text), is_borrowing, "{name}");
            }
            let (bytes, _, had_unmappable) = encoding.encode(ascii);
            assert_eq!((&*bytes, had_unmappable, is_borrowed!(bytes)), (ascii.as_bytes(), false, true), "{name}");
        }
        assert_eq!(is_borrowed!(encoding.encode("é").0), encoding.can_encode_everything(), "{name}");
    }
    // UTF-8, if nothing is malformed, without its mark.
    assert!(is_borrowed!(UTF_8.decode("\u{FEFF}aé日😀".as_bytes()).0));
    assert!(is_borrowed!(WINDOWS_1252.decode("\u{FEFF}aé日😀".as_bytes()).0));
    assert!(!is_borrowed!(UTF_8.decode(b"a\xC3\xA9\xFF").0));
    // ISO-2022-JP: ASCII, but with an escape or a shift.
    for shifted in [&b"a\x1B(Bb"[..], b"a\x0Eb", b"a\x0F"] {
        assert!(!is_borrowed!(ISO_2022_JP.decode(shifted).0));
    }
    for shift in ["a\u{E}", "a\u{F}", "a\u{1B}"] {
        let (bytes, _, had_unmappable) = ISO_2022_JP.encode(shift);
        assert_eq!((&*bytes, had_unmappable), (&b"a&#65533;"[..], true));
    }
}

#[test]
fn marks() {
    let marked: [(&'static Encoding, &[u8]); 3] =
        [(UTF_8, b"\xEF\xBB\xBFa"), (UTF_16BE, b"\xFE\xFF\0a"), (UTF_16LE, b"\xFF\xFEa\0")];
    for (encoding, _, _) in all() {
        for (mark, input) in marked {
            let (text, used, had_errors) = encoding.decode(input);
            assert_eq!((&*text, used, had_errors), ("a", mark, false));
        }
    }
    for (encoding, input) in marked {
        assert_eq!(encoding.decode_with_bom_removal(input), ("a".into(), false));
        assert_eq!(encoding.decode_without_bom_handling(input), ("\u{FEFF}a".into(), false));
        let unmarked = encoding.decode_without_bom_handling_and_without_replacement(input);
        assert_eq!(unmarked, Some("\u{FEFF}a".into()));
    }
    // The mark of another is text.
    assert_eq!(WINDOWS_1252.decode_with_bom_removal(b"\xEF\xBB\xBFa"), ("ï»¿a".into(), false));
    assert_eq!(UTF_16LE.decode_with_bom_removal(b"\xFE\xFFa\0"), ("\u{FFFE}a".into(), false));
    assert_eq!(UTF_8.decode_with_bom_removal(b"\xFF\xFEa"), ("\u{FFFD}\u{FFFD}a".into(), true));
    // One mark is taken, and no more.
    assert_eq!(UTF_8.decode(b"\xEF\xBB\xBF\xEF\xBB\xBF").0, "\u{FEFF}");
}

/// Section 4.1: what a decoder makes of what is malformed.
#[test]
fn what_is_malformed() {
    let wrong: [(&'static Encoding, &[u8], &str); 12] = [
        (UTF_8, b"a\xE6\x97b\xF0\x9F\x98", "a\u{FFFD}b\u{FFFD}"),
        (UTF_8, b"\xED\xA0\x80\xC0\xAF", "\u{FFFD}\u{FFFD}\u{FFFD}\u{FFFD}\u{FFFD}"),
        (UTF_16LE, b"\x00\xD8a\0\x00\xDCb", "\u{FFFD}a\u{FFFD}\u{FFFD}"),
        (UTF_16BE, b"\xD8\x3D\xDE\x00\xD8", "😀\u{FFFD}"),
        (SHIFT_JIS, b"\x83\x83a\x83", "ャa\u{FFFD}"),
        (SHIFT_JIS, b"\x83\x20\xFF", "\u{FFFD} \u{FFFD}"),
        (GB18030, b"\x81\x30\x81a", "\u{FFFD}0乤"),
        (EUC_JP, b"\x8F\xA1a", "\u{FFFD}a"),
        (ISO_2022_JP, b"a\x1B$Bb\x1B(Bc", "a\u{FFFD}c"),
        (REPLACEMENT, b"anything", "\u{FFFD}"),
        (WINDOWS_1253, b"\xD2a\xFF", "\u{FFFD}a\u{FFFD}"),
        (BIG5, b"\x87\x40\x80", "䏰\u{FFFD}"),
    ];
    for (encoding, input, text) in wrong {
        assert_eq!(encoding.decode_without_bom_handling(input), (text.into(), true), "{encoding:?}");
        assert_eq!(encoding.decode_without_bom_handling_and_without_replacement(input), None, "{encoding:?}");
    }
    assert_eq!(REPLACEMENT.decode(b""), ("".into(), REPLACEMENT, false));
    // More of it than there is room for at first.
    let (text, had_errors) = UTF_8.decode_without_bom_handling(&[0xFF; 1000]);
    assert_eq!((&*text, had_errors), (&*"\u{FFFD}".repeat(1000), true));
}

/// Section 4.1: what an encoder writes for a character that has no bytes.
#[test]
fn what_has_no_bytes() {
    assert_eq!(WINDOWS_1252.encode("日a😀é"), (b"&#26085;a&#128512;\xE9"[..].into(), WINDOWS_1252, true));
    assert_eq!(*ISO_2022_JP.encode("日😀日").0, *b"\x1B$BF|\x1B(B&#128512;\x1B$BF|\x1B(B");
    assert_eq!(UTF_16LE.encode("é"), ("é".as_bytes().into(), UTF_8, false));
    let text = "日".repeat(1000);
    let (bytes, _, had_unmappable) = IBM866.encode(&text);
    assert_eq!((&*bytes, had_unmappable), ("&#26085;".repeat(1000).as_bytes(), true));
}
