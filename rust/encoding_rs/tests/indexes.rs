//! Each row of each index of the standard, read and written. What must come of it is worked out from the index texts
//! and from the sections of the standard on the encodings, which say what bytes a pointer has.

mod common;

use common::all;
use encoding_rs::*;
use std::collections::HashMap;

/// The rows of an index text: pointers, and the characters that they stand for.
fn rows(name: &str) -> Vec<(usize, char)> {
    let path = format!("{}/index-{name}.txt", env!("JILLAPUN_INDEXES"));
    let text = std::fs::read_to_string(path).unwrap();
    let numbers = text.lines().filter(|line| !line.is_empty() && !line.starts_with('#')).map(|line| {
        let mut fields = line.split_ascii_whitespace();
        let scalar = |field: &str| u32::from_str_radix(field.trim_start_matches("0x"), 16).unwrap();
        (fields.next().unwrap().parse().unwrap(), scalar(fields.next().unwrap()))
    });
    numbers.map(|(pointer, scalar)| (pointer, char::from_u32(scalar).unwrap())).collect()
}

/// Two bytes: a first, and a second that begins at two places.
fn pair(pointer: usize, columns: usize, first: usize, second: [usize; 2], turn: usize) -> Vec<u8> {
    let (row, column) = (pointer / columns, pointer % columns);
    vec![(row + first) as u8, (column + second[usize::from(column >= turn)]) as u8]
}

/// The bytes of a pointer of an index in an encoding, with escapes before and after.
fn bytes(encoding: &'static Encoding, index: &str, pointer: usize) -> Option<Vec<u8>> {
    let double = |add: usize| vec![(pointer / 94 + add) as u8, (pointer % 94 + add) as u8];
    Some(match (encoding.name(), index) {
        ("Big5", _) => pair(pointer, 157, 0x81, [0x40, 0x62], 0x3F),
        (_, "gb18030-ranges") => {
            let (first, second) = (pointer / 12600 + 0x81, pointer / 1260 % 10 + 0x30);
            [first, second, pointer / 10 % 126 + 0x81, pointer % 10 + 0x30].map(|byte| byte as u8).to_vec()
        }
        ("EUC-KR", _) => pair(pointer, 190, 0x81, [0x41, 0x41], 0),
        ("gb18030" | "GBK", _) => pair(pointer, 190, 0x81, [0x40, 0x41], 0x3F),
        ("Shift_JIS", _) => {
            let first = if pointer / 188 < 0x1F { 0x81 } else { 0xC1 };
            pair(pointer, 188, first, [0x40, 0x41], 0x3F)
        }
        ("EUC-JP", _) if pointer >= 94 * 94 => return None,
        ("EUC-JP", "jis0208") => double(0xA1),
        ("EUC-JP", _) => [vec![0x8F], double(0xA1)].concat(),
        ("ISO-2022-JP", _) if pointer >= 94 * 94 => return None,
        ("ISO-2022-JP", _) => [b"\x1B$B".to_vec(), double(0x21), b"\x1B(B".to_vec()].concat(),
        _ => vec![(pointer + 0x80) as u8],
    })
}

/// The pointers that an encoder uses: of several for one character, which; and none of some rows.
fn pointers(encoding: &'static Encoding, rows: &[(usize, char)]) -> HashMap<char, usize> {
    let mut found = HashMap::new();
    for &(pointer, character) in rows {
        let is_left_out = match encoding.name() {
            "Big5" => pointer < (0xA1 - 0x81) * 157,
            "Shift_JIS" => (8272..=8835).contains(&pointer),
            // Section 10.2.2: it is the byte 80.
            "GBK" => character == '€',
            _ => false,
        };
        // Section 5, "index Big5 pointer": the last pointer of these six, and the first of all others.
        let takes_last = encoding == BIG5 && "\u{2550}\u{255E}\u{2561}\u{256A}\u{5341}\u{5345}".contains(character);
        if !is_left_out && (takes_last || !found.contains_key(&character)) {
            found.insert(character, pointer);
        }
    }
    found
}

/// Reads each row, and writes each character of an index.
fn compare(encoding: &'static Encoding, index: &str) {
    let rows = rows(index);
    for &(pointer, character) in &rows {
        let Some(bytes) = bytes(encoding, index, pointer) else { continue };
        let (text, had_errors) = encoding.decode_without_bom_handling(&bytes);
        assert_eq!((&*text, had_errors), (&*character.to_string(), false), "{} {pointer}", encoding.name());
    }
    if index == "jis0212" {
        return; // It is read alone (section 12.1.2).
    }
    for (character, pointer) in pointers(encoding, &rows) {
        if let Some(bytes) = bytes(encoding, index, pointer) {
            let text = character.to_string();
            let (encoded, output, had_unmappable) = encoding.encode(&text);
            assert_eq!((&*encoded, output, had_unmappable), (&*bytes, encoding, false), "{} {text}", encoding.name());
        }
    }
}

#[test]
fn single_bytes() {
    for (encoding, name, _) in all().into_iter().filter(|(encoding, _, _)| encoding.is_single_byte()) {
        for byte in 0..0x80 {
            assert_eq!(encoding.decode(&[byte]).0.as_bytes(), [byte], "{name}");
        }
        if encoding == X_USER_DEFINED {
            continue;
        }
        let index = name.to_ascii_lowercase().replace("-8-i", "-8");
        compare(encoding, &index);
        let known: HashMap<_, _> = rows(&index).into_iter().collect();
        for pointer in (0..0x80).filter(|pointer| !known.contains_key(pointer)) {
            let wanted = ("\u{FFFD}".into(), true);
            assert_eq!(encoding.decode_without_bom_handling(&[pointer as u8 + 0x80]), wanted, "{name} {pointer}");
        }
    }
}

/// Section 14.5.
#[test]
fn user_defined() {
    for byte in 0x80..=0xFF_u8 {
        let text = char::from_u32(0xF780 + u32::from(byte) - 0x80).unwrap().to_string();
        assert_eq!(X_USER_DEFINED.decode(&[byte]).0, text);
        assert_eq!(*X_USER_DEFINED.encode(&text).0, [byte]);
    }
}

#[test]
fn big5() {
    compare(BIG5, "big5");
    // Section 11.1.1: four pointers that stand for two characters each.
    assert_eq!(
        BIG5.decode(b"\x88\x62\x88\x64\x88\xA3\x88\xA5").0,
        "\u{CA}\u{304}\u{CA}\u{30C}\u{EA}\u{304}\u{EA}\u{30C}"
    );
}

#[test]
fn euc_kr() {
    compare(EUC_KR, "euc-kr");
}

#[test]
fn chinese() {
    compare(GB18030, "gb18030");
    compare(GBK, "gb18030");
    // Section 10.2.2: GBK writes the euro as one byte; both read it so.
    let (encoded, _, had_unmappable) = GBK.encode("€");
    assert_eq!((&*encoded, had_unmappable), (&b"\x80"[..], false));
    assert_eq!(*GB18030.encode("€").0, *b"\xA2\xE3");
    assert_eq!((GBK.decode(b"\x80").0, GB18030.decode(b"\x80").0), ("€".into(), "€".into()));
    // Sections 5 and 10.2: the ends of the ranges, and U+E7C7, which stands alone.
    let forms = [
        ('\u{80}', b"\x81\x30\x81\x30"),
        ('\u{FFFF}', b"\x84\x31\xA4\x39"),
        ('\u{10000}', b"\x90\x30\x81\x30"),
        ('\u{10FFFF}', b"\xE3\x32\x9A\x35"),
        ('\u{E7C7}', b"\x81\x35\xF4\x37"),
    ];
    for (character, bytes) in forms {
        let text = character.to_string();
        assert_eq!(*GB18030.encode(&text).0, *bytes, "{character:?}");
        assert_eq!(GB18030.decode(bytes).0, text);
        assert_eq!(GBK.decode(bytes).0, text);
        assert_eq!(*GBK.encode(&text).0, *format!("&#{};", u32::from(character)).as_bytes());
    }
    // Section 10.2.2: the one character that gb18030 has no bytes for.
    assert!(GB18030.encode("\u{E5E5}").2);
}

/// Each pointer of each range below U+10000, and some of that above, read and written. What has a pair, too, is written
/// as that.
#[test]
fn ranges() {
    let pairs = pointers(GB18030, &rows("gb18030"));
    let rows = rows("gb18030-ranges");
    for (number, &(start, character)) in rows.iter().enumerate() {
        // Section 5, "index gb18030 ranges code point": the end of the last range below U+10000 and of that above.
        let (end, step) = match start {
            39394 => (39419, 1),
            189000 => (1237575, 1001),
            _ => (rows[number + 1].0 - 1, 1),
        };
        for pointer in (start..=end).step_by(step).chain([end]) {
            let scalar = if pointer == 7457 { 0xE7C7 } else { u32::from(character) + (pointer - start) as u32 };
            let text = char::from_u32(scalar).unwrap().to_string();
            let four = bytes(GB18030, "gb18030-ranges", pointer).unwrap();
            for encoding in [GB18030, GBK] {
                assert_eq!(encoding.decode_without_bom_handling(&four), ((&*text).into(), false), "{pointer}");
            }
            let (encoded, _, had_unmappable) = GB18030.encode(&text);
            let pair = pairs.get(&text.chars().next().unwrap());
            let wanted = pair.map_or(four, |&pointer| bytes(GB18030, "gb18030", pointer).unwrap());
            assert_eq!((&*encoded, had_unmappable), (&*wanted, false), "{pointer}");
            if pair.is_none() {
                assert_eq!(*GBK.encode(&text).0, *format!("&#{scalar};").as_bytes(), "{pointer}");
            }
        }
    }
}

/// Section 12.2.2: ISO-2022-JP writes halfwidth katakana as what the index has for it. The others write bytes.
#[test]
fn katakana() {
    let wide = pointers(ISO_2022_JP, &rows("jis0208"));
    let rows = rows("iso-2022-jp-katakana");
    assert_eq!(rows.len(), 0x3F);
    for (pointer, character) in rows {
        let text = char::from_u32(0xFF61 + pointer as u32).unwrap().to_string();
        let wanted = bytes(ISO_2022_JP, "jis0208", wide[&character]).unwrap();
        assert_eq!(*ISO_2022_JP.encode(&text).0, *wanted, "{text}");
        let byte = 0xA1 + pointer as u8;
        let forms = [
            (ISO_2022_JP, [&b"\x1B(I"[..], &[byte - 0x80], b"\x1B(B"].concat()),
            (SHIFT_JIS, vec![byte]),
            (EUC_JP, vec![0x8E, byte]),
        ];
        for (encoding, bytes) in &forms {
            assert_eq!(encoding.decode_without_bom_handling(bytes), ((&*text).into(), false), "{text}");
        }
        for (encoding, bytes) in &forms[1..] {
            assert_eq!(*encoding.encode(&text).0, **bytes, "{text}");
        }
    }
}

#[test]
fn japanese() {
    for encoding in [SHIFT_JIS, EUC_JP, ISO_2022_JP] {
        compare(encoding, "jis0208");
    }
    compare(EUC_JP, "jis0212");
    // Sections 12.1 to 12.3: halfwidth katakana, the yen sign, the overline and the minus sign.
    assert_eq!(*SHIFT_JIS.encode("ｱ¥‾−").0, *b"\xB1\x5C\x7E\x81\x7C");
    assert_eq!(*EUC_JP.encode("ｱ¥‾−").0, *b"\x8E\xB1\x5C\x7E\xA1\xDD");
    assert_eq!(*ISO_2022_JP.encode("ｱ¥−a").0, *b"\x1B$B%\x22\x1B(J\x5C\x1B$B!]\x1B(Ba");
    assert_eq!(SHIFT_JIS.decode(b"\xB1\xA0\x80").0, "ｱ\u{FFFD}\u{80}");
    assert_eq!(EUC_JP.decode(b"\x8E\xB1").0, "ｱ");
    assert_eq!(ISO_2022_JP.decode(b"\x1B(I1\x1B(J\x5C~\x1B(B\x5C").0, "ｱ¥‾\\");
    // Section 12.3.1: pointers of private use.
    assert_eq!(SHIFT_JIS.decode(b"\xF0\x40\xF9\xFC").0, "\u{E000}\u{E757}");
    assert!(SHIFT_JIS.encode("\u{E000}").2);
}
