//! What encodings tell of themselves. The names, labels and output encodings are those of the standard (sections 4.2
//! and 4.3).

mod common;

use common::all;
use encoding_rs::*;
use std::collections::hash_map::DefaultHasher;
use std::collections::HashSet;
use std::hash::{Hash, Hasher};

#[test]
fn names_and_labels() {
    for (encoding, name, label) in all() {
        assert_eq!(encoding.name(), name);
        let found = Encoding::for_label(name.as_bytes());
        // The name of replacement is a label of it, too.
        assert!(std::ptr::eq(found.unwrap(), encoding), "{name}");
        let padded = format!("\t\n\x0C\r {}\r ", label.to_ascii_uppercase());
        assert_eq!(Encoding::for_label(padded.as_bytes()), Some(encoding));
        let wanted = if encoding == REPLACEMENT { None } else { Some(encoding) };
        assert_eq!(Encoding::for_label_no_replacement(label.as_bytes()), wanted);
    }
    for wrong in ["", " ", "utf-", "utf -8", "utf-8\0", "utf-8\u{B}", "latin-1", "UTF_8_INIT", "ＵＴＦ-8"] {
        assert_eq!(Encoding::for_label(wrong.as_bytes()), None, "{wrong:?}");
        assert_eq!(Encoding::for_label_no_replacement(wrong.as_bytes()), None, "{wrong:?}");
    }
    assert_eq!(Encoding::for_label(&[b'a'; 10_000]), None);
}

#[test]
fn identity() {
    let unequal: HashSet<_> = all().into_iter().map(|(encoding, _, _)| encoding).collect();
    assert_eq!(unequal.len(), 40);
    assert!(std::ptr::eq(BIG5, &BIG5_INIT) && std::ptr::eq(X_USER_DEFINED, &X_USER_DEFINED_INIT));
    static LIST: [&Encoding; 2] = [&UTF_8_INIT, &GB18030_INIT];
    assert_eq!(LIST, [UTF_8, GB18030]);
    let hash = |encoding: &Encoding| {
        let mut hasher = DefaultHasher::new();
        encoding.hash(&mut hasher);
        hasher.finish()
    };
    assert_eq!(hash(UTF_8), hash(&UTF_8_INIT));
    assert_ne!(hash(UTF_8), hash(UTF_16LE));
    assert_eq!(format!("{UTF_8:?}"), "Encoding { name: \"UTF-8\", .. }");
}

/// Each `_INIT` is what its reference refers to.
#[test]
fn initialisers() {
    macro_rules! refers {
        ($($reference:ident $init:ident)*) => { [$(std::ptr::eq($reference, &$init)),*] };
    }
    let pairs = refers! {
        BIG5 BIG5_INIT EUC_JP EUC_JP_INIT EUC_KR EUC_KR_INIT GB18030 GB18030_INIT GBK GBK_INIT IBM866 IBM866_INIT
        ISO_2022_JP ISO_2022_JP_INIT ISO_8859_2 ISO_8859_2_INIT ISO_8859_3 ISO_8859_3_INIT ISO_8859_4 ISO_8859_4_INIT
        ISO_8859_5 ISO_8859_5_INIT ISO_8859_6 ISO_8859_6_INIT ISO_8859_7 ISO_8859_7_INIT ISO_8859_8 ISO_8859_8_INIT
        ISO_8859_8_I ISO_8859_8_I_INIT ISO_8859_10 ISO_8859_10_INIT ISO_8859_13 ISO_8859_13_INIT
        ISO_8859_14 ISO_8859_14_INIT ISO_8859_15 ISO_8859_15_INIT ISO_8859_16 ISO_8859_16_INIT KOI8_R KOI8_R_INIT
        KOI8_U KOI8_U_INIT MACINTOSH MACINTOSH_INIT REPLACEMENT REPLACEMENT_INIT SHIFT_JIS SHIFT_JIS_INIT
        UTF_8 UTF_8_INIT UTF_16BE UTF_16BE_INIT UTF_16LE UTF_16LE_INIT WINDOWS_874 WINDOWS_874_INIT WINDOWS_1250 WINDOWS_1250_INIT
        WINDOWS_1251 WINDOWS_1251_INIT WINDOWS_1252 WINDOWS_1252_INIT WINDOWS_1253 WINDOWS_1253_INIT
        WINDOWS_1254 WINDOWS_1254_INIT WINDOWS_1255 WINDOWS_1255_INIT WINDOWS_1256 WINDOWS_1256_INIT
        WINDOWS_1257 WINDOWS_1257_INIT WINDOWS_1258 WINDOWS_1258_INIT X_MAC_CYRILLIC X_MAC_CYRILLIC_INIT
        X_USER_DEFINED X_USER_DEFINED_INIT
    };
    assert_eq!(pairs, [true; 40]);
}

#[test]
fn kinds() {
    let utf_8 = [UTF_8, UTF_16BE, UTF_16LE, REPLACEMENT];
    let not_ascii = [UTF_16BE, UTF_16LE, REPLACEMENT, ISO_2022_JP];
    let many_bytes =
        [UTF_8, BIG5, EUC_JP, EUC_KR, GB18030, GBK, ISO_2022_JP, SHIFT_JIS, UTF_16BE, UTF_16LE, REPLACEMENT];
    for (encoding, name, _) in all() {
        let output = if utf_8.contains(&encoding) { UTF_8 } else { encoding };
        assert_eq!(encoding.output_encoding(), output, "{name}");
        assert_eq!(encoding.can_encode_everything(), utf_8.contains(&encoding), "{name}");
        assert_eq!(encoding.is_ascii_compatible(), !not_ascii.contains(&encoding), "{name}");
        assert_eq!(encoding.is_single_byte(), !many_bytes.contains(&encoding), "{name}");
        assert_eq!(encoding.new_encoder().encoding(), output, "{name}");
        assert_eq!(encoding.new_decoder().encoding(), encoding, "{name}");
    }
}

#[test]
fn marks() {
    assert_eq!(Encoding::for_bom(b"\xEF\xBB\xBFa"), Some((UTF_8, 3)));
    assert_eq!(Encoding::for_bom(b"\xFE\xFFa"), Some((UTF_16BE, 2)));
    assert_eq!(Encoding::for_bom(b"\xFF\xFE"), Some((UTF_16LE, 2)));
    for none in [&b""[..], b"\xEF", b"\xEF\xBB", b"\xFE", b"\xFF", b"a\xFF\xFE"] {
        assert_eq!(Encoding::for_bom(none), None);
    }
}

#[test]
fn starts() {
    assert_eq!(Encoding::utf8_valid_up_to("aé日😀".as_bytes()), 10);
    assert_eq!(Encoding::utf8_valid_up_to(b"a\xC3\xA9\xED\xA0\x80"), 3);
    assert_eq!(Encoding::utf8_valid_up_to(b"a\xF0\x9F\x98"), 1);
    assert_eq!(Encoding::ascii_valid_up_to(b"a\x1B\x7F\x80b"), 3);
    assert_eq!(Encoding::iso_2022_jp_ascii_valid_up_to(b"a\x7F\x1Bb"), 2);
    assert_eq!(Encoding::iso_2022_jp_ascii_valid_up_to(b"ab\x0Eb"), 2);
    assert_eq!(Encoding::iso_2022_jp_ascii_valid_up_to(b"abc\x0F"), 3);
    assert_eq!(Encoding::iso_2022_jp_ascii_valid_up_to(b"\x80"), 0);
    assert_eq!(Encoding::iso_2022_jp_ascii_valid_up_to(b"abc"), 3);
}
