//! What the tests share: the list of the encodings, and numbers at random.
#![allow(dead_code)]

use encoding_rs::*;

/// Each encoding beside its name and a label, as the standard's table of encodings has them (section 4.2).
pub fn all() -> [(&'static Encoding, &'static str, &'static str); 40] {
    [
        (UTF_8, "UTF-8", "unicode11utf8"),
        (IBM866, "IBM866", "866"),
        (ISO_8859_2, "ISO-8859-2", "latin2"),
        (ISO_8859_3, "ISO-8859-3", "iso_8859-3:1988"),
        (ISO_8859_4, "ISO-8859-4", "l4"),
        (ISO_8859_5, "ISO-8859-5", "cyrillic"),
        (ISO_8859_6, "ISO-8859-6", "asmo-708"),
        (ISO_8859_7, "ISO-8859-7", "elot_928"),
        (ISO_8859_8, "ISO-8859-8", "visual"),
        (ISO_8859_8_I, "ISO-8859-8-I", "logical"),
        (ISO_8859_10, "ISO-8859-10", "l6"),
        (ISO_8859_13, "ISO-8859-13", "iso885913"),
        (ISO_8859_14, "ISO-8859-14", "iso8859-14"),
        (ISO_8859_15, "ISO-8859-15", "l9"),
        (ISO_8859_16, "ISO-8859-16", "iso-8859-16"),
        (KOI8_R, "KOI8-R", "koi"),
        (KOI8_U, "KOI8-U", "koi8-ru"),
        (MACINTOSH, "macintosh", "x-mac-roman"),
        (WINDOWS_874, "windows-874", "tis-620"),
        (WINDOWS_1250, "windows-1250", "x-cp1250"),
        (WINDOWS_1251, "windows-1251", "cp1251"),
        (WINDOWS_1252, "windows-1252", "us-ascii"),
        (WINDOWS_1253, "windows-1253", "cp1253"),
        (WINDOWS_1254, "windows-1254", "latin5"),
        (WINDOWS_1255, "windows-1255", "cp1255"),
        (WINDOWS_1256, "windows-1256", "cp1256"),
        (WINDOWS_1257, "windows-1257", "cp1257"),
        (WINDOWS_1258, "windows-1258", "cp1258"),
        (X_MAC_CYRILLIC, "x-mac-cyrillic", "x-mac-ukrainian"),
        (GBK, "GBK", "gb2312"),
        (GB18030, "gb18030", "gb18030"),
        (BIG5, "Big5", "big5-hkscs"),
        (EUC_JP, "EUC-JP", "x-euc-jp"),
        (ISO_2022_JP, "ISO-2022-JP", "csiso2022jp"),
        (SHIFT_JIS, "Shift_JIS", "windows-31j"),
        (EUC_KR, "EUC-KR", "ks_c_5601-1987"),
        (REPLACEMENT, "replacement", "hz-gb-2312"),
        (UTF_16BE, "UTF-16BE", "unicodefffe"),
        (UTF_16LE, "UTF-16LE", "ucs-2"),
        (X_USER_DEFINED, "x-user-defined", "x-user-defined"),
    ]
}

/// Numbers at random, from a seed (xorshift).
pub struct Chance(u64);

impl Chance {
    pub fn new(seed: u64) -> Chance {
        Chance(seed.wrapping_mul(0x9E37_79B9_7F4A_7C15) | 1)
    }

    /// A number below a bound.
    pub fn below(&mut self, bound: usize) -> usize {
        self.0 ^= self.0 << 13;
        self.0 ^= self.0 >> 7;
        self.0 ^= self.0 << 17;
        (self.0 >> 11) as usize % bound
    }

    pub fn one_of<T: Copy>(&mut self, choices: &[T]) -> T {
        choices[self.below(choices.len())]
    }
}
