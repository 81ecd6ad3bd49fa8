//! The 40 encodings.

use crate::encoding::{Encoding, Family};
use crate::indexes;

/// Each encoding in the order of the library's numbers: the constants, the name, the family, the group of its
/// indexes, and what it is.
macro_rules! encodings {
    ($($number:literal $reference:ident $init:ident $name:literal $family:ident $indexes:ident
        $what:literal;)*) => {
        $(
            #[doc = concat!("What [`", stringify!($reference), "`] refers to, the encoding ", $name, ".")]
            ///
            /// It is for its address alone, where the reference can't stand: in the initialiser of another `static`.
            pub static $init: Encoding = Encoding {
                name: $name,
                number: $number,
                family: Family::$family,
                tables: indexes::$indexes,
            };

            #[doc = concat!("The encoding ", $name, ": ", $what)]
            pub static $reference: &Encoding = &$init;
        )*

        /// The encoding with a number of the library's.
        pub(crate) fn by_number(number: u8) -> &'static Encoding {
            static ENCODINGS: [&Encoding; 40] = [$(&$init),*];
            ENCODINGS[usize::from(number)]
        }
    };
}

encodings! {
    0 BIG5 BIG5_INIT "Big5" MultiByte big5
        "Chinese in the traditional script, with the characters of Hong Kong (HKSCS). Those whose first byte is below \
         A1 hex are read and not written.";
    1 EUC_JP EUC_JP_INIT "EUC-JP" MultiByte japanese
        "Japanese, with JIS X 0208, and JIS X 0212, which is read and not written.";
    2 EUC_KR EUC_KR_INIT "EUC-KR" MultiByte korean
        "Korean, with the further syllables of windows-949.";
    3 GB18030 GB18030_INIT "gb18030" MultiByte chinese
        "Chinese, by the standard of 2022. It has bytes for each character but U+E5E5.";
    4 GBK GBK_INIT "GBK" MultiByte chinese
        "Chinese in the simplified script. It is read as [`GB18030`], and written without its sequences of four bytes.";
    5 IBM866 IBM866_INIT "IBM866" SingleByte ibm866
        "Cyrillic, of DOS.";
    6 ISO_2022_JP ISO_2022_JP_INIT "ISO-2022-JP" Iso2022Jp japanese
        "Japanese, in bytes of 7 bits, with escapes between its sets of characters.";
    7 ISO_8859_2 ISO_8859_2_INIT "ISO-8859-2" SingleByte iso_8859_2
        "Central European (Latin 2).";
    8 ISO_8859_3 ISO_8859_3_INIT "ISO-8859-3" SingleByte iso_8859_3
        "South European (Latin 3).";
    9 ISO_8859_4 ISO_8859_4_INIT "ISO-8859-4" SingleByte iso_8859_4
        "North European (Latin 4).";
    10 ISO_8859_5 ISO_8859_5_INIT "ISO-8859-5" SingleByte iso_8859_5
        "Cyrillic.";
    11 ISO_8859_6 ISO_8859_6_INIT "ISO-8859-6" SingleByte iso_8859_6
        "Arabic.";
    12 ISO_8859_7 ISO_8859_7_INIT "ISO-8859-7" SingleByte iso_8859_7
        "Greek.";
    13 ISO_8859_8 ISO_8859_8_INIT "ISO-8859-8" SingleByte iso_8859_8
        "Hebrew, in the order in which it is seen.";
    14 ISO_8859_8_I ISO_8859_8_I_INIT "ISO-8859-8-I" SingleByte iso_8859_8
        "Hebrew, in the order in which it is read. Its bytes are those of [`ISO_8859_8`].";
    15 ISO_8859_10 ISO_8859_10_INIT "ISO-8859-10" SingleByte iso_8859_10
        "Nordic (Latin 6).";
    16 ISO_8859_13 ISO_8859_13_INIT "ISO-8859-13" SingleByte iso_8859_13
        "Baltic (Latin 7).";
    17 ISO_8859_14 ISO_8859_14_INIT "ISO-8859-14" SingleByte iso_8859_14
        "Celtic (Latin 8).";
    18 ISO_8859_15 ISO_8859_15_INIT "ISO-8859-15" SingleByte iso_8859_15
        "West European, with the euro sign (Latin 9).";
    19 ISO_8859_16 ISO_8859_16_INIT "ISO-8859-16" SingleByte iso_8859_16
        "South-East European (Latin 10).";
    20 KOI8_R KOI8_R_INIT "KOI8-R" SingleByte koi8_r
        "Russian.";
    21 KOI8_U KOI8_U_INIT "KOI8-U" SingleByte koi8_u
        "Ukrainian and Belarusian.";
    22 MACINTOSH MACINTOSH_INIT "macintosh" SingleByte macintosh
        "West European, of the classic Mac OS.";
    23 REPLACEMENT REPLACEMENT_INIT "replacement" Wide none
        "stands for encodings that are unsafe to read. Any input that is not empty is read as one U+FFFD, and text is \
         written as UTF-8.";
    24 SHIFT_JIS SHIFT_JIS_INIT "Shift_JIS" MultiByte japanese
        "Japanese, of Windows (code page 932).";
    25 UTF_8 UTF_8_INIT "UTF-8" Utf8 none
        "all of Unicode, and the one to write.";
    26 UTF_16BE UTF_16BE_INIT "UTF-16BE" Wide none
        "UTF-16 with the high byte first. It is read and not written: its output encoding is UTF-8.";
    27 UTF_16LE UTF_16LE_INIT "UTF-16LE" Wide none
        "UTF-16 with the low byte first. It is read and not written: its output encoding is UTF-8.";
    28 WINDOWS_874 WINDOWS_874_INIT "windows-874" SingleByte windows_874
        "Thai.";
    29 WINDOWS_1250 WINDOWS_1250_INIT "windows-1250" SingleByte windows_1250
        "Central European.";
    30 WINDOWS_1251 WINDOWS_1251_INIT "windows-1251" SingleByte windows_1251
        "Cyrillic.";
    31 WINDOWS_1252 WINDOWS_1252_INIT "windows-1252" SingleByte windows_1252
        "West European. It has the labels of ASCII and of ISO-8859-1, too.";
    32 WINDOWS_1253 WINDOWS_1253_INIT "windows-1253" SingleByte windows_1253
        "Greek.";
    33 WINDOWS_1254 WINDOWS_1254_INIT "windows-1254" SingleByte windows_1254
        "Turkish. It has the labels of ISO-8859-9, too.";
    34 WINDOWS_1255 WINDOWS_1255_INIT "windows-1255" SingleByte windows_1255
        "Hebrew, in the order in which it is read.";
    35 WINDOWS_1256 WINDOWS_1256_INIT "windows-1256" SingleByte windows_1256
        "Arabic.";
    36 WINDOWS_1257 WINDOWS_1257_INIT "windows-1257" SingleByte windows_1257
        "Baltic.";
    37 WINDOWS_1258 WINDOWS_1258_INIT "windows-1258" SingleByte windows_1258
        "Vietnamese. Tone marks are characters of their own in it, and so must be in a text that is written.";
    38 X_MAC_CYRILLIC X_MAC_CYRILLIC_INIT "x-mac-cyrillic" SingleByte x_mac_cyrillic
        "Cyrillic, of the classic Mac OS.";
    39 X_USER_DEFINED X_USER_DEFINED_INIT "x-user-defined" SingleByte none
        "ASCII, and each byte from 80 hex on as a character of private use, U+F780 to U+F7FF.";
}
