//! The indexes of the encodings: texts that are built in, each group loaded when the first of its encodings is used.

use crate::sys::Tables;
use std::sync::OnceLock;

/// For each group a function that returns its tables. Threads that come while they are loaded wait.
macro_rules! groups {
    ($($group:ident: $($file:literal)*;)*) => {$(
        pub(crate) fn $group() -> Tables {
            static TABLES: OnceLock<Tables> = OnceLock::new();
            *TABLES.get_or_init(|| {
                Tables::load(&[$(($file, include_bytes!(concat!(env!("JILLAPUN_INDEXES"), "/", $file)))),*])
            })
        }
    )*};
}

groups! {
    none: ;
    big5: "index-big5.txt";
    chinese: "index-gb18030.txt" "index-gb18030-ranges.txt";
    japanese: "index-jis0208.txt" "index-jis0212.txt" "index-iso-2022-jp-katakana.txt";
    korean: "index-euc-kr.txt";
    ibm866: "index-ibm866.txt";
    iso_8859_2: "index-iso-8859-2.txt";
    iso_8859_3: "index-iso-8859-3.txt";
    iso_8859_4: "index-iso-8859-4.txt";
    iso_8859_5: "index-iso-8859-5.txt";
    iso_8859_6: "index-iso-8859-6.txt";
    iso_8859_7: "index-iso-8859-7.txt";
    iso_8859_8: "index-iso-8859-8.txt";
    iso_8859_10: "index-iso-8859-10.txt";
    iso_8859_13: "index-iso-8859-13.txt";
    iso_8859_14: "index-iso-8859-14.txt";
    iso_8859_15: "index-iso-8859-15.txt";
    iso_8859_16: "index-iso-8859-16.txt";
    koi8_r: "index-koi8-r.txt";
    koi8_u: "index-koi8-u.txt";
    macintosh: "index-macintosh.txt";
    windows_874: "index-windows-874.txt";
    windows_1250: "index-windows-1250.txt";
    windows_1251: "index-windows-1251.txt";
    windows_1252: "index-windows-1252.txt";
    windows_1253: "index-windows-1253.txt";
    windows_1254: "index-windows-1254.txt";
    windows_1255: "index-windows-1255.txt";
    windows_1256: "index-windows-1256.txt";
    windows_1257: "index-windows-1257.txt";
    windows_1258: "index-windows-1258.txt";
    x_mac_cyrillic: "index-x-mac-cyrillic.txt";
}
