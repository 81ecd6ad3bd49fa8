//! The results of both crates for the same inputs and the same texts. All must be equal, but for what `EDITION` has;
//! `bench/README.md` lists what else may differ, which no call here shows.

use crate::{long_text, ours, theirs, TEXTS};
use std::process::ExitCode;

const LABELS: &str = "utf-8 ibm866 iso-8859-2 iso-8859-3 iso-8859-4 iso-8859-5 iso-8859-6 iso-8859-7 iso-8859-8 \
    iso-8859-8-i iso-8859-10 iso-8859-13 iso-8859-14 iso-8859-15 iso-8859-16 koi8-r koi8-u macintosh windows-874 \
    windows-1250 windows-1251 windows-1252 windows-1253 windows-1254 windows-1255 windows-1256 windows-1257 \
    windows-1258 x-mac-cyrillic gbk gb18030 big5 euc-jp iso-2022-jp shift_jis euc-kr replacement utf-16be utf-16le \
    x-user-defined";

/// What 18 pairs of gb18030 and GBK are in the edition of 2005, which Debian's encoding_rs 0.8.31 follows, and in that
/// of 2022, which the standard and encoding_rs from 0.8.35 on follow.
const EDITION: [(char, char); 18] = [
    ('\u{E78D}', '\u{FE10}'),
    ('\u{E78E}', '\u{FE12}'),
    ('\u{E78F}', '\u{FE11}'),
    ('\u{E790}', '\u{FE13}'),
    ('\u{E791}', '\u{FE14}'),
    ('\u{E792}', '\u{FE15}'),
    ('\u{E793}', '\u{FE16}'),
    ('\u{E794}', '\u{FE17}'),
    ('\u{E795}', '\u{FE18}'),
    ('\u{E796}', '\u{FE19}'),
    ('\u{E81E}', '\u{9FB4}'),
    ('\u{E826}', '\u{9FB5}'),
    ('\u{E82B}', '\u{9FB6}'),
    ('\u{E82C}', '\u{9FB7}'),
    ('\u{E832}', '\u{9FB8}'),
    ('\u{E843}', '\u{9FB9}'),
    ('\u{E854}', '\u{9FBA}'),
    ('\u{E864}', '\u{9FBB}'),
];

/// What is decoded: by `decode`, by the call without replacement, and to UTF-16.
#[derive(Debug, PartialEq)]
pub struct Read {
    pub text: String,
    pub is_borrowed: bool,
    pub encoding: &'static str,
    pub had_errors: bool,
    pub strict: Option<String>,
    pub units: Vec<u16>,
}

/// What is encoded: by `encode`, and from UTF-16.
#[derive(Debug, PartialEq)]
pub struct Written {
    pub bytes: Vec<u8>,
    pub is_borrowed: bool,
    pub encoding: &'static str,
    pub had_unmappable: bool,
    pub from_units: Vec<u8>,
}

/// What was compared.
#[derive(Default)]
struct Count {
    equal: usize,
    lawful: usize,
    wrong: usize,
}

impl Count {
    /// Counts two results. If they differ and may not, the first ones are printed.
    fn add<T: std::fmt::Debug + PartialEq>(&mut self, what: &str, ours: T, theirs: T, is_lawful: bool) {
        if ours == theirs {
            self.equal += 1;
        } else if is_lawful {
            self.lawful += 1;
        } else {
            self.wrong += 1;
            if self.wrong <= 20 {
                let start = |text: String| text.chars().take(200).collect::<String>();
                println!("{}", start(what.into()));
                println!("    ours   {}\n    theirs {}", start(format!("{ours:?}")), start(format!("{theirs:?}")));
            }
        }
    }

    fn input(&mut self, label: &str, bytes: &[u8]) {
        let (ours, theirs) = (ours::read(ours::encoding(label), bytes), theirs::read(theirs::encoding(label), bytes));
        let is_lawful = is_chinese(label) && in_2022(&theirs) == ours;
        self.add(&format!("{label}: {bytes:02X?}"), ours, theirs, is_lawful);
    }

    fn text(&mut self, label: &str, text: &str) {
        let (ours, theirs) =
            (ours::written(ours::encoding(label), text), theirs::written(theirs::encoding(label), text));
        let is_lawful = is_chinese(label) && text.contains(EDITION.map(|(_, new)| new));
        self.add(&format!("{label}: {text:?}"), ours, theirs, is_lawful);
    }
}

fn is_chinese(label: &str) -> bool {
    matches!(label, "gb18030" | "gbk")
}

/// What was decoded, with the characters of the edition of 2022 for those of 2005.
fn in_2022(read: &Read) -> Read {
    let one = |character| EDITION.iter().find(|(old, _)| *old == character).map_or(character, |(_, new)| *new);
    let all = |text: &str| text.chars().map(one).collect::<String>();
    Read {
        text: all(&read.text),
        strict: read.strict.as_deref().map(all),
        units: all(&String::from_utf16_lossy(&read.units)).encode_utf16().collect(),
        ..*read
    }
}

/// Compares the texts that are timed, each input of up to two bytes, each character, and inputs and texts at random.
pub fn run() -> ExitCode {
    let mut count = Count::default();
    let mut state = 1_u64;
    let mut below = |bound: usize| {
        state = state.wrapping_mul(6364136223846793005).wrapping_add(1442695040888963407);
        (state >> 33) as usize % bound
    };
    for label in LABELS.split_whitespace() {
        for (of, short) in TEXTS {
            let long = if of == label { long_text(of) } else { String::new() };
            for text in [short, &long] {
                count.text(label, text);
                count.input(label, &theirs::written(theirs::encoding(of), text).bytes);
            }
        }
        count.input(label, b"");
        for byte in 0..=0xFF {
            count.input(label, &[byte]);
            (0..=0xFF).for_each(|next| count.input(label, &[byte, next]));
        }
        let characters: Vec<char> = ('\0'..='\u{FFFF}').chain(('\u{10000}'..='\u{10FFFF}').step_by(61)).collect();
        for character in &characters {
            count.text(label, character.encode_utf8(&mut [0; 4]));
        }
        for _ in 0..20_000 {
            // Leads and trails, digits, escapes and marks.
            let parts: [&[u8]; 9] =
                [b"\x1B(J", b"\x1B$B", b"\x1B(I", b"\x1B", b"\x0E", b"\xEF\xBB\xBF", b"\xFF\xFE", b"\x8E", b"\x8F"];
            let (mut bytes, mut text) = (Vec::new(), String::new());
            for _ in 0..below(24) {
                match below(8) {
                    0 => bytes.extend(parts[below(parts.len())]),
                    1 => bytes.push(below(0x100) as u8),
                    2 | 3 => bytes.push(0x30 + below(0x50) as u8),
                    _ => bytes.push(0x81 + below(0x7E) as u8),
                }
                let bound = [0x250, characters.len()][below(2)];
                text.push(characters[below(bound)]);
            }
            count.input(label, &bytes);
            count.text(label, &text);
        }
    }
    println!("{} equal, {} lawful differences, {} others", count.equal, count.lawful, count.wrong);
    ExitCode::from(u8::from(count.wrong > 0))
}
