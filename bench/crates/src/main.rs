//! The crate for Rust beside Debian's encoding_rs. `bench/rust_crates.py` builds and runs it: it prints a row for each
//! work, as cells with tabs between them. What counts is the processor time of the thread; the sides take turns. With
//! `--compare` it times nothing, and compares results.

mod compare;

use std::process::ExitCode;

const LONG: usize = 16_000_000;

/// What is timed, over one of the two crates.
macro_rules! side {
    ($side:ident) => {
        mod $side {
            use crate::compare::{Read, Written};
            use std::borrow::Cow;
            use std::hint::black_box;

            pub type Encoding = &'static $side::Encoding;

            pub fn encoding(label: &str) -> Encoding {
                $side::Encoding::for_label(label.as_bytes()).unwrap()
            }

            /// A whole input, to a text.
            pub fn decode(encoding: Encoding, bytes: &[u8]) {
                black_box(encoding.decode(black_box(bytes)));
            }

            /// A whole text, to bytes.
            pub fn encode(encoding: Encoding, text: &str) {
                black_box(encoding.encode(black_box(text)));
            }

            /// What the calls that decode a whole input give.
            pub fn read(encoding: Encoding, bytes: &[u8]) -> Read {
                let (text, used, had_errors) = encoding.decode(bytes);
                let strict = encoding.decode_without_bom_handling_and_without_replacement(bytes);
                let mut decoder = encoding.new_decoder();
                let mut units = vec![0; decoder.max_utf16_buffer_length(bytes.len()).unwrap()];
                let (_, _, written, _) = decoder.decode_to_utf16(bytes, &mut units, true);
                units.truncate(written);
                Read {
                    is_borrowed: matches!(text, Cow::Borrowed(_)),
                    text: text.into_owned(),
                    encoding: used.name(),
                    had_errors,
                    strict: strict.map(Cow::into_owned),
                    units,
                }
            }

            /// What the calls that encode a whole text give.
            pub fn written(encoding: Encoding, text: &str) -> Written {
                let (bytes, used, had_unmappable) = encoding.encode(text);
                let units: Vec<u16> = text.encode_utf16().collect();
                // A reference has ten bytes at most, and an escape behind it three; ten are kept back.
                let mut from_units = vec![0; 13 * units.len() + 16];
                let (_, _, written, _) = encoding.new_encoder().encode_from_utf16(&units, &mut from_units, true);
                from_units.truncate(written);
                Written {
                    is_borrowed: matches!(bytes, Cow::Borrowed(_)),
                    bytes: bytes.into_owned(),
                    encoding: used.name(),
                    had_unmappable,
                    from_units,
                }
            }

            /// A decoder that is made and dropped.
            pub fn make(encoding: Encoding) {
                black_box(encoding.new_decoder());
            }

            /// A stream through a room, with a coder of its own.
            macro_rules! stream {
                ($name:ident, $call:ident, $coder:ident, $src:ty, $unit:ty) => {
                    pub fn $name(encoding: Encoding, mut src: &$src, room: &mut [$unit]) {
                        let mut coder = encoding.$coder();
                        while let ($side::CoderResult::OutputFull, read, ..) = coder.$call(black_box(src), room, true) {
                            src = &src[read..];
                        }
                    }
                };
            }

            stream!(to_utf8, decode_to_utf8, new_decoder, [u8], u8);
            stream!(to_utf16, decode_to_utf16, new_decoder, [u8], u16);
            stream!(from_utf8, encode_from_utf8, new_encoder, str, u8);
            stream!(from_utf16, encode_from_utf16, new_encoder, [u16], u8);
        }
    };
}

side!(ours);
side!(theirs);

/// The processor time of this thread, in nanoseconds.
fn now() -> f64 {
    #[repr(C)]
    struct Time {
        seconds: i64,
        nanoseconds: i64,
    }
    extern "C" {
        fn clock_gettime(clock: i32, time: *mut Time) -> i32;
    }
    let mut time = Time { seconds: 0, nanoseconds: 0 };
    // SAFETY: the place is of the call's own. 3 is CLOCK_THREAD_CPUTIME_ID.
    unsafe { clock_gettime(3, &mut time) };
    time.seconds as f64 * 1e9 + time.nanoseconds as f64
}

/// What a work took on both sides: the least nanoseconds, and the ratio of theirs to ours of each round, in order.
struct Timed {
    least: [f64; 2],
    ratios: Vec<f64>,
}

/// Times two works, in turns of a fiftieth of a second or of one call.
fn timed(rounds: usize, mut works: [&mut dyn FnMut(); 2]) -> Timed {
    let mut time = |side: usize, count: usize| {
        let start = now();
        (0..count).for_each(|_| works[side]());
        (now() - start) / count as f64
    };
    let counts = [0, 1].map(|side| ((2e7 / time(side, 1).max(20.0)) as usize).clamp(1, 500_000));
    let rounds: Vec<[f64; 2]> = (0..rounds).map(|_| [0, 1].map(|side| time(side, counts[side]))).collect();
    let mut ratios: Vec<f64> = rounds.iter().map(|[ours, theirs]| theirs / ours).collect();
    ratios.sort_by(f64::total_cmp);
    let least = [0, 1].map(|side| rounds.iter().map(|round| round[side]).fold(f64::MAX, f64::min));
    Timed { least, ratios }
}

/// Prints a row. A long one has MB of source a second, another nanoseconds.
fn print(label: &str, work: &str, length: usize, is_long: bool, timed: Timed) {
    let [ours, theirs] = timed.least.map(|time| if is_long { length as f64 / time * 1e3 } else { time });
    let ratio = |quarter: usize| timed.ratios[(timed.ratios.len() - 1) * quarter / 4];
    let kind = if is_long { "long" } else { "short" };
    println!("{kind}\t{label}\t{work}\t{ours:.0}\t{theirs:.0}\t{:.2}\t{:.2}\t{:.2}", ratio(2), ratio(1), ratio(3));
}

/// Words of the characters that an encoding has for two bytes, or of letters, at random, in UTF-8.
fn long_text(label: &str) -> String {
    let their = theirs::encoding(label);
    let pairs = (0x81..=0xFE_u8).flat_map(|lead| (0x40..=0xFE_u8).map(move |trail| [lead, trail]));
    let characters: Vec<char> = match label {
        "utf-8" | "utf-16le" => {
            ('a'..='z').chain('à'..='ÿ').chain('а'..='я').chain('ぁ'..='ん').chain('一'..='丿').collect()
        }
        "windows-1252" => ('a'..='z').chain('a'..='z').chain('a'..='z').chain('à'..='ö').collect(),
        "iso-2022-jp" => ('ぁ'..='ん').chain('ァ'..='ヶ').collect(),
        _ => pairs
            .filter_map(|pair| their.decode_without_bom_handling_and_without_replacement(&pair)?.chars().next())
            .collect(),
    };
    let (mut text, mut state) = (String::new(), 1_u64);
    let mut next = |below: usize| {
        state = state.wrapping_mul(6364136223846793005).wrapping_add(1442695040888963407);
        (state >> 33) as usize % below
    };
    while text.len() < 1_000_000 {
        (0..2 + next(8)).for_each(|_| text.push(characters[next(characters.len())]));
        text.push(' ');
    }
    // What its own encoding has no bytes for would be written as references.
    if let "utf-8" | "utf-16le" = label {
        return text;
    }
    text.chars().filter(|character| !their.encode(character.encode_utf8(&mut [0; 4])).2).collect()
}

/// The rows of a text in an encoding.
fn measure(rounds: usize, label: &str, text: &str, is_long: bool) {
    let (our, their) = (ours::encoding(label), theirs::encoding(label));
    let bytes = match label {
        "utf-16le" => text.encode_utf16().flat_map(u16::to_le_bytes).collect(),
        _ => their.encode(text).0.into_owned(),
    };
    let times = if is_long { LONG / bytes.len() } else { 1 };
    let (bytes, text) = (bytes.repeat(times), text.repeat(times));
    let units: Vec<u16> = text.encode_utf16().collect();
    let (mut room, mut other) = (vec![0; 1 << 16], vec![0; 1 << 16]);
    let (mut wide, mut other_wide) = (vec![0; 1 << 15], vec![0; 1 << 15]);
    let row = |work: &str, length: usize, ours: &mut dyn FnMut(), theirs: &mut dyn FnMut()| {
        print(label, work, length, is_long, timed(rounds, [ours, theirs]));
    };
    row("decode", bytes.len(), &mut || ours::decode(our, &bytes), &mut || theirs::decode(their, &bytes));
    // A text that is UTF-8 is borrowed, whatever its length.
    if !is_long || our.output_encoding() != ours::encoding("utf-8") {
        row("encode", text.len(), &mut || ours::encode(our, &text), &mut || theirs::encode(their, &text));
    }
    row("to UTF-8", bytes.len(), &mut || ours::to_utf8(our, &bytes, &mut room), &mut || {
        theirs::to_utf8(their, &bytes, &mut other)
    });
    row("to UTF-16", bytes.len(), &mut || ours::to_utf16(our, &bytes, &mut wide), &mut || {
        theirs::to_utf16(their, &bytes, &mut other_wide)
    });
    row("from UTF-8", text.len(), &mut || ours::from_utf8(our, &text, &mut room), &mut || {
        theirs::from_utf8(their, &text, &mut other)
    });
    row("from UTF-16", 2 * units.len(), &mut || ours::from_utf16(our, &units, &mut room), &mut || {
        theirs::from_utf16(their, &units, &mut other)
    });
    if !is_long {
        row("decoder made and dropped", 0, &mut || ours::make(our), &mut || theirs::make(their));
    }
}

/// The encodings that are timed, each with a short text.
const TEXTS: [(&str, &str); 10] = [
    ("utf-8", "日本語テス a"),
    ("windows-1252", "Voilà déjà 20 octets"),
    ("shift_jis", "日本語テスト、カナ"),
    ("euc-jp", "日本語テスト、カナ"),
    ("iso-2022-jp", "日本語テス"),
    ("gb18030", "简体中文测试，文本"),
    ("gbk", "简体中文测试，文本"),
    ("big5", "繁體中文測試，文本"),
    ("euc-kr", "한국어 시험 문장임"),
    ("utf-16le", "Voilà déjà"),
];

fn main() -> ExitCode {
    let word = std::env::args().nth(1);
    if word.as_deref() == Some("--compare") {
        return compare::run();
    }
    let rounds = word.map_or(15, |rounds| rounds.parse().unwrap());
    for (label, _) in TEXTS {
        measure(rounds, label, &long_text(label), true);
    }
    for (label, text) in TEXTS {
        measure(rounds, label, text, false);
    }
    ExitCode::SUCCESS
}
