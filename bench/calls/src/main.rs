//! Calls of the library for C on texts of which a call takes a little, beside encoding_rs: ROUNDS INDEXES. A line for each
//! row, its cells between tabs. `bench/c_calls.py` runs it.

mod library;

use library::{encode, latin1_into_text, number_of, tables, up_to_invalid, Encoder, Tables};
use std::hint::black_box;

const JAPANESE: &str = "吾輩は猫である。名前はまだ無い。どこで生れたかとんと見当がつかぬ。";
const WESTERN: &str = "Vingt octets déjà là, et même à côté où ça coûte moins cher qu'à l'été. ";
const ASCII: &str = "Twenty bytes of text, and then some more of them, all of which are ASCII. ";

/// The processor time of this thread, in nanoseconds.
fn now() -> f64 {
    #[repr(C)]
    struct Time {
        seconds: i64,
        nanoseconds: i64,
    }
    extern "C" {
        fn clock_gettime(clock: i32, time: *mut Time) -> i32;
    }
    let mut time = Time { seconds: 0, nanoseconds: 0 };
    // CLOCK_THREAD_CPUTIME_ID
    unsafe { clock_gettime(3, &mut time) };
    time.seconds as f64 * 1e9 + time.nanoseconds as f64
}

fn timed(work: &mut dyn FnMut(), count: usize) -> f64 {
    let start = now();
    for _ in 0..count {
        work();
    }
    (now() - start) / count as f64
}

/// How often a work is done in a round: for about a fiftieth of a second.
fn count_for(work: &mut dyn FnMut()) -> usize {
    let once = timed(work, 3).max(1.0);
    ((2e7 / once) as usize).clamp(1, 100_000)
}

fn quartiles(mut values: Vec<f64>) -> (f64, f64, f64) {
    values.sort_by(f64::total_cmp);
    let at = |part: f64| values[((values.len() - 1) as f64 * part).round() as usize];
    (at(0.25), at(0.5), at(0.75))
}

/// All, in turns: the median time of each, and the quartiles of the ratios of ours to that of each peer's that is next to it.
fn compare(title: &str, unit: f64, rounds: usize, ours: &mut dyn FnMut(), peers: &mut [&mut dyn FnMut()]) {
    let own_count = count_for(ours);
    let counts: Vec<usize> = peers.iter_mut().map(|peer| count_for(*peer)).collect();
    let mut own = Vec::new();
    let mut others: Vec<(Vec<f64>, Vec<f64>)> = counts.iter().map(|_| (Vec::new(), Vec::new())).collect();
    for _ in 0..rounds {
        let took = timed(ours, own_count);
        own.push(took);
        for ((peer, count), (times, ratios)) in peers.iter_mut().zip(&counts).zip(&mut others) {
            let other = timed(*peer, *count);
            times.push(other);
            ratios.push(took / other);
        }
    }
    print!("{title}\t{:.3}", quartiles(own).1 / unit);
    for (times, ratios) in others {
        let (low, middle, high) = quartiles(ratios);
        print!("\t{:.3}\t{middle:.2} ({low:.2} to {high:.2})", quartiles(times).1 / unit);
    }
    println!();
}

fn repeated(text: &str, len: usize) -> String {
    let mut made = String::with_capacity(len + text.len());
    while made.len() < len {
        made.push_str(text);
    }
    while made.len() > len {
        made.pop();
    }
    made
}

/// A text through room that is used again.
fn ours_through(tables: Tables, encoding: u8, text: &str, room: &mut [u8], made: &mut Vec<u8>) {
    let (mut encoder, mut rest) = (Encoder::new(tables, encoding), text.as_bytes());
    loop {
        let progress = encoder.encode(rest, room, true);
        made.extend_from_slice(&room[..progress.written]);
        rest = &rest[progress.read..];
        if progress.outcome == 0 {
            return;
        }
    }
}

fn theirs_through(encoding: &'static encoding_rs::Encoding, text: &str, room: &mut [u8], made: &mut Vec<u8>) {
    let (mut encoder, mut rest) = (encoding.new_encoder(), text);
    loop {
        let (result, read, written, _) = encoder.encode_from_utf8(rest, room, true);
        made.extend_from_slice(&room[..written]);
        rest = &rest[read..];
        if result == encoding_rs::CoderResult::InputEmpty {
            return;
        }
    }
}

fn main() {
    let mut words = std::env::args().skip(1);
    let rounds: usize = words.next().expect("ROUNDS").parse().expect("ROUNDS");
    let tables = tables(&words.next().expect("INDEXES"));
    let theirs_of = |label: &str| encoding_rs::Encoding::for_label(label.as_bytes()).unwrap();
    let sizes = [("1 KiB", 1 << 10), ("64 KiB", 1 << 16), ("1 MiB", 1 << 20)];

    for (name, size) in sizes {
        let text = repeated(JAPANESE, size);
        let (mut room, mut other) = ([0; 16], [0; 16]);
        let mut encoder = Encoder::new(tables, number_of("shift_jis"));
        let mut peer = theirs_of("shift_jis").new_encoder();
        compare(
            &format!("call\ta call with room for 16 bytes, Japanese text of {name}, to Shift_JIS"),
            1.0,
            rounds,
            &mut || {
                black_box(encoder.encode(text.as_bytes(), &mut room, false));
            },
            &mut [&mut || {
                let _ = black_box(peer.encode_from_utf8(&text, &mut other, false));
            }],
        );
    }
    for (name, size) in sizes {
        let mut text = repeated(JAPANESE, size).into_bytes();
        compare(
            &format!("call\t4 bytes of Latin1 into a text of {name}"),
            1.0,
            rounds,
            &mut || {
                black_box(latin1_into_text(b"abcd", &mut text));
            },
            &mut [],
        );
        let (text, mut units) = (repeated(JAPANESE, size), [0; 16]);
        compare(
            &format!("call\troom for 16 units of UTF-16, text of {name}, up to what is malformed"),
            1.0,
            rounds,
            &mut || {
                black_box(up_to_invalid(text.as_bytes(), &mut units));
            },
            &mut [],
        );
    }
    let texts = [
        ("Japanese", JAPANESE, ["shift_jis", "euc-jp", "iso-2022-jp", "utf-8"].as_slice()),
        ("Western", WESTERN, ["windows-1252", "utf-8"].as_slice()),
        ("ASCII", ASCII, ["windows-1252", "utf-8"].as_slice()),
    ];
    for (name, block, labels) in texts {
        let text = repeated(block, 1 << 20);
        for label in labels {
            for size in [256, 4096] {
                let (mut room, mut other, mut third) = (vec![0; size], vec![0; size], vec![0; size]);
                let (mut made, mut wanted, mut tested) = (Vec::new(), Vec::new(), Vec::new());
                ours_through(tables, number_of(label), &text, &mut room, &mut made);
                theirs_through(theirs_of(label), &text, &mut other, &mut wanted);
                assert!(made == wanted, "{name} to {label} differs");
                compare(
                    &format!("whole\t{name}, UTF-8 to {}, rooms of {size} bytes", theirs_of(label).name()),
                    1e6,
                    rounds,
                    &mut || {
                        made.clear();
                        ours_through(tables, number_of(label), &text, &mut room, &mut made);
                    },
                    &mut [
                        &mut || {
                            wanted.clear();
                            theirs_through(theirs_of(label), &text, &mut other, &mut wanted);
                        },
                        &mut || {
                            tested.clear();
                            let text = std::str::from_utf8(black_box(text.as_bytes())).unwrap();
                            theirs_through(theirs_of(label), text, &mut third, &mut tested);
                        },
                    ],
                );
            }
        }
    }
    for (name, block, label) in [("Western", WESTERN, "windows-1252"), ("Japanese", JAPANESE, "shift_jis")] {
        let text = repeated(block, 1 << 20);
        let mut room = vec![0; text.len() + 16];
        let len = encode(tables, number_of(label), text.as_bytes(), &mut room);
        assert!(room[..len] == *theirs_of(label).encode(&text).0, "{name} to {label} differs");
        compare(
            &format!("whole\t{name}, UTF-8 to {}, in one call (`jillapun_encode`)", theirs_of(label).name()),
            1e6,
            rounds,
            &mut || {
                black_box(encode(tables, number_of(label), text.as_bytes(), &mut room));
            },
            &mut [
                &mut || {
                    black_box(theirs_of(label).encode(&text));
                },
                &mut || {
                    black_box(theirs_of(label).encode(std::str::from_utf8(black_box(text.as_bytes())).unwrap()));
                },
            ],
        );
    }
}
