//! Measures functions of `encoding_mem` beside the functions of the same names of the crate `encoding_rs`.
//!
//!     kernels [WORD]     all rows, or those whose function has the word in its name
//!
//! Both are called by pointer, on the same input and the same destination. Before it measures, it compares
//! what the two answer and write. Then they run in turn, in many short rounds, so that what else the machine
//! does meets both, and the time that counts is the processor's.

mod ours;
mod texts;
mod theirs;

use ours::{Converts, Mends, Reads};
use std::hint::black_box;
use std::time::Duration;
use texts::Text;

/// A round takes about this long, and at least one call.
const ROUND: Duration = Duration::from_micros(1500);
const ROUNDS: usize = 41;

/// Sizes of the texts, in bytes of UTF-8.
const SIZES: [usize; 2] = [1_000_000, 64];

#[derive(Clone, Copy)]
enum Call {
    Bytes(Reads<u8>),
    Units(Reads<u16>),
    BytesToBytes(Converts<u8, u8>),
    BytesToUnits(Converts<u8, u16>),
    UnitsToBytes(Converts<u16, u8>),
    InUnits(Mends<u16>),
}

/// The texts that a function reads to the end.
#[derive(Clone, Copy, PartialEq, PartialOrd)]
enum Reach {
    Ascii,
    Latin1,
    All,
}

struct Kernel {
    name: &'static str,
    reach: Reach,
    /// Whether its bytes are Latin1; otherwise they are UTF-8.
    takes_latin1: bool,
    ours: Call,
    theirs: Call,
}

/// Where the functions write.
struct Room {
    bytes: Vec<u8>,
    units: Vec<u16>,
}

impl Room {
    /// Room for each conversion of a text of so many bytes. Bytes of 0 are a text, as some functions ask.
    fn new(size: usize) -> Room {
        Room {
            bytes: vec![0; 3 * size + 16],
            units: vec![0; size + 16],
        }
    }
}

fn kernels() -> Vec<Kernel> {
    let mut all = Vec::new();
    macro_rules! kernels {
        ($call:ident, $reach:ident, $latin1:literal: $($name:ident = $ours:ident),*) => { $(
            all.push(Kernel {
                name: stringify!($name),
                reach: Reach::$reach,
                takes_latin1: $latin1,
                ours: Call::$call(ours::$ours),
                theirs: Call::$call(theirs::$name),
            });
        )* };
    }
    kernels!(Bytes, Ascii, false: is_ascii = ours_is_ascii);
    kernels!(Units, Ascii, false: is_basic_latin = ours_is_basic_latin);
    kernels!(Bytes, Ascii, false: ascii_valid_up_to = ours_ascii_valid_up_to,
        iso_2022_jp_ascii_valid_up_to = ours_iso_2022_jp_ascii_valid_up_to);
    kernels!(Bytes, All, false: utf8_valid_up_to = ours_utf8_valid_up_to);
    kernels!(Units, All, false: utf16_valid_up_to = ours_utf16_valid_up_to);
    kernels!(InUnits, All, false: ensure_utf16_validity = ours_ensure_utf16_validity);
    kernels!(Bytes, Latin1, false: is_utf8_latin1 = ours_is_utf8_latin1, is_str_latin1 = ours_is_str_latin1);
    kernels!(Units, Latin1, false: is_utf16_latin1 = ours_is_utf16_latin1);
    kernels!(Bytes, Latin1, false: utf8_latin1_up_to = ours_utf8_latin1_up_to,
        str_latin1_up_to = ours_str_latin1_up_to);
    kernels!(Bytes, All, false: is_utf8_bidi = ours_is_utf8_bidi, is_str_bidi = ours_is_str_bidi);
    kernels!(Units, All, false: is_utf16_bidi = ours_is_utf16_bidi);
    kernels!(Bytes, All, false: check_utf8_for_latin1_and_bidi = ours_check_utf8_for_latin1_and_bidi,
        check_str_for_latin1_and_bidi = ours_check_str_for_latin1_and_bidi);
    kernels!(Units, All, false: check_utf16_for_latin1_and_bidi = ours_check_utf16_for_latin1_and_bidi);
    kernels!(BytesToUnits, All, false: convert_utf8_to_utf16 = ours_convert_utf8_to_utf16,
        convert_str_to_utf16 = ours_convert_str_to_utf16,
        convert_utf8_to_utf16_without_replacement = ours_convert_utf8_to_utf16_without_replacement);
    kernels!(UnitsToBytes, All, false: convert_utf16_to_utf8 = ours_convert_utf16_to_utf8,
        convert_utf16_to_str = ours_convert_utf16_to_str);
    kernels!(BytesToUnits, Latin1, true: convert_latin1_to_utf16 = ours_convert_latin1_to_utf16);
    kernels!(BytesToBytes, Latin1, true: convert_latin1_to_utf8 = ours_convert_latin1_to_utf8,
        convert_latin1_to_str = ours_convert_latin1_to_str);
    kernels!(BytesToBytes, Latin1, false: convert_utf8_to_latin1_lossy = ours_convert_utf8_to_latin1_lossy);
    kernels!(UnitsToBytes, Latin1, false: convert_utf16_to_latin1_lossy = ours_convert_utf16_to_latin1_lossy);
    kernels!(Bytes, Latin1, true: decode_latin1 = ours_decode_latin1);
    kernels!(Bytes, Latin1, false: encode_latin1_lossy = ours_encode_latin1_lossy);
    kernels!(BytesToBytes, Ascii, false: copy_ascii_to_ascii = ours_copy_ascii_to_ascii);
    kernels!(BytesToUnits, Ascii, false: copy_ascii_to_basic_latin = ours_copy_ascii_to_basic_latin);
    kernels!(UnitsToBytes, Ascii, false: copy_basic_latin_to_ascii = ours_copy_basic_latin_to_ascii);
    all
}

/// Calls a function so many times, and gives its last answer.
fn repeat<T, U>(
    times: u64,
    src: &[T],
    dst: &mut [U],
    call: impl Fn(&[T], &mut [U]) -> usize,
) -> usize {
    let mut answer = 0;
    for _ in 0..times {
        answer = black_box(call(black_box(src), black_box(&mut *dst)));
    }
    answer
}

impl Kernel {
    fn bytes<'a>(&self, text: &'a Text) -> &'a [u8] {
        if self.takes_latin1 {
            &text.latin1
        } else {
            &text.utf8
        }
    }

    /// The bytes of input that one call reads.
    fn size(&self, text: &Text) -> usize {
        match self.ours {
            Call::Units(_) | Call::UnitsToBytes(_) | Call::InUnits(_) => 2 * text.utf16.len(),
            _ => self.bytes(text).len(),
        }
    }

    // Each function's demands are met: UTF-8 is well-formed, no character is above U+00FF where that is
    // asked, the room is as large as any asks for, and it is a text for those that want one, since each
    // kernel gets a new room.
    fn run(&self, call: Call, text: &Text, room: &mut Room, times: u64) -> usize {
        let (bytes, units) = (self.bytes(text), &text.utf16[..]);
        match black_box(call) {
            Call::Bytes(f) => repeat(times, bytes, &mut room.units, |s, _| unsafe {
                f(s.as_ptr(), s.len())
            }),
            Call::Units(f) => repeat(times, units, &mut room.units, |s, _| unsafe {
                f(s.as_ptr(), s.len())
            }),
            Call::BytesToBytes(f) => repeat(times, bytes, &mut room.bytes, |s, d| unsafe {
                f(s.as_ptr(), s.len(), d.as_mut_ptr(), d.len())
            }),
            Call::BytesToUnits(f) => repeat(times, bytes, &mut room.units, |s, d| unsafe {
                f(s.as_ptr(), s.len(), d.as_mut_ptr(), d.len())
            }),
            Call::UnitsToBytes(f) => repeat(times, units, &mut room.bytes, |s, d| unsafe {
                f(s.as_ptr(), s.len(), d.as_mut_ptr(), d.len())
            }),
            Call::InUnits(f) => repeat(
                times,
                units,
                &mut room.units[..units.len()],
                |_, d| unsafe { f(d.as_mut_ptr(), d.len()) },
            ),
        }
    }

    fn room(&self, text: &Text) -> Room {
        let mut room = Room::new(text.utf8.len());
        if let Call::InUnits(_) = self.ours {
            room.units[..text.utf16.len()].copy_from_slice(&text.utf16);
        }
        room
    }

    /// Stops where the two answer or write something else.
    fn compare(&self, text: &Text) {
        let (mut a, mut b) = (self.room(text), self.room(text));
        let ours = self.run(self.ours, text, &mut a, 1);
        let theirs = self.run(self.theirs, text, &mut b, 1);
        assert_eq!(ours, theirs, "{} of {}: answers", self.name, text.name);
        // Theirs may write more than it answers.
        match self.ours {
            Call::Bytes(_) | Call::Units(_) => {}
            Call::BytesToBytes(_) | Call::UnitsToBytes(_) => {
                assert!(
                    a.bytes[..ours] == b.bytes[..ours],
                    "{} of {}: bytes",
                    self.name,
                    text.name
                )
            }
            Call::BytesToUnits(_) | Call::InUnits(_) => {
                assert!(
                    a.units[..ours] == b.units[..ours],
                    "{} of {}: units",
                    self.name,
                    text.name
                )
            }
        }
    }

    /// How long some calls take.
    fn time(&self, call: Call, text: &Text, room: &mut Room, times: u64) -> Duration {
        let start = processor_time();
        self.run(call, text, room, times);
        processor_time() - start
    }

    /// How many calls fill a round.
    fn fill(&self, call: Call, text: &Text, room: &mut Room) -> u64 {
        let mut times = 1;
        while self.time(call, text, room, times) < ROUND / 2 {
            times *= 2;
        }
        times
    }

    /// The speeds in MB/s, ours and theirs, by the median of the rounds, and the median ratio of two
    /// rounds that ran one behind the other.
    fn measure(&self, text: &Text) -> (f64, f64, f64) {
        let mut room = self.room(text);
        let (ours, theirs) = (
            self.fill(self.ours, text, &mut room),
            self.fill(self.theirs, text, &mut room),
        );
        let rate =
            |times: u64, t: Duration| times as f64 * self.size(text) as f64 / t.as_secs_f64() / 1e6;
        let mut rows: Vec<(f64, f64)> = Vec::new();
        for round in 0..ROUNDS {
            let mut row = (0.0, 0.0);
            for turn in 0..2 {
                if (round + turn) % 2 == 0 {
                    row.0 = rate(ours, self.time(self.ours, text, &mut room, ours));
                } else {
                    row.1 = rate(theirs, self.time(self.theirs, text, &mut room, theirs));
                }
            }
            rows.push(row);
        }
        (
            median(rows.iter().map(|r| r.0)),
            median(rows.iter().map(|r| r.1)),
            median(rows.iter().map(|r| r.0 / r.1)),
        )
    }
}

/// The time that this thread has run: what others do meanwhile does not count.
fn processor_time() -> Duration {
    #[repr(C)]
    struct Timespec {
        seconds: i64,
        nanoseconds: i64,
    }
    unsafe extern "C" {
        fn clock_gettime(clock: i32, time: *mut Timespec) -> i32;
    }
    const THREAD_PROCESSOR_TIME: i32 = 3;
    let mut time = Timespec {
        seconds: 0,
        nanoseconds: 0,
    };
    let status = unsafe { clock_gettime(THREAD_PROCESSOR_TIME, &mut time) };
    assert_eq!(status, 0, "this system has no clock of a thread's time");
    Duration::new(time.seconds as u64, time.nanoseconds as u32)
}

fn median(numbers: impl Iterator<Item = f64>) -> f64 {
    let mut numbers: Vec<f64> = numbers.collect();
    numbers.sort_by(f64::total_cmp);
    numbers[numbers.len() / 2]
}

fn main() {
    let word = std::env::args().nth(1).unwrap_or_default();
    let texts: Vec<Vec<Text>> = SIZES.iter().map(|n| texts::all(*n)).collect();
    println!("| Function | Text | ours, 1 MB | theirs | ratio | ours, 64 bytes | theirs | ratio |");
    println!("|---|---|---:|---:|---:|---:|---:|---:|");
    for kernel in kernels().iter().filter(|k| k.name.contains(&word)) {
        for (place, reach) in [Reach::Ascii, Reach::Latin1, Reach::All]
            .into_iter()
            .enumerate()
        {
            if reach > kernel.reach {
                continue;
            }
            print!("| `{}` | {} |", kernel.name, texts[0][place].name);
            for sized in &texts {
                kernel.compare(&sized[place]);
                let (ours, theirs, ratio) = kernel.measure(&sized[place]);
                print!(" {ours:.0} | {theirs:.0} | {ratio:.2} |");
            }
            println!();
        }
    }
}
