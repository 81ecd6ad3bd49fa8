//! The texts that are measured. They are the same in each run.

/// A text in each form in which it can be given to a function.
pub struct Text {
    pub name: &'static str,
    pub utf8: Vec<u8>,
    pub utf16: Vec<u16>,
    /// Nothing where a character is above U+00FF.
    pub latin1: Vec<u8>,
}

const ASCII: &str = "etaoinshrdlucmfwypvbgkjqxzETAOIN0123456789";
const WESTERN: &str = "etaoinshrdlucmfwypvbgkjqxzéèàçôûîïüöäßñáíóú";
// Scripts of two, three and four bytes a character in UTF-8, all written from left to right.
const SCRIPTS: [&str; 7] = [
    ASCII,
    WESTERN,
    "αβγδεζηθικλμνξοπρστυφχψω",
    "абвгдежзийклмнопрстуфхцчшщъыьэюя",
    "のはをにがたでてとしれさいうあるものこなか",
    "的一是不了人我在有他这为之大来以个中上们",
    "😀😁😂🤣😃😄😅😆😉😊😋😎😍😘🥰",
];

/// Words of one to ten letters, each of one alphabet, with a space behind it.
fn words(alphabets: &[&str], size: usize) -> String {
    let alphabets: Vec<Vec<char>> = alphabets.iter().map(|a| a.chars().collect()).collect();
    let mut state: u64 = 1;
    let mut next = |below: usize| {
        // A linear congruential generator (Knuth's MMIX constants), of which the high bits are taken.
        state = state
            .wrapping_mul(6364136223846793005)
            .wrapping_add(1442695040888963407);
        (state >> 33) as usize % below
    };
    let mut text = String::new();
    'words: loop {
        let alphabet = &alphabets[next(alphabets.len())];
        for _ in 0..1 + next(10) {
            let c = alphabet[next(alphabet.len())];
            if text.len() + c.len_utf8() > size {
                break 'words;
            }
            text.push(c);
        }
        if text.len() == size {
            break;
        }
        text.push(' ');
    }
    // A character of several bytes may have been too long for the end.
    while text.len() < size {
        text.push(' ');
    }
    text
}

fn text(name: &'static str, alphabets: &[&str], size: usize) -> Text {
    let text = words(alphabets, size);
    let narrow: Option<Vec<u8>> = text
        .chars()
        .map(|c| u8::try_from(u32::from(c)).ok())
        .collect();
    Text {
        name,
        utf16: text.encode_utf16().collect(),
        latin1: narrow.unwrap_or_default(),
        utf8: text.into_bytes(),
    }
}

/// Each text, with so many bytes of UTF-8.
pub fn all(size: usize) -> Vec<Text> {
    vec![
        text("ASCII", &[ASCII], size),
        // About one character in fifteen is not ASCII.
        text("Latin1", &[WESTERN, ASCII, ASCII, ASCII, ASCII], size),
        text("mixed", &SCRIPTS, size),
    ]
}
