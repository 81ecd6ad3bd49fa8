//! Encodings as serde writes and reads them.
#![cfg(feature = "serde")]

use encoding_rs::{Encoding, SHIFT_JIS, WINDOWS_1252};
use serde::de::value::{Error, StrDeserializer};
use serde::de::IntoDeserializer;
use serde::{Deserialize, Serialize};
use std::fmt;

struct Written<'a>(&'a Encoding);

impl fmt::Display for Written<'_> {
    fn fmt(&self, f: &mut fmt::Formatter) -> fmt::Result {
        self.0.serialize(f)
    }
}

#[test]
fn written_by_its_name() {
    assert_eq!(Written(SHIFT_JIS).to_string(), "Shift_JIS");
}

#[test]
fn read_by_any_label() {
    let read = |label: &'static str| {
        let deserializer: StrDeserializer<Error> = label.into_deserializer();
        <&Encoding>::deserialize(deserializer)
    };
    assert_eq!(read("Shift_JIS"), Ok(SHIFT_JIS));
    assert_eq!(read(" Latin1"), Ok(WINDOWS_1252));
    assert!(read("none").is_err());
}
