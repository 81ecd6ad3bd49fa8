//! An encoding as serde writes it, by its name, and reads it, by any label of it.

use crate::Encoding;
use serde::de::{Deserialize, Deserializer, Error, Visitor};
use serde::ser::{Serialize, Serializer};
use std::fmt;

impl Serialize for Encoding {
    fn serialize<S: Serializer>(&self, serializer: S) -> Result<S::Ok, S::Error> {
        serializer.serialize_str(self.name)
    }
}

struct Label;

impl Visitor<'_> for Label {
    type Value = &'static Encoding;

    fn expecting(&self, formatter: &mut fmt::Formatter) -> fmt::Result {
        formatter.write_str("a label of an encoding")
    }

    fn visit_str<E: Error>(self, label: &str) -> Result<&'static Encoding, E> {
        Encoding::for_label(label.as_bytes())
            .ok_or_else(|| E::custom(format_args!("no encoding has the label {label}")))
    }
}

impl<'de> Deserialize<'de> for &'static Encoding {
    fn deserialize<D: Deserializer<'de>>(deserializer: D) -> Result<&'static Encoding, D::Error> {
        deserializer.deserialize_str(Label)
    }
}
