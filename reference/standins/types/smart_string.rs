//! Stand-in for small strings. Each may remember the place of the name that it is.
//!
//! The original keeps names as strings only. Since a string here carries its place along, the
//! names and imports that a run leaves can be told with their places. Equality, order and hash are
//! those of the text alone.

use rules::place::Place;
use std::cmp::Ordering;
use std::fmt;
use std::hash::{Hash, Hasher};
use std::iter::FromIterator;
use std::ops::Deref;

#[derive(Clone, Default)]
pub struct SmartString {
    text: String,
    place: Option<Place>,
}

pub fn new_smart_string() -> SmartString {
    SmartString::default()
}

impl SmartString {
    /// A name. Its bytes become characters one by one, so that any bytes are a text.
    pub fn name(bytes: &[u8], place: Place) -> Self {
        Self {
            text: text_of(bytes),
            place: Some(place),
        }
    }
    pub fn place(&self) -> Option<Place> {
        self.place
    }
    pub fn as_str(&self) -> &str {
        &self.text
    }
    pub fn push(&mut self, c: char) {
        self.text.push(c);
    }
    pub fn push_str(&mut self, s: &str) {
        self.text.push_str(s);
    }
}

/// Bytes as a text: equal texts for equal bytes, and only for them.
pub fn text_of(bytes: &[u8]) -> String {
    bytes.iter().map(|&byte| char::from(byte)).collect()
}

impl Deref for SmartString {
    type Target = str;

    fn deref(&self) -> &str {
        &self.text
    }
}

impl AsRef<str> for SmartString {
    fn as_ref(&self) -> &str {
        &self.text
    }
}

impl PartialEq for SmartString {
    fn eq(&self, other: &Self) -> bool {
        self.text == other.text
    }
}

impl Eq for SmartString {}

impl PartialOrd for SmartString {
    fn partial_cmp(&self, other: &Self) -> Option<Ordering> {
        Some(self.cmp(other))
    }
}

impl Ord for SmartString {
    fn cmp(&self, other: &Self) -> Ordering {
        self.text.cmp(&other.text)
    }
}

impl Hash for SmartString {
    fn hash<H: Hasher>(&self, state: &mut H) {
        self.text.hash(state);
    }
}

impl fmt::Display for SmartString {
    fn fmt(&self, f: &mut fmt::Formatter<'_>) -> fmt::Result {
        fmt::Display::fmt(&self.text, f)
    }
}

impl fmt::Debug for SmartString {
    fn fmt(&self, f: &mut fmt::Formatter<'_>) -> fmt::Result {
        fmt::Debug::fmt(&self.text, f)
    }
}

impl From<String> for SmartString {
    fn from(text: String) -> Self {
        Self { text, place: None }
    }
}

impl From<&String> for SmartString {
    fn from(text: &String) -> Self {
        text.clone().into()
    }
}

impl From<&str> for SmartString {
    fn from(text: &str) -> Self {
        text.to_string().into()
    }
}

impl From<Box<str>> for SmartString {
    fn from(text: Box<str>) -> Self {
        text.into_string().into()
    }
}

impl From<SmartString> for String {
    fn from(string: SmartString) -> Self {
        string.text
    }
}

impl<'a> FromIterator<&'a str> for SmartString {
    fn from_iter<I: IntoIterator<Item = &'a str>>(parts: I) -> Self {
        parts.into_iter().collect::<String>().into()
    }
}

impl FromIterator<char> for SmartString {
    fn from_iter<I: IntoIterator<Item = char>>(parts: I) -> Self {
        parts.into_iter().collect::<String>().into()
    }
}

impl FromIterator<String> for SmartString {
    fn from_iter<I: IntoIterator<Item = String>>(parts: I) -> Self {
        parts.into_iter().collect::<String>().into()
    }
}

impl FromIterator<SmartString> for SmartString {
    fn from_iter<I: IntoIterator<Item = SmartString>>(parts: I) -> Self {
        parts
            .into_iter()
            .map(|part| part.text)
            .collect::<String>()
            .into()
    }
}
