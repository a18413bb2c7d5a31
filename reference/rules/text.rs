//! Lines of words, and bytes as hexadecimal digits.

use std::fmt;
use std::str::{FromStr, SplitWhitespace};

/// What is wrong with a line of a case file.
#[derive(Debug, Clone, PartialEq, Eq)]
pub struct ParseError {
    pub line: usize,
    pub message: String,
}

impl fmt::Display for ParseError {
    fn fmt(&self, f: &mut fmt::Formatter<'_>) -> fmt::Result {
        write!(f, "line {}: {}", self.line, self.message)
    }
}

/// The words of one line, read from left to right.
pub struct Line<'a> {
    number: usize,
    words: SplitWhitespace<'a>,
}

impl<'a> Line<'a> {
    pub fn new(number: usize, text: &'a str) -> Self {
        Self {
            number,
            words: text.split_whitespace(),
        }
    }

    pub fn error(&self, message: &str) -> ParseError {
        ParseError {
            line: self.number,
            message: message.to_string(),
        }
    }

    /// The next word, if there is one.
    pub fn next_word(&mut self) -> Option<&'a str> {
        self.words.next()
    }

    pub fn word(&mut self) -> Result<&'a str, ParseError> {
        self.words
            .next()
            .ok_or_else(|| self.error("the line ends too early"))
    }

    pub fn number<T: FromStr>(&mut self) -> Result<T, ParseError> {
        let word = self.word()?;
        word.parse()
            .map_err(|_| self.error(&format!("no such number: {word}")))
    }

    pub fn flag(&mut self) -> Result<bool, ParseError> {
        match self.word()? {
            "0" => Ok(false),
            "1" => Ok(true),
            other => Err(self.error(&format!("neither 0 nor 1: {other}"))),
        }
    }

    /// Bytes as pairs of hexadecimal digits; `-` for none.
    pub fn bytes(&mut self) -> Result<Vec<u8>, ParseError> {
        let word = self.word()?;
        if word == "-" {
            return Ok(Vec::new());
        }
        from_hex(word).ok_or_else(|| self.error("no hexadecimal digits"))
    }

    pub fn end(&mut self) -> Result<(), ParseError> {
        match self.words.next() {
            None => Ok(()),
            Some(word) => Err(self.error(&format!("too many words: {word}"))),
        }
    }
}

pub fn to_hex(bytes: &[u8]) -> String {
    if bytes.is_empty() {
        return "-".to_string();
    }
    bytes.iter().map(|b| format!("{b:02x}")).collect()
}

pub fn from_hex(word: &str) -> Option<Vec<u8>> {
    let digits: Option<Vec<u8>> = word
        .chars()
        .map(|c| c.to_digit(16).map(|d| d as u8))
        .collect();
    let digits = digits.filter(|d| d.len() % 2 == 0)?;
    Some(
        digits
            .chunks(2)
            .map(|pair| pair[0] * 16 + pair[1])
            .collect(),
    )
}
