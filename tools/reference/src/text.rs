//! Words of a query line, and the forms that bytes are given in.

use crate::draw::Draw;
use std::fmt::Display;
use std::str::{FromStr, SplitWhitespace};

pub struct Words<'a>(SplitWhitespace<'a>);

impl<'a> Words<'a> {
    pub fn new(line: &'a str) -> Self {
        Self(line.split_whitespace())
    }

    pub fn word(&mut self) -> Result<&'a str, String> {
        self.0.next().ok_or_else(|| "a word is missing".into())
    }

    pub fn number<T: FromStr>(&mut self) -> Result<T, String> {
        number(self.word()?)
    }

    /// 0 or 1.
    pub fn flag(&mut self) -> Result<bool, String> {
        match self.word()? {
            "0" => Ok(false),
            "1" => Ok(true),
            other => Err(format!("{other} is not 0 or 1")),
        }
    }

    pub fn numbers<T: FromStr, const N: usize>(&mut self) -> Result<[T; N], String> {
        let all = (0..N).map(|_| self.number()).collect::<Result<Vec<T>, _>>()?;
        Ok(all.try_into().unwrap_or_else(|_| unreachable!()))
    }

    pub fn hex(&mut self) -> Result<Vec<u8>, String> {
        unhex(self.word()?)
    }

    /// Exactly `N` bytes in hexadecimal.
    pub fn array<const N: usize>(&mut self) -> Result<[u8; N], String> {
        self.hex()?.try_into().map_err(|v: Vec<u8>| format!("{} bytes where {N} are due", v.len()))
    }

    pub fn end(&mut self) -> Result<(), String> {
        self.0.next().map_or(Ok(()), |word| Err(format!("{word} is one word too many")))
    }
}

pub fn number<T: FromStr>(word: &str) -> Result<T, String> {
    word.parse().map_err(|_| format!("{word} is not a number in range"))
}

/// Lowercase, two digits a byte; `-` stands for no bytes.
pub fn hex(bytes: &[u8]) -> String {
    if bytes.is_empty() {
        return "-".into();
    }
    bytes.iter().map(|b| format!("{b:02x}")).collect()
}

fn unhex(word: &str) -> Result<Vec<u8>, String> {
    if word == "-" {
        return Ok(Vec::new());
    }
    if !word.is_ascii() || word.len() % 2 != 0 {
        return Err(format!("{word} is not hexadecimal"));
    }
    (0..word.len() / 2)
        .map(|i| u8::from_str_radix(&word[2 * i..2 * i + 2], 16).map_err(|_| format!("{word} is not hexadecimal")))
        .collect()
}

/// Bytes by length: `fill:N` (all N), `seed:N` (draws below `below`), or hexadecimal of just that length.
pub fn bytes_of(word: &str, length: usize, below: u32) -> Result<Vec<u8>, String> {
    if let Some(value) = word.strip_prefix("fill:") {
        return Ok(vec![number(value)?; length]);
    }
    if let Some(seed) = word.strip_prefix("seed:") {
        let mut draw = Draw::new(number(seed)?);
        return Ok((0..length).map(|_| draw.below(below) as u8).collect());
    }
    let bytes = unhex(word)?;
    if bytes.len() != length {
        return Err(format!("{} bytes where {length} are due", bytes.len()));
    }
    Ok(bytes)
}

pub fn join<T: Display>(values: impl IntoIterator<Item = T>, between: &str) -> String {
    values.into_iter().map(|v| v.to_string()).collect::<Vec<_>>().join(between)
}
