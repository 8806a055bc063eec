//! The words of layouts, scripts and journals: numbers, IDs, bytes and lines.

use crate::id::Id;
use std::fmt;

/// One to nine decimal digits; leading zeros are allowed.
pub fn decimal(word: &str) -> Option<u32> {
    let is_number = (1..=9).contains(&word.len()) && word.bytes().all(|b| b.is_ascii_digit());
    if is_number {
        word.parse().ok()
    } else {
        None
    }
}

fn digit(byte: u8) -> Option<u8> {
    match byte {
        b'0'..=b'9' => Some(byte - b'0'),
        b'a'..=b'f' => Some(byte - b'a' + 10),
        _ => None,
    }
}

/// A hexadecimal number of `least` to `most` lower-case digits.
pub fn hexadecimal(word: &str, least: usize, most: usize) -> Option<u64> {
    if word.len() < least || word.len() > most {
        return None;
    }
    word.bytes().try_fold(0, |sum, b| Some(sum << 4 | u64::from(digit(b)?)))
}

/// A hexadecimal number of exactly so many digits, at most eight.
pub fn fixed(word: &str, digits: usize) -> Option<u32> {
    hexadecimal(word, digits, digits).map(|n| n as u32)
}

/// An ID as `03:00.0`.
pub fn id(word: &str) -> Option<Id> {
    let bytes = word.as_bytes();
    if bytes.len() != 7 || bytes[2] != b':' || bytes[5] != b'.' {
        return None;
    }
    let nibble = |at: usize| digit(bytes[at]).map(u16::from);
    let bus = nibble(0)? << 4 | nibble(1)?;
    let device = nibble(3)? << 4 | nibble(4)?;
    let function = nibble(6)?;
    (device < 32 && function < 8).then_some(Id(bus << 8 | device << 3 | function))
}

/// Whole bytes in lower-case hexadecimal, one at least, or `-` for none.
pub fn bytes(word: &str) -> Option<Vec<u8>> {
    if word == "-" {
        return Some(Vec::new());
    }
    if word.is_empty() || word.len() % 2 != 0 {
        return None;
    }
    word.as_bytes().chunks(2).map(|pair| Some(digit(pair[0])? << 4 | digit(pair[1])?)).collect()
}

/// Bytes as `bytes` reads them.
pub struct Hex<'a>(pub &'a [u8]);

impl fmt::Display for Hex<'_> {
    fn fmt(&self, f: &mut fmt::Formatter) -> fmt::Result {
        if self.0.is_empty() {
            return f.write_str("-");
        }
        self.0.iter().try_for_each(|byte| write!(f, "{byte:02x}"))
    }
}

/// The lines of a text with their numbers from 1; of the last one, whether its line feed is missing.
pub fn lines(text: &str) -> impl Iterator<Item = (u32, &str, bool)> {
    text.split_inclusive('\n').zip(1..).map(|(line, number)| match line.strip_suffix('\n') {
        Some(line) => (number, line, true),
        None => (number, line, false),
    })
}
