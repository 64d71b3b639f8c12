//! The lines and words of a text, and how a text is refused (`docs/FORMATS.md`, "Lines, words, numbers,
//! names").

use std::collections::HashMap;
use std::hash::{BuildHasherDefault, Hasher};

use crate::limits::{FRONT_LINE, Limits};

/// Why a line is refused (`docs/FORMATS.md`, "Refusals").
#[derive(Clone, Copy)]
pub enum Code {
    Form = 1,
    Limit = 2,
    Unknown = 3,
    Defined = 4,
    Consumed = 5,
    Order = 6,
    Taken = 7,
    BadBox = 8,
    NotLocal = 9,
    BadPlace = 10,
    Missing = 11,
    Ended = 12,
}

/// A line, counted from 1, and the first test that it fails.
pub struct Refusal {
    pub line: usize,
    pub code: Code,
}

/// Returns an error unless the test holds.
pub fn ensure(holds: bool, code: Code) -> Result<(), Code> {
    if holds { Ok(()) } else { Err(code) }
}

/// Reads a text word by word. All lines before `end` are ended.
pub struct Lines<'a> {
    pub limits: &'static Limits,
    text: &'a [u8],
    end: usize,
    at: usize,
    line: usize,
}

impl<'a> Lines<'a> {
    pub fn new(text: &'a [u8]) -> Self {
        let end = text.iter().rposition(|&byte| byte == b'\n').map_or(0, |last| last + 1);
        let line = usize::from(text.starts_with(FRONT_LINE));
        Lines { limits: Limits::of(text), text, end, at: line * FRONT_LINE.len(), line }
    }

    /// Returns how many bytes were read.
    pub fn offset(&self) -> usize {
        self.at
    }

    /// Goes on to the next line.
    pub fn begin(&mut self) -> Result<(), Refusal> {
        self.line += 1;
        if self.at < self.end { Ok(()) } else { Err(self.refusal(Code::Ended)) }
    }

    /// Refuses what stands after the last section.
    pub fn finish(&mut self) -> Result<(), Refusal> {
        self.line += 1;
        if self.at == self.text.len() { Ok(()) } else { Err(self.refusal(Code::Ended)) }
    }

    pub fn refusal(&self, code: Code) -> Refusal {
        Refusal { line: self.line, code }
    }

    /// Returns the bytes up to the next space or line feed.
    pub fn word(&mut self) -> &'a [u8] {
        let rest = &self.text[self.at..self.end];
        let length = rest.iter().position(|&byte| byte == b' ' || byte == b'\n').unwrap_or(rest.len());
        self.at += length;
        &rest[..length]
    }

    /// Takes a byte if it comes next.
    fn take(&mut self, byte: u8) -> Option<()> {
        if self.text[self.at] == byte {
            self.at += 1;
            Some(())
        } else {
            None
        }
    }

    pub fn end_line(&mut self) -> Option<()> {
        self.take(b'\n')
    }

    /// Takes a space and then this word.
    pub fn fixed(&mut self, word: &[u8]) -> Option<()> {
        self.take(b' ')?;
        if self.text[self.at..self.end].starts_with(word) {
            self.at += word.len();
            Some(())
        } else {
            None
        }
    }

    /// Takes a space and then a number of at most nine digits, without leading zeros.
    pub fn number(&mut self) -> Option<u32> {
        self.take(b' ')?;
        let first = self.at;
        let mut number = 0;
        while self.text[self.at].is_ascii_digit() && self.at < first + 10 {
            number = number * 10 + u64::from(self.text[self.at] - b'0');
            self.at += 1;
        }
        let length = self.at - first;
        let is_number = (1..=9).contains(&length) && (self.text[first] != b'0' || length == 1);
        is_number.then_some(number as u32)
    }

    pub fn numbers<const N: usize>(&mut self) -> Option<[u32; N]> {
        let mut numbers = [0; N];
        for number in &mut numbers {
            *number = self.number()?;
        }
        Some(numbers)
    }

    /// Takes a space and then a name of at most 32 bytes.
    pub fn name(&mut self) -> Option<&'a [u8]> {
        self.take(b' ')?;
        let first = self.at;
        if !self.text[first].is_ascii_lowercase() {
            return None;
        }
        while IN_NAME[usize::from(self.text[self.at])] {
            self.at += 1;
        }
        (self.at - first <= 32).then(|| &self.text[first..self.at])
    }

    /// Takes a space and then `*`, or else a number (None stands for `*`).
    pub fn time(&mut self) -> Option<Option<u32>> {
        if self.text[self.at..self.end].starts_with(b" *") {
            self.at += 2;
            return Some(None);
        }
        self.number().map(Some)
    }

    /// Takes a space and then the signal `1`, or else a name (None stands for `1`).
    pub fn signal(&mut self) -> Option<Option<&'a [u8]>> {
        if self.text[self.at..self.end].starts_with(b" 1") {
            self.at += 2;
            return Some(None);
        }
        self.name().map(Some)
    }
}

/// The bytes of a name: small letters, digits and underscores.
const IN_NAME: [bool; 256] = {
    let mut table = [false; 256];
    let mut byte = 0;
    while byte < 256 {
        let letter = byte as u8;
        table[byte] = letter.is_ascii_lowercase() || letter.is_ascii_digit() || letter == b'_';
        byte += 1;
    }
    table
};

/// A fast hash of words of 64 bits: multiply and rotate.
#[derive(Default)]
pub struct Mixer(u64);

impl Hasher for Mixer {
    fn write(&mut self, bytes: &[u8]) {
        let (words, rest) = bytes.as_chunks::<8>();
        for word in words {
            self.write_u64(u64::from_le_bytes(*word));
        }
        if !rest.is_empty() {
            let tail = rest.iter().fold(1, |tail, &byte| tail << 8 | u64::from(byte));
            self.write_u64(tail);
        }
    }

    fn write_u64(&mut self, word: u64) {
        self.0 = (self.0.rotate_left(5) ^ word).wrapping_mul(0x9E37_79B9_7F4A_7C15);
    }

    fn write_usize(&mut self, word: usize) {
        self.write_u64(word as u64);
    }

    fn finish(&self) -> u64 {
        self.0 ^ self.0 >> 32
    }
}

pub type FastMap<K, V> = HashMap<K, V, BuildHasherDefault<Mixer>>;
