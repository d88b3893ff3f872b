//! The fields of one line, parted by one space and taken in order.

use std::str::Split;

const ONE_SPACE: &str = "one space parts the fields, and none stands around them";

pub struct Fields<'a>(Split<'a, char>);

impl<'a> Fields<'a> {
    pub fn new(line: &'a str) -> Self {
        Fields(line.split(' '))
    }

    pub fn word(&mut self, name: &str) -> Result<&'a str, String> {
        match self.0.next() {
            Some("") => Err(format!("field {name} is empty: {ONE_SPACE}")),
            Some(word) => Ok(word),
            None => Err(format!("field {name} is missing")),
        }
    }

    /// A decimal number that has at most `bits` bits.
    fn sized(&mut self, name: &str, bits: u32) -> Result<u64, String> {
        let word = self.word(name)?;
        number(word, bits).map_err(|what| format!("field {name}: {what}"))
    }

    pub fn u64(&mut self, name: &str) -> Result<u64, String> {
        self.sized(name, 64)
    }

    pub fn u32(&mut self, name: &str) -> Result<u32, String> {
        Ok(self.sized(name, 32)? as u32)
    }

    pub fn u8(&mut self, name: &str) -> Result<u8, String> {
        Ok(self.sized(name, 8)? as u8)
    }

    /// A count, then so many numbers.
    pub fn list(&mut self, count: &str, item: &str) -> Result<Vec<u64>, String> {
        let count = self.u64(count)?;
        let mut items = Vec::new();
        for i in 1..=count {
            items.push(self.u64(&format!("{item}{i}"))?);
        }
        Ok(items)
    }

    pub fn array<const N: usize>(&mut self, name: &str) -> Result<[u64; N], String> {
        let mut items = [0; N];
        for (i, item) in items.iter_mut().enumerate() {
            *item = self.u64(&format!("{name}{i}"))?;
        }
        Ok(items)
    }

    pub fn hex(&mut self, name: &str) -> Result<Vec<u8>, String> {
        let word = self.0.next();
        let word = word.ok_or_else(|| format!("field {name} is missing"))?;
        bytes(word).map_err(|what| format!("field {name}: {what}"))
    }

    /// The given word and no other.
    pub fn expect(&mut self, word: &str) -> Result<(), String> {
        match self.word(word)? {
            found if found == word => Ok(()),
            found => Err(format!("`{found}` stands where `{word}` belongs")),
        }
    }

    pub fn end(&mut self) -> Result<(), String> {
        match self.0.next() {
            None => Ok(()),
            Some("") => Err(format!("a space at the end: {ONE_SPACE}")),
            Some(word) => Err(format!("spare field `{word}`")),
        }
    }
}

fn number(word: &str, bits: u32) -> Result<u64, String> {
    if word.is_empty() || !word.bytes().all(|b| b.is_ascii_digit()) {
        return Err(format!("`{word}` is no decimal number"));
    }
    let most = u64::MAX >> (64 - bits);
    word.parse::<u64>()
        .ok()
        .filter(|n| *n <= most)
        .ok_or_else(|| format!("{word} is over {most}, the most that {bits} bits hold"))
}

/// Lowercase hex, `-` for no bytes.
fn bytes(word: &str) -> Result<Vec<u8>, String> {
    if word == "-" {
        return Ok(Vec::new());
    }
    if word.is_empty() {
        return Err("no hex digits; `-` stands for no bytes".to_owned());
    }
    if let Some(bad) = word.chars().find(|c| !matches!(c, '0'..='9' | 'a'..='f')) {
        return Err(format!("`{bad}` is no lowercase hex digit"));
    }
    if !word.len().is_multiple_of(2) {
        return Err("an odd number of hex digits".to_owned());
    }
    let digit = |b: u8| match b {
        b'0'..=b'9' => b - b'0',
        _ => b - b'a' + 10,
    };
    Ok(word
        .as_bytes()
        .chunks_exact(2)
        .map(|pair| digit(pair[0]) << 4 | digit(pair[1]))
        .collect())
}

/// Bytes as lowercase hex, `-` for none.
pub fn hex(bytes: &[u8]) -> String {
    const DIGITS: &[u8; 16] = b"0123456789abcdef";
    if bytes.is_empty() {
        return "-".to_owned();
    }
    let mut text = String::with_capacity(2 * bytes.len());
    for byte in bytes {
        text.push(DIGITS[usize::from(byte >> 4)] as char);
        text.push(DIGITS[usize::from(byte & 15)] as char);
    }
    text
}
