//! Bytes in lower-case hex, `.` for none.

use std::fmt::{self, Display, Formatter};

/// The bytes that a word stands for.
pub fn read(word: &[u8]) -> Option<Vec<u8>> {
    if word == b"." {
        return Some(Vec::new());
    }
    let pairs = word.chunks_exact(2);
    if word.is_empty() || !pairs.remainder().is_empty() {
        return None;
    }
    pairs.map(|pair| Some(value(pair[0])? * 16 + value(pair[1])?)).collect()
}

/// What a digit stands for.
fn value(digit: u8) -> Option<u8> {
    match digit {
        b'0'..=b'9' => Some(digit - b'0'),
        b'a'..=b'f' => Some(digit - b'a' + 10),
        _ => None,
    }
}

/// Bytes to be printed.
pub struct Hex<'a>(pub &'a [u8]);

impl Display for Hex<'_> {
    fn fmt(&self, out: &mut Formatter) -> fmt::Result {
        if self.0.is_empty() {
            return out.write_str(".");
        }
        self.0.iter().try_for_each(|byte| write!(out, "{byte:02x}"))
    }
}

#[cfg(test)]
mod tests {
    use super::*;

    #[test]
    fn there_and_back() {
        let all: Vec<u8> = (0..=u8::MAX).collect();
        assert_eq!(read(Hex(&all).to_string().as_bytes()), Some(all));
        assert_eq!(read(b"."), Some(Vec::new()));
        assert_eq!(Hex(&[]).to_string(), ".");
        assert_eq!(Hex(&[0x0a, 0xf0]).to_string(), "0af0");
    }

    #[test]
    fn what_is_no_hex() {
        for word in ["", "0", "000", "0g", "g0", "0A", "..", ".0", "0:", "0/", "0`"] {
            assert_eq!(read(word.as_bytes()), None, "{word}");
        }
    }
}
