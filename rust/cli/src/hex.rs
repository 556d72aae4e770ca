//! Bytes as pairs of hexadecimal digits.

/// The bytes that `text` stands for, white space left out, and no more than `at_most` of them; None if it is anything but pairs of digits.
pub fn decode(text: &[u8], at_most: usize) -> Option<Vec<u8>> {
    // All the room at once: a vector that grows leaves copies of a key behind.
    let mut bytes = Vec::with_capacity(at_most.min(text.len() / 2));
    let mut digits = text.iter().filter(|byte| !byte.is_ascii_whitespace());
    while bytes.len() < at_most {
        let Some(high) = digits.next() else { break };
        bytes.push(digit(*high)? << 4 | digit(*digits.next()?)?);
    }
    Some(bytes)
}

fn digit(byte: u8) -> Option<u8> {
    char::from(byte).to_digit(16).map(|value| value as u8)
}

/// Two small digits for each byte.
pub fn encode(bytes: &[u8]) -> String {
    let digits = |byte: &u8| [byte >> 4, byte & 15].map(|value| char::from(b"0123456789abcdef"[usize::from(value)]));
    bytes.iter().flat_map(digits).collect()
}

#[cfg(test)]
mod tests {
    use super::*;

    #[test]
    fn every_byte_comes_back() {
        let bytes: Vec<u8> = (0..=255).collect();
        assert_eq!(decode(encode(&bytes).as_bytes(), 256), Some(bytes.clone()));
        assert_eq!(decode(encode(&bytes).to_uppercase().as_bytes(), 256), Some(bytes));
    }

    #[test]
    fn white_space_is_left_out() {
        assert_eq!(decode(b" 0 3\t07\r\nAc\n", 9), Some(vec![3, 7, 0xAC]));
        assert_eq!(decode(b" \n", 9), Some(vec![]));
        assert_eq!(decode(b"", 9), Some(vec![]));
    }

    #[test]
    fn anything_else_is_none() {
        for text in ["0", "012", "0g", "g0", "0x03", "03,07", "\u{fc}", "-1", "+1"] {
            assert_eq!(decode(text.as_bytes(), 9), None, "{text}");
        }
    }

    #[test]
    fn no_more_than_asked_for() {
        assert_eq!(decode(b"010203", 2), Some(vec![1, 2]));
        assert_eq!(decode(b"010203", 0), Some(vec![]));
        assert_eq!(decode(b"0102 and words", 2), Some(vec![1, 2]));
    }
}
