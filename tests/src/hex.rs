//! Bytes written in hexadecimal.

/// The bytes of a hexadecimal text, blanks left out; nothing where it is no such text.
pub fn bytes(text: &str) -> Option<Vec<u8>> {
    let mut digits = Vec::with_capacity(text.len());
    for letter in text.chars().filter(|letter| !letter.is_whitespace()) {
        digits.push(letter.to_digit(16)? as u8);
    }
    let pairs = digits.chunks_exact(2);
    let whole = pairs.remainder().is_empty();
    whole.then(|| pairs.map(|pair| 16 * pair[0] + pair[1]).collect())
}

/// Bytes as a hexadecimal text.
pub fn text(bytes: &[u8]) -> String {
    bytes.iter().map(|byte| format!("{byte:02x}")).collect()
}
